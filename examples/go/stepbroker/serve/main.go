// The small broker as a program: it serves the kernel of SECCOMP_BROKER_KERNEL, or the program on a policy and a script.
package main

import (
	"errors"
	"fmt"
	"os"
	"syscall"

	"seccompbroker/step"
	"seccompbroker/stepbroker"
)

func main() {
	policy, script := "", ""
	if len(os.Args) > 2 {
		policy, script = os.Args[1], os.Args[2]
	}
	kernel, err := step.Open(policy, script)
	if err != nil {
		fmt.Fprintln(os.Stderr, "the kernel can't be opened:", err)
		os.Exit(1)
	}
	defer kernel.Close()
	seat := kernel.Seat(0)
	for {
		notif, err := seat.Recv()
		if errors.Is(err, syscall.ENOENT) {
			continue
		}
		if err != nil {
			return
		}
		stepbroker.Serve(seat, notif)
	}
}
