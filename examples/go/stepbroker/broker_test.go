package stepbroker

import (
	"errors"
	"strings"
	"testing"

	"seccompbroker/step"
)

const folder = "../../own-broker/"

// askedForNull gives a kernel whose container has asked for /dev/null, and the notification at seat 0. Each test steps the container's tasks
// itself, so each order comes as it is wanted.
func askedForNull(t *testing.T) (*step.Kernel, *step.Seat, step.Notif) {
	t.Helper()
	kernel, err := step.Open(folder+"policy.json", folder+"script.txt")
	if err != nil {
		t.Fatal(err)
	}
	t.Cleanup(func() { kernel.Close() })
	steps(t, kernel, "0", "spawn 0.1 pid=301")
	if err := kernel.Run("0.1"); err != nil {
		t.Fatal(err)
	}
	notif, err := kernel.Seat(0).Recv()
	if err != nil {
		t.Fatal(err)
	}
	return kernel, kernel.Seat(0), notif
}

// steps lets a task step, and wants this to happen.
func steps(t *testing.T, kernel *step.Kernel, task, wanted string) {
	t.Helper()
	if line, err := kernel.Step(task); err != nil || !strings.Contains(line, wanted) {
		t.Errorf("task %s: %q, %v, and not %q", task, line, err, wanted)
	}
}

// reports wants the report to have a text, or not to have it.
func reports(t *testing.T, kernel *step.Kernel, text string, wanted bool) {
	t.Helper()
	report, err := kernel.Report()
	if err != nil || strings.Contains(report, text) != wanted {
		t.Errorf("%q in the report: wanted %v, %v\n%s", text, wanted, err, report)
	}
}

func TestDeviceIsMade(t *testing.T) {
	kernel, seat, notif := askedForNull(t)
	if err := Serve(seat, notif); err != nil {
		t.Error(err)
	}
	steps(t, kernel, "0.1", "resume 0")
	reports(t, kernel, " act mknod \"/dev/null\" chr 1:3 ok\n", true)
	reports(t, kernel, " mknod rule=lxd.mknod.1:3 verdict=grant answer=0 reply=sent\n", true)
}

// The caller is killed after its notification was received, and the next task gets its PID.
func TestCallerDies(t *testing.T) {
	kernel, seat, notif := askedForNull(t)
	steps(t, kernel, "0", "kill 301 9 ok")
	steps(t, kernel, "0.1", "deliver 9 end")
	steps(t, kernel, "0", "wait 0.1")
	steps(t, kernel, "0", "spawn 0.2 pid=301")
	steps(t, kernel, "0.2", "poke")
	if err := Serve(seat, notif); !errors.Is(err, ErrCallerGone) {
		t.Error(err)
	}
	reports(t, kernel, " open-mem 301 ok\n", true)
	reports(t, kernel, " act ", false)
	reports(t, kernel, " mknod rule=- verdict=gone answer=- reply=none\n", true)
}
