// An agent in Go that waits at a Unix socket for the listener of a container, as crun and runc send it (OCI runtime specification, Container process
// state), and makes the harmless devices that are asked for by mknod(2), but none below /kept. All other calls are left to the kernel. What a program in
// Go asks of Linux no library can answer, so it makes the listener's calls by the package step.
package main

import (
	"bytes"
	"encoding/json"
	"errors"
	"flag"
	"fmt"
	"log"
	"net"
	"strings"
	"syscall"

	"seccompbroker/step"
)

var errCallerGone = errors.New("the call waits no more")

var harmless = map[[2]uint64]bool{{0, 0}: true, {1, 3}: true, {1, 5}: true, {1, 7}: true, {1, 8}: true, {1, 9}: true, {5, 0}: true, {5, 1}: true}

const pathMax, mostState = 4096, 65536

// containerProcessState is what is sent with the listener.
type containerProcessState struct {
	Fds      []string `json:"fds"`
	Pid      int      `json:"pid"`
	Metadata string   `json:"metadata"`
	State    struct {
		ID string `json:"id"`
	} `json:"state"`
}

// receive waits for a container, and gives its state. The listener comes with it.
func receive(path string) (state containerProcessState, err error) {
	waiting, err := net.ListenUnix("unix", &net.UnixAddr{Name: path, Net: "unix"})
	if err != nil {
		return state, err
	}
	defer waiting.Close()
	connected, err := waiting.AcceptUnix()
	if err != nil {
		return state, err
	}
	defer connected.Close()
	content, rights := make([]byte, mostState), make([]byte, syscall.CmsgSpace(4))
	count, ofRights, _, _, err := connected.ReadMsgUnix(content, rights)
	if err != nil {
		return state, err
	}
	if err := json.Unmarshal(content[:count], &state); err != nil {
		return state, err
	}
	messages, err := syscall.ParseSocketControlMessage(rights[:ofRights])
	if err != nil || len(messages) != 1 || len(state.Fds) != 1 {
		return state, fmt.Errorf("no listener came with the state: %v", err)
	}
	return state, nil
}

type agent struct {
	seat        *step.Seat
	checksAgain bool
}

func (a *agent) check(notif step.Notif) error {
	if a.seat.IDValid(notif.ID) != nil {
		return errCallerGone
	}
	return nil
}

func (a *agent) answer(response step.Response) error { return a.seat.Send(response) }

// serve serves a notification up to its answer.
func (a *agent) serve(notif step.Notif) error {
	mode, device := uint32(notif.Args[1])&0xffff, notif.Args[2]&0xffffffff
	if notif.Nr != syscall.SYS_MKNOD {
		return a.answer(step.Response{ID: notif.ID, Flags: step.Continue})
	}
	path, fault, err := a.copyPath(notif)
	if err != nil {
		return err
	}
	switch {
	case fault != 0:
		return a.answer(step.Response{ID: notif.ID, Error: -int32(fault)})
	case strings.HasPrefix(path, "/kept/"):
		return a.answer(step.Response{ID: notif.ID, Error: -int32(syscall.EPERM)})
	case mode&syscall.S_IFMT != syscall.S_IFCHR || !harmless[[2]uint64{device >> 8 & 0xfff, device&0xff | device>>12&^0xff}]:
		return a.answer(step.Response{ID: notif.ID, Flags: step.Continue})
	}
	var errno syscall.Errno
	errors.As(a.seat.Mknodat(step.AtFdcwd, path, mode, device), &errno)
	return a.answer(step.Response{ID: notif.ID, Error: -int32(errno)})
}

// copyPath copies the path out of the caller's memory, or says why it can't be copied.
func (a *agent) copyPath(notif step.Notif) (string, syscall.Errno, error) {
	if a.seat.OpenMem(notif.Pid) != nil || a.seat.OpenDir(notif.Pid, step.AtFdcwd) != nil {
		return "", 0, errCallerGone
	}
	if err := a.check(notif); err != nil {
		return "", 0, err
	}
	content := make([]byte, pathMax)
	count, err := a.seat.Pread(content, notif.Args[0])
	if a.checksAgain {
		if err := a.check(notif); err != nil {
			return "", 0, err
		}
	}
	end := bytes.IndexByte(content[:count], 0)
	switch {
	case err == nil && end >= 0:
		return string(content[:end]), 0, nil
	case count == pathMax:
		return "", syscall.ENAMETOOLONG, nil
	}
	return "", syscall.EFAULT, nil
}

func main() {
	noSecondCheck := flag.Bool("no-second-check", false, "makes no check behind the read")
	flag.Parse()
	state, err := receive(flag.Arg(0))
	if err != nil {
		log.Fatal(err)
	}
	fmt.Printf("container %s, whose first process is %d, with the metadata %q\n", state.State.ID, state.Pid, state.Metadata)
	kernel, err := step.Open("", "")
	if err != nil {
		log.Fatal(err)
	}
	defer kernel.Close()
	served := agent{kernel.Seat(0), !*noSecondCheck}
	for {
		notif, err := served.seat.Recv()
		if err == nil {
			err = served.serve(notif)
			served.seat.LetGo()
		}
		if errors.Is(err, syscall.ESHUTDOWN) || errors.Is(err, syscall.EPIPE) {
			return
		}
	}
}
