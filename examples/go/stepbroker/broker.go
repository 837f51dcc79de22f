// Package stepbroker is a small broker: it makes the harmless devices that a container asks for by mknod(2), and leaves every other call to
// the kernel. The order is that of seccomp_unotify(2): open the caller's memory, check, read, check again, act, answer.
package stepbroker

import (
	"bytes"
	"errors"
	"syscall"

	"seccompbroker/step"
)

// ErrCallerGone says that the call waits no more: nothing may be done for it, and there is nobody to answer.
var ErrCallerGone = errors.New("the caller is gone")

// null, zero, full, random, urandom and tty: none of them reaches the host's disks or memory.
var harmless = map[[2]uint64]bool{{1, 3}: true, {1, 5}: true, {1, 7}: true, {1, 8}: true, {1, 9}: true, {5, 0}: true}

const pathMax = 4096

// piece is where a piece of the caller's memory ends: so no piece goes beyond a page. The report's audit follows a copy that is read in these pieces.
const piece = 256

// Serve serves a notification up to its answer, and lets go of it. It may give ErrCallerGone.
func Serve(seat *step.Seat, notif step.Notif) error {
	err := serve(seat, notif)
	if letGo := seat.LetGo(); err == nil {
		err = letGo
	}
	return err
}

func serve(seat *step.Seat, notif step.Notif) error {
	mode, device := uint32(notif.Args[1])&0xffff, notif.Args[2]
	if notif.Nr != syscall.SYS_MKNOD || mode&syscall.S_IFMT != syscall.S_IFCHR || !harmless[numbers(device)] {
		return answer(seat, step.Response{ID: notif.ID, Flags: step.Continue})
	}
	err := makeDevice(seat, notif, mode, device)
	var errno syscall.Errno
	switch {
	case err == nil:
		return answer(seat, step.Response{ID: notif.ID})
	case errors.As(err, &errno):
		return answer(seat, step.Response{ID: notif.ID, Error: -int32(errno)})
	}
	return err
}

// answer sends a response; one that comes too late finds nobody.
func answer(seat *step.Seat, response step.Response) error {
	err := seat.Send(response)
	if errors.Is(err, syscall.ENOENT) {
		return ErrCallerGone
	}
	return err
}

// numbers gives the major and the minor number of a device.
func numbers(device uint64) [2]uint64 {
	return [2]uint64{device >> 8 & 0xfff, device&0xff | device>>12&^0xff}
}

// makeDevice opens the caller's memory by its PID, copies the path, makes sure that all of this was the caller's, and makes the node.
func makeDevice(seat *step.Seat, notif step.Notif, mode uint32, device uint64) error {
	if err := open(seat, notif); err != nil {
		return err
	}
	path, fault := copyPath(seat, notif.Args[0])
	// What was read counts only if the call still waits: by now the memory may be another task's.
	if err := seat.IDValid(notif.ID); err != nil {
		return ErrCallerGone
	}
	if fault != nil {
		return fault
	}
	return seat.Mknodat(step.AtFdcwd, path, mode, device)
}

// open opens what the caller has, and makes sure that it was the caller's.
func open(seat *step.Seat, notif step.Notif) error {
	err := seat.OpenMem(notif.Pid)
	if err == nil {
		err = seat.OpenDir(notif.Pid, step.AtFdcwd)
	}
	if err == nil {
		err = seat.IDValid(notif.ID)
	}
	if errors.Is(err, syscall.ESRCH) || errors.Is(err, syscall.ENOENT) {
		return ErrCallerGone
	}
	return err
}

// copyPath copies a path out of the caller's memory.
func copyPath(seat *step.Seat, address uint64) (string, error) {
	var path []byte
	for len(path) < pathMax {
		at := address + uint64(len(path))
		buffer := make([]byte, piece-at%piece)
		count, err := seat.Pread(buffer, at)
		if err != nil {
			return "", err
		}
		path = append(path, buffer[:count]...)
		if end := bytes.IndexByte(path, 0); end >= 0 {
			return string(path[:end]), nil
		}
	}
	return "", syscall.ENAMETOOLONG
}
