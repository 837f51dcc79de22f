package step

import (
	"bytes"
	"errors"
	"os"
	"strings"
	"syscall"
	"testing"
)

const folder = "../../own-broker/"

// calls opens a kernel whose container makes calls of each kind, of which the first waits where asked.
func calls(t *testing.T, asked bool) (*Kernel, *Seat) {
	t.Helper()
	kernel, err := Open(folder+"policy.json", folder+"calls.txt")
	if err != nil {
		t.Fatal(err)
	}
	t.Cleanup(func() { kernel.Close() })
	if asked {
		if err := kernel.Run("0"); err != nil {
			t.Fatal(err)
		}
	}
	return kernel, kernel.Seat(3)
}

func wants(t *testing.T, what string, got, wanted error) {
	t.Helper()
	if !errors.Is(got, wanted) {
		t.Errorf("%s: %v, and not %v", what, got, wanted)
	}
}

func says(t *testing.T, kernel *Kernel, wanted string) {
	t.Helper()
	if kernel.Answer() != wanted {
		t.Errorf("the answer is %s, and not %s", kernel.Answer(), wanted)
	}
}

func TestFilesAreRefused(t *testing.T) {
	_, err := Open("no-such-policy", folder+"calls.txt")
	wants(t, "without a policy", err, syscall.EINVAL)
	_, err = OpenProgram("./no-such-program", folder+"policy.json", folder+"calls.txt")
	wants(t, "without a program", err, syscall.ENOENT)
}

func TestBeforeACall(t *testing.T) {
	kernel, seat := calls(t, false)
	tasks, notified, err := kernel.Able()
	if err != nil || notified || len(tasks) != 1 || tasks[0] != "0" {
		t.Error(tasks, notified, err)
	}
	_, err = seat.Recv()
	wants(t, "nothing is there", err, syscall.EAGAIN)
	for _, name := range []string{"0.1", "", "first", "0\nable"} {
		_, err = kernel.Step(name)
		wants(t, "no such task", err, syscall.ESRCH)
	}
	wants(t, "nobody", seat.OpenMem(99), syscall.ESRCH)
	wants(t, "no directory", seat.OpenDir(1, 77), syscall.EBADF)
	_, err = seat.Pread(make([]byte, 4), 0x10000)
	wants(t, "no memory", err, syscall.EFAULT)
	wants(t, "no memory", seat.WriteSysinfo(0x10000, new([112]byte)), syscall.EBADF)
	_, err = seat.AddfdResult()
	wants(t, "no request", err, syscall.ENOMSG)
	wants(t, "no seat", kernel.Seat(16).LetGo(), syscall.ECHRNG)
}

func TestAnswers(t *testing.T) {
	kernel, seat := calls(t, true)
	wants(t, "not received", seat.Send(Response{ID: 1}), syscall.EINPROGRESS)
	notif, err := seat.Recv()
	if err != nil || notif.ID != 1 || notif.Pid != 1 || notif.Nr != 257 || notif.Arch != 0xc000003e || notif.Args[1] != 0x10000 {
		t.Error(notif, err)
	}
	wants(t, "it waits", seat.IDValid(1), nil)
	wants(t, "an unknown flag", seat.Send(Response{ID: 1, Flags: 2}), syscall.EINVAL)
	wants(t, "a positive error", seat.Send(Response{ID: 1, Error: 1}), syscall.EINVAL)
	wants(t, "an answer", seat.Send(Response{ID: 1, Error: -int32(syscall.EDQUOT)}), nil)
	wants(t, "it is answered", seat.IDValid(1), syscall.ENOENT)
	if line, err := kernel.Step("0"); err != nil || line != "8 t0 resume EDQUOT" {
		t.Error(line, err)
	}
	wants(t, "it has gone", seat.Send(Response{ID: 1}), syscall.ENOENT)
}

func TestDescriptors(t *testing.T) {
	kernel, seat := calls(t, true)
	if _, err := seat.Recv(); err != nil {
		t.Fatal(err)
	}
	wants(t, "a number without SETFD", seat.Addfd(Addfd{ID: 1, SrcFd: 5, NewFd: 7}), syscall.EINVAL)
	wants(t, "not open", seat.Addfd(Addfd{ID: 1, SrcFd: 6}), syscall.EBADF)
	wants(t, "no such call", seat.Addfd(Addfd{ID: 2, SrcFd: 5}), syscall.ENOENT)
	wants(t, "asked for", seat.Addfd(Addfd{ID: 1, SrcFd: 5}), nil)
	wants(t, "asked for twice", seat.Addfd(Addfd{ID: 1, SrcFd: 5}), syscall.EALREADY)
	wants(t, "another seat", kernel.Seat(4).Addfd(Addfd{ID: 1, SrcFd: 5, Flags: AddfdSend}), syscall.EBUSY)
	_, err := seat.AddfdResult()
	wants(t, "not installed", err, syscall.EAGAIN)
	if _, err := kernel.Step("0"); err != nil {
		t.Error(err)
	}
	if number, err := seat.AddfdResult(); err != nil || number != 3 {
		t.Error(number, err)
	}
}

func TestLooks(t *testing.T) {
	kernel, seat := calls(t, true)
	if task, err := kernel.LookPid(1); err != nil || task != (Task{"0", 0, "sleeping"}) {
		t.Error(task, err)
	}
	_, err := kernel.LookPid(2)
	wants(t, "nobody", err, syscall.ESRCH)
	if input, output, err := kernel.LookListener(); err != nil || !input || output {
		t.Error(input, output, err)
	}
	notif, err := seat.Recv()
	if err != nil {
		t.Fatal(err)
	}
	if input, output, err := kernel.LookListener(); err != nil || input || !output {
		t.Error(input, output, err)
	}
	wants(t, "put", seat.Addfd(Addfd{ID: notif.ID, SrcFd: 5}), nil)
	if _, err := kernel.Step("0"); err != nil {
		t.Error(err)
	}
	for number, wanted := range []Object{{Kind: "console"}, {Kind: "console"}, {Kind: "console"}, {Kind: "file", File: 5}, {Kind: "none"}} {
		if object, err := kernel.LookFd(1, uint32(number)); err != nil || object != wanted {
			t.Error(number, object, err)
		}
	}
	wants(t, "made", seat.Mknodat(AtFdcwd, "/look \"", 0o020666, 259), nil)
	if node, err := kernel.LookPath(1, AtFdcwd, "look \"", false); err != nil || node.Kind != "chr" || node.Major != 1 || node.Minor != 3 {
		t.Error(node, err)
	}
	_, err = kernel.LookPath(1, 4, "look", true)
	wants(t, "no directory", err, syscall.EBADF)
	_, err = kernel.LookPath(1, AtFdcwd, "/none", true)
	wants(t, "no entry", err, syscall.ENOENT)
}

func TestMemory(t *testing.T) {
	_, seat := calls(t, true)
	wants(t, "open", seat.OpenMem(1), nil)
	wants(t, "open twice", seat.OpenMem(1), nil)
	path := make([]byte, 8)
	if count, err := seat.Pread(path, 0x10000); err != nil || count != 8 || string(path[:5]) != "/log\x00" {
		t.Error(count, err, path)
	}
	if count, err := seat.Pread(make([]byte, 2*MostRead), 0x10000); err != nil || count != MostRead {
		t.Error(count, err)
	}
	if count, err := seat.Pread(make([]byte, 64), 0x1fff0); err != nil || count != 16 {
		t.Error(count, err)
	}
	if count, err := seat.Pread(nil, 0x10000); err != nil || count != 0 {
		t.Error(count, err)
	}
	info := [112]byte{7}
	wants(t, "written", seat.WriteSysinfo(0x1f000, &info), nil)
	wants(t, "beyond the end", seat.WriteSysinfo(0x1ffff, &info), syscall.EFAULT)
	found := make([]byte, 112)
	if count, err := seat.Pread(found, 0x1f000); err != nil || count != 112 || !bytes.Equal(found, info[:]) {
		t.Error(count, err)
	}
}

func TestEffects(t *testing.T) {
	kernel, seat := calls(t, false)
	wants(t, "a device", seat.Mknodat(AtFdcwd, "/dev/a \"b\\\n", syscall.S_IFCHR|0o666, 259), nil)
	says(t, kernel, `1 w3 act mknod "/dev/a \"b\\\x0a" chr 1:3 ok`)
	wants(t, "it is there", seat.Mknodat(AtFdcwd, "/log", syscall.S_IFIFO, 0), syscall.EEXIST)
	wants(t, "no base", seat.Mknodat(4, "x", syscall.S_IFIFO, 0), syscall.EBADF)
	wants(t, "a mount", seat.Mount(Mount{Source: "/dev/sda1", Target: "/mnt", Type: "ext4", Flags: 1, Data: "x", Via: "fuse2fs", Shift: true}), nil)
	says(t, kernel, `4 w3 act mount "/dev/sda1" "/mnt" "ext4" flags=1 data="x" via=fuse2fs shift=1 ok`)
	wants(t, "an attribute", seat.Setxattr("/log", "user.a", []byte{0, 0xff}, 0), nil)
	says(t, kernel, `5 w3 act setxattr "/log" "user.a" 00ff flags=0 ok`)
	wants(t, "another one", seat.Setxattr("/log", "user.b", nil, 2), syscall.ENODATA)
	wants(t, "a long one", seat.Setxattr("/log", "user.b", make([]byte, 40_000), 0), syscall.EMSGSIZE)
}

// What is found of the broker, by what has happened so far.
func TestJudge(t *testing.T) {
	kernel, seat := calls(t, true)
	finds := func(judge func() (string, error), wanted string) {
		t.Helper()
		if found, err := judge(); err != nil || found != wanted {
			t.Error(found, err)
		}
	}
	_, err := seat.Recv()
	wants(t, "a notification", err, nil)
	finds(kernel.Judge, "mediated events=4 calls=1 effects=0 answers=0")
	finds(kernel.JudgeIdle, "broken 3 answer unanswered")
	wants(t, "a node", seat.Mknodat(AtFdcwd, "/dev/a", syscall.S_IFIFO|0o600, 0), nil)
	finds(kernel.Judge, "broken 4 harm other-request")
	wants(t, "the listener is closed", kernel.CloseListener(), nil)
	finds(kernel.JudgeIdle, "broken 4 harm other-request")
}

// The script of a session has its steps and its requests.
func TestScript(t *testing.T) {
	kernel, seat := calls(t, true)
	notif, err := seat.Recv()
	wants(t, "a notification", err, nil)
	wants(t, "a node", seat.Mknodat(AtFdcwd, `/dev/a "b`, syscall.S_IFIFO|0o600, 0), nil)
	wants(t, "an answer", seat.Send(Response{ID: notif.ID, Error: -int32(syscall.EPERM)}), nil)
	script, err := kernel.Script()
	if err != nil || !strings.HasSuffix(script, "\nend\nschedule\nt 0\nt 0\nw 3 recv\nw 3 act mknod \"/dev/a \\\"b\" 4480 0\nw 3 send 1 0 -1 0\nend\n") {
		t.Error(script, err)
	}
	wants(t, "the listener is closed", kernel.CloseListener(), nil)
	if again, err := kernel.Script(); err != nil || again != script {
		t.Error(again, err)
	}
}

// Behind the lines of a script that is as long as one may be no schedule fits.
func TestScriptThatIsTooLong(t *testing.T) {
	const program = "\nprog main\nend\n"
	path := t.TempDir() + "/script.txt"
	if err := os.WriteFile(path, []byte(strings.Repeat("#", 8_388_608-len(program))+program), 0o600); err != nil {
		t.Fatal(err)
	}
	kernel, err := Open(folder+"policy.json", path)
	if err != nil {
		t.Fatal(err)
	}
	defer kernel.Close()
	_, err = kernel.Script()
	wants(t, "no schedule fits", err, syscall.EFBIG)
}

func TestEnds(t *testing.T) {
	kernel, _ := calls(t, false)
	wants(t, "the listener is closed", kernel.CloseListener(), nil)
	_, err := kernel.Step("0")
	wants(t, "a step", err, syscall.ESHUTDOWN)
	report, err := kernel.Report()
	if err != nil || !strings.HasPrefix(report, "journal 2\n") || !strings.HasSuffix(report, " lost=0\n") {
		t.Error(report, err)
	}
	if status, err := kernel.Close(); err != nil || status != 0 {
		t.Error(status, err)
	}
	_, _, err = kernel.Able()
	wants(t, "the program has ended", err, syscall.EPIPE)
}
