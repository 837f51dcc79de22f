// Package step lets your own broker serve the simulated kernel, which the program `seccomp-broker step POLICY SCRIPT` runs
// (docs/YOUR_BROKER.md).
//
// A call that the kernel refuses gives an *Error, which wraps the error of its manual page: errors.Is(err, syscall.ENOENT). With
// syscall.EAGAIN the real call would wait: nothing has happened; let tasks step, and ask again. Besides those that a call names, each call may give
// ECHRNG (there are 16 seats), ESHUTDOWN (the listener is closed), EMSGSIZE (the texts of the call are too long), EPIPE (the program has
// ended) and EPROTO (its answer can't be understood). The calls of one Kernel are for one goroutine at a time.
//
// Where the variable SECCOMP_BROKER_KERNEL names a Unix socket, Open connects there and starts no program: another one holds the kernel and steps the
// tasks, as explore-broker does. Then a call that would wait waits. Where SECCOMP_BROKER_SESSION names a file, requests and answers are written
// there, for reference-judge.
package step

import (
	"bufio"
	"bytes"
	"encoding/binary"
	"encoding/hex"
	"errors"
	"fmt"
	"io"
	"net"
	"os"
	"os/exec"
	"regexp"
	"strconv"
	"strings"
	"syscall"
)

// The flags of seccomp_unotify(2), and AT_FDCWD of openat(2).
const (
	Continue   = 1 // SECCOMP_USER_NOTIF_FLAG_CONTINUE
	AddfdSetfd = 1 // SECCOMP_ADDFD_FLAG_SETFD
	AddfdSend  = 2 // SECCOMP_ADDFD_FLAG_SEND
	AtFdcwd    = -100
)

// MostRead is how many bytes are read at once.
const MostRead = 4096

// Error is why a call did nothing: the error, and what the program answered.
type Error struct {
	Errno  syscall.Errno
	Answer string
}

func (e *Error) Error() string { return fmt.Sprintf("%s: %s", e.Errno.Error(), e.Answer) }

func (e *Error) Unwrap() error { return e.Errno }

// Notif is a notification (struct seccomp_notif).
type Notif struct {
	ID    uint64
	Pid   uint32
	Flags uint32
	Nr    int32
	Arch  uint32
	IP    uint64
	Args  [6]uint64
}

// Response is the answer to one (struct seccomp_notif_resp). Error is 0 or a negated error number.
type Response struct {
	ID    uint64
	Val   int64
	Error int32
	Flags uint32
}

// Addfd is a request for a descriptor (struct seccomp_notif_addfd).
type Addfd struct {
	ID         uint64
	Flags      uint32
	SrcFd      uint32
	NewFd      uint32
	NewFdFlags uint32
}

// Mount has the operands of mount(2), the program that makes it, if Via isn't empty, and if ids are shifted.
type Mount struct {
	Source, Target, Type string
	Flags                uint64
	Data                 string
	Via                  string
	Shift                bool
}

// Task is a task as a look sees it: the PID of its parent while that lives, else 0; and `running`, `sleeping`, `disk-sleep` or `zombie`.
type Task struct {
	Name  string
	Ppid  uint32
	State string
}

// Node is a node of the container's tree. No other node gets its ordinal. Its kind is `dir`, `reg`, `link`, `fifo`, `sock`, `chr` or `blk`; a device has
// numbers, and a link a target.
type Node struct {
	Ordinal      uint32
	Kind         string
	Major, Minor uint32
	Target       string
}

// Object is what a descriptor leads to: `none`, `console`, a `file` of the broker's by its number there, or a `node`.
type Object struct {
	Kind string
	File uint32
	Node Node
}

var errnos = map[string]syscall.Errno{
	"EPERM": syscall.EPERM, "ENOENT": syscall.ENOENT, "ESRCH": syscall.ESRCH, "EINTR": syscall.EINTR, "E2BIG": syscall.E2BIG, "EBADF": syscall.EBADF,
	"ECHILD": syscall.ECHILD, "EAGAIN": syscall.EAGAIN, "EACCES": syscall.EACCES, "EFAULT": syscall.EFAULT, "EBUSY": syscall.EBUSY, "EEXIST": syscall.EEXIST,
	"ENODEV": syscall.ENODEV, "ENOTDIR": syscall.ENOTDIR, "EINVAL": syscall.EINVAL, "EMFILE": syscall.EMFILE, "ERANGE": syscall.ERANGE,
	"ENAMETOOLONG": syscall.ENAMETOOLONG, "ENOSYS": syscall.ENOSYS, "ELOOP": syscall.ELOOP, "ENODATA": syscall.ENODATA, "EINPROGRESS": syscall.EINPROGRESS,
	"EDQUOT": syscall.EDQUOT,
}

var refusals = map[string]syscall.Errno{
	"no task": syscall.ESRCH, "worker": syscall.ECHRNG, "no memory is open": syscall.EBADF, "request is put": syscall.EALREADY, "no request": syscall.ENOMSG,
	"closed": syscall.ESHUTDOWN, "long line": syscall.EMSGSIZE, "full": syscall.EFBIG,
}

// errnoNamed gives the error of a name as ENOENT or E999, or 0.
func errnoNamed(word string) syscall.Errno {
	if errno, known := errnos[word]; known {
		return errno
	}
	if number, err := strconv.Atoi(strings.TrimPrefix(word, "E")); err == nil && strings.HasPrefix(word, "E") && number > 0 {
		return syscall.Errno(number)
	}
	return 0
}

// Kernel is a simulated kernel with a container, and the program that runs it; none if a socket leads to it.
type Kernel struct {
	program *exec.Cmd
	input   io.WriteCloser
	output  *bufio.Reader
	session io.WriteCloser
	answer  string
}

// Open starts the program that SECCOMP_BROKER names, or else `seccomp-broker`, on a policy and a script. EINVAL: it refuses one of them,
// and has said why on standard error. With SECCOMP_BROKER_KERNEL both may be empty.
func Open(policy, script string) (*Kernel, error) {
	if path := os.Getenv("SECCOMP_BROKER_KERNEL"); path != "" {
		return connect(path)
	}
	program := os.Getenv("SECCOMP_BROKER")
	if program == "" {
		program = "seccomp-broker"
	}
	return OpenProgram(program, policy, script)
}

// OpenProgram does the same with a program that is named here.
func OpenProgram(program, policy, script string) (*Kernel, error) {
	command := exec.Command(program, "step", policy, script)
	command.Stderr = os.Stderr
	input, err := command.StdinPipe()
	if err != nil {
		return nil, err
	}
	output, err := command.StdoutPipe()
	if err != nil {
		return nil, err
	}
	if err := command.Start(); err != nil {
		return nil, err
	}
	return opened(&Kernel{program: command, input: input, output: bufio.NewReader(output)})
}

// connect opens a socket to another program, which holds the kernel.
func connect(path string) (*Kernel, error) {
	connection, err := net.Dial("unix", path)
	if err != nil {
		return nil, err
	}
	return opened(&Kernel{input: connection, output: bufio.NewReader(connection)})
}

// opened gives a kernel that has answered.
func opened(kernel *Kernel) (*Kernel, error) {
	if path := os.Getenv("SECCOMP_BROKER_SESSION"); path != "" {
		session, err := os.Create(path)
		if err != nil {
			kernel.Close()
			return nil, err
		}
		kernel.session = session
	}
	// The first answer shows that policy and script were taken.
	if _, _, err := kernel.Able(); err != nil {
		status, _ := kernel.Close()
		if errors.Is(err, syscall.EPIPE) {
			err = &Error{syscall.EINVAL, fmt.Sprintf("status %d", status)}
		}
		return nil, err
	}
	return kernel, nil
}

// Close closes the program's input, which closes the listener, and waits for it. It gives the exit status.
func (k *Kernel) Close() (int, error) {
	k.input.Close()
	if k.session != nil {
		k.session.Close()
	}
	if k.program == nil {
		return 0, nil
	}
	// What is left of an answer is read, so that the program's write doesn't fail.
	io.Copy(io.Discard, k.output)
	err := k.program.Wait()
	var ended *exec.ExitError
	if errors.As(err, &ended) {
		return ended.ExitCode(), nil
	}
	return 0, err
}

// Answer is the program's answer to the newest request: the journal's line of the event, `skip`, or why it was refused.
func (k *Kernel) Answer() string { return k.answer }

// ask sends a request, and gives its answer.
func (k *Kernel) ask(request string) (string, error) {
	if _, err := io.WriteString(k.input, request+"\n"); err != nil {
		return "", &Error{syscall.EPIPE, err.Error()}
	}
	line, err := k.output.ReadString('\n')
	if err != nil {
		return "", &Error{syscall.EPIPE, "the program has ended"}
	}
	k.answer = strings.TrimSuffix(line, "\n")
	if k.session != nil {
		fmt.Fprintf(k.session, "> %s\n< %s\n", request, k.answer)
	}
	kind, rest, _ := strings.Cut(k.answer, " ")
	switch kind {
	case "skip":
		return "", &Error{syscall.EAGAIN, k.answer}
	case "error":
		if errno := errnoNamed(rest); errno != 0 {
			return "", &Error{errno, k.answer}
		}
		return "", &Error{syscall.EPROTO, k.answer}
	case "refused":
		if errno, known := refusals[rest]; known {
			return "", &Error{errno, k.answer}
		}
		return "", &Error{syscall.EPROTO, k.answer}
	}
	return k.answer, nil
}

// result sends a request, and gives the last word of its answer, unless that is an error.
func (k *Kernel) result(request string) (string, error) {
	answer, err := k.ask(request)
	if err != nil {
		return "", err
	}
	word := answer[strings.LastIndexByte(answer, ' ')+1:]
	if errno := errnoNamed(word); errno != 0 {
		return "", &Error{errno, answer}
	}
	return word, nil
}

// Able gives the names of the tasks that can step, and whether a receive wouldn't wait: a notification is there, or the call
// that there was is gone.
func (k *Kernel) Able() (tasks []string, notified bool, err error) {
	answer, err := k.ask("able")
	if err != nil {
		return nil, false, err
	}
	words := strings.Fields(answer)
	if len(words) == 0 || words[0] != "able" {
		return nil, false, &Error{syscall.EPROTO, answer}
	}
	tasks = words[1:]
	if last := len(tasks) - 1; last >= 0 && tasks[last] == "recv" {
		return tasks[:last], true, nil
	}
	return tasks, false, nil
}

// Step lets a task make its next step, and gives the journal's line of it. EAGAIN: it has none to make. ESRCH: no such task was made.
func (k *Kernel) Step(task string) (string, error) {
	if strings.Trim(task, "0123456789.") != "" {
		return "", &Error{syscall.ESRCH, task}
	}
	answer, err := k.ask("t " + task)
	if errors.Is(err, syscall.EPROTO) && strings.HasPrefix(k.answer, "refused line") {
		return "", &Error{syscall.ESRCH, k.answer}
	}
	return answer, err
}

// Run lets a task step until it waits or has ended.
func (k *Kernel) Run(task string) error {
	for {
		if _, err := k.Step(task); err != nil {
			if errors.Is(err, syscall.EAGAIN) {
				return nil
			}
			return err
		}
	}
}

// Report gives the report so far, as `seccomp-broker play` prints it.
func (k *Kernel) Report() (string, error) {
	return k.text("report", "report")
}

// Script gives the script of what has happened so far: the lines of the script before its schedule, and a schedule with each step of a task and
// each request of a worker. `seccomp-broker play` plays it, and prints the text of Report after CloseListener. EFBIG: it would have more steps or
// bytes than a script may have.
func (k *Kernel) Script() (string, error) {
	return k.text("script", "script")
}

// Judge gives what a judge finds of the broker, by what has happened so far: `mediated events=N calls=N effects=N answers=N`, or of the first event that
// breaks a clause `broken PLACE CLASS CLAUSE`.
func (k *Kernel) Judge() (string, error) {
	found, err := k.text("judge", "judge")
	return strings.TrimSuffix(found, "\n"), err
}

// JudgeIdle gives the same of a broker that does nothing more by itself: a call that it has received and that waits isn't answered, which is found at the
// newest event while the listener is open.
func (k *Kernel) JudgeIdle() (string, error) {
	found, err := k.text("judge idle", "judge")
	return strings.TrimSuffix(found, "\n"), err
}

// text gives a text that a request asks for, whose length follows its word.
func (k *Kernel) text(request, word string) (string, error) {
	answer, err := k.ask(request)
	if err != nil {
		return "", err
	}
	length, err := strconv.Atoi(strings.TrimPrefix(answer, word+" "))
	if err != nil || length < 0 {
		return "", &Error{syscall.EPROTO, answer}
	}
	bytes := make([]byte, length)
	if _, err := io.ReadFull(k.output, bytes); err != nil {
		return "", &Error{syscall.EPIPE, "the program has ended"}
	}
	return string(bytes), nil
}

// LookPid gives the task that holds a PID. ESRCH: nobody does. A look is no event: nothing happens by it.
func (k *Kernel) LookPid(pid uint32) (Task, error) {
	var task Task
	answer, err := k.ask(fmt.Sprintf("look pid %d", pid))
	if err != nil {
		return task, err
	}
	if answer == "look none" {
		return task, &Error{syscall.ESRCH, answer}
	}
	if _, err := fmt.Sscanf(answer, "look task %s ppid %d state %s", &task.Name, &task.Ppid, &task.State); err != nil {
		return task, &Error{syscall.EPROTO, answer}
	}
	return task, nil
}

// LookFd gives what a descriptor of the task that holds a PID leads to. Nothing is there if it isn't open, nobody holds the PID, or the task
// has ended.
func (k *Kernel) LookFd(pid, number uint32) (Object, error) {
	answer, err := k.ask(fmt.Sprintf("look fd %d %d", pid, number))
	if err != nil {
		return Object{}, err
	}
	_, told, _ := strings.Cut(answer, " ")
	kind, rest, _ := strings.Cut(told, " ")
	object := Object{Kind: kind}
	switch kind {
	case "none", "console":
		return object, nil
	case "node":
		object.Node, err = nodeOf(rest, answer)
		return object, err
	case "file":
		_, err = fmt.Sscanf(rest, "%d", &object.File)
	default:
		err = syscall.EPROTO
	}
	if err != nil {
		return object, &Error{syscall.EPROTO, answer}
	}
	return object, nil
}

// LookPath gives the node to which a path leads that the task which holds a PID would walk; a link at its end is followed, or is itself the node. ESRCH, EBADF,
// ENOENT, ENOTDIR, ELOOP, ENAMETOOLONG.
func (k *Kernel) LookPath(pid uint32, dirfd int, path string, follows bool) (Node, error) {
	how := "nofollow"
	if follows {
		how = "follow"
	}
	answer, err := k.ask(fmt.Sprintf("look path %d %d %s %s", pid, dirfd, quoted(path), how))
	if err != nil {
		return Node{}, err
	}
	if word := strings.TrimPrefix(answer, "look error "); word != answer {
		if errno := errnoNamed(word); errno != 0 {
			return Node{}, &Error{errno, answer}
		}
		return Node{}, &Error{syscall.EPROTO, answer}
	}
	return nodeOf(strings.TrimPrefix(answer, "look node "), answer)
}

// LookListener tells what poll(2) of the listener gives: whether a call waits to be received (POLLIN), and whether one was received and waits for its answer
// (POLLOUT).
func (k *Kernel) LookListener() (input, output bool, err error) {
	answer, err := k.ask("look listener")
	if err != nil {
		return false, false, err
	}
	var in, out int
	if _, err := fmt.Sscanf(answer, "look in=%d out=%d", &in, &out); err != nil {
		return false, false, &Error{syscall.EPROTO, answer}
	}
	return in == 1, out == 1, nil
}

// nodeOf reads the node that follows `look node `.
func nodeOf(told, answer string) (Node, error) {
	words := strings.SplitN(told, " ", 3)
	node := Node{}
	ordinal, err := strconv.ParseUint(words[0], 10, 32)
	if err != nil || len(words) < 2 {
		return node, &Error{syscall.EPROTO, answer}
	}
	node.Ordinal, node.Kind = uint32(ordinal), words[1]
	if len(words) < 3 {
		return node, nil
	}
	if node.Kind == "link" {
		node.Target = unquoted(words[2])
	} else if _, err := fmt.Sscanf(words[2], "%d:%d", &node.Major, &node.Minor); err != nil {
		return node, &Error{syscall.EPROTO, answer}
	}
	return node, nil
}

// escape is a byte of a text as reports write it that isn't written as it is.
var escape = regexp.MustCompile(`\\(x[0-9a-f]{2}|.)`)

// unquoted gives a text that is written as in reports.
func unquoted(text string) string {
	return escape.ReplaceAllStringFunc(strings.TrimSuffix(strings.TrimPrefix(text, `"`), `"`), func(found string) string {
		if number, err := strconv.ParseUint(found[2:], 16, 8); len(found) == 4 && err == nil {
			return string([]byte{byte(number)})
		}
		return found[1:]
	})
}

// CloseListener closes the listener, as the end of the broker does. Behind it only Report, Script, Judge, JudgeIdle and Close do something.
func (k *Kernel) CloseListener() error {
	_, err := k.ask("close")
	return err
}

// Seat gives the seat with a number from 0 to 15.
func (k *Kernel) Seat(worker int) *Seat { return &Seat{k, worker} }

// Seat is a place for one notification, from Recv to LetGo, with the memory and the directory that are opened for it.
type Seat struct {
	kernel *Kernel
	worker int
}

func (s *Seat) request(format string, values ...any) string {
	return fmt.Sprintf("w %d ", s.worker) + fmt.Sprintf(format, values...)
}

func (s *Seat) do(format string, values ...any) error {
	_, err := s.kernel.result(s.request(format, values...))
	return err
}

// raw gives the bytes of a structure as they lie in memory, in hexadecimal.
func raw(structure any) string {
	var buffer bytes.Buffer
	// (a structure of numbers alone can be written)
	binary.Write(&buffer, binary.LittleEndian, structure)
	return hex.EncodeToString(buffer.Bytes())
}

// quoted writes a text as scripts do.
func quoted(text string) string {
	var found strings.Builder
	found.WriteByte('"')
	for at := 0; at < len(text); at++ {
		switch letter := text[at]; {
		case letter == '"' || letter == '\\':
			found.WriteByte('\\')
			found.WriteByte(letter)
		case letter < 0x20:
			fmt.Fprintf(&found, "\\x%02x", letter)
		default:
			found.WriteByte(letter)
		}
	}
	found.WriteByte('"')
	return found.String()
}

// Recv receives the oldest notification (SECCOMP_IOCTL_NOTIF_RECV). EAGAIN: none is there. ENOENT: its call has gone.
func (s *Seat) Recv() (Notif, error) {
	var notif Notif
	answer, err := s.kernel.result(s.request("recv"))
	if err != nil {
		return notif, err
	}
	fields := s.kernel.answer[strings.Index(s.kernel.answer, " recv ")+1:]
	args := &notif.Args
	count, err := fmt.Sscanf(fields, "recv id=%d pid=%d flags=%d nr=%d arch=%d ip=%d args=%d,%d,%d,%d,%d,%d", &notif.ID, &notif.Pid, &notif.Flags, &notif.Nr,
		&notif.Arch, &notif.IP, &args[0], &args[1], &args[2], &args[3], &args[4], &args[5])
	if err != nil || count != 12 {
		return Notif{}, &Error{syscall.EPROTO, answer}
	}
	return notif, nil
}

// IDValid tells whether the call still waits for an answer (SECCOMP_IOCTL_NOTIF_ID_VALID). ENOENT: it doesn't.
func (s *Seat) IDValid(id uint64) error { return s.do("check %d", id) }

// Send answers a call (SECCOMP_IOCTL_NOTIF_SEND): EINVAL, ENOENT, EINPROGRESS.
func (s *Seat) Send(response Response) error { return s.do("send-raw %s", raw(response)) }

// Addfd asks for a descriptor to be put into the caller (SECCOMP_IOCTL_NOTIF_ADDFD), which a step of the caller does: EINVAL, EBADF, ENOENT,
// EINPROGRESS, EBUSY, and EALREADY if the last result wasn't taken.
func (s *Seat) Addfd(asked Addfd) error { return s.do("addfd-raw %s", raw(asked)) }

// AddfdResult gives the number that the descriptor got: EAGAIN if it isn't installed yet, EBADF, EMFILE, ENOENT, ENOMSG.
func (s *Seat) AddfdResult() (int, error) {
	word, err := s.kernel.result(s.request("addfd-result"))
	if err != nil {
		return 0, err
	}
	number, err := strconv.Atoi(word)
	if err != nil {
		return 0, &Error{syscall.EPROTO, s.kernel.answer}
	}
	return number, nil
}

// LetGo lets go of the notification, and closes what was opened for it.
func (s *Seat) LetGo() error {
	_, err := s.kernel.ask(s.request("let-go"))
	return err
}

// OpenMem opens the memory of the task that has this PID by now (/proc/PID/mem), instead of one that is open: ESRCH.
func (s *Seat) OpenMem(pid uint32) error { return s.do("open-mem %d", pid) }

// Pread reads from the memory that is open, at most MostRead bytes, and as many as are mapped. EFAULT: none is.
func (s *Seat) Pread(buffer []byte, address uint64) (int, error) {
	if len(buffer) > MostRead {
		buffer = buffer[:MostRead]
	}
	word, err := s.kernel.result(s.request("read %d %d", address, len(buffer)))
	if err != nil {
		return 0, err
	}
	digits := strings.TrimPrefix(strings.TrimPrefix(word, "bytes="), "-")
	content, err := hex.DecodeString(digits)
	if err != nil || len(content) > len(buffer) {
		return 0, &Error{syscall.EPROTO, s.kernel.answer}
	}
	return copy(buffer, content), nil
}

// WriteSysinfo writes a struct sysinfo: EFAULT if not all of its place is mapped, EBADF if no memory is open.
func (s *Seat) WriteSysinfo(address uint64, info *[112]byte) error {
	return s.do("plant %d %x", address, info[:])
}

// OpenDir opens the directory from which relative paths go (/proc/PID/cwd, or /proc/PID/fd/N): ESRCH, EBADF.
func (s *Seat) OpenDir(pid uint32, dirfd int32) error { return s.do("open-base %d %d", pid, dirfd) }

// Mknodat is mknodat(2). dirfd is the caller's number, for the report's sake: the directory is that of OpenDir.
func (s *Seat) Mknodat(dirfd int32, path string, mode uint32, device uint64) error {
	if dirfd == AtFdcwd {
		return s.do("act mknod %s %d %d", quoted(path), mode, device)
	}
	return s.do("act mknodat %d %s %d %d", dirfd, quoted(path), mode, device)
}

// Mount is mount(2).
func (s *Seat) Mount(mount Mount) error {
	more := ""
	if mount.Via != "" {
		more += " via " + quoted(mount.Via)
	}
	if mount.Shift {
		more += " shift"
	}
	return s.do("act mount %s %s %s %d %s%s", quoted(mount.Source), quoted(mount.Target), quoted(mount.Type), mount.Flags, quoted(mount.Data), more)
}

// Setxattr is setxattr(2).
func (s *Seat) Setxattr(path, name string, value []byte, flags uint32) error {
	return s.do("act setxattr %s %s %s %d", quoted(path), quoted(name), quoted(string(value)), flags)
}
