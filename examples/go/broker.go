// Package seccompbroker plays scripts under policies, and checks reports, by the C library that tools/commands/make-c-library makes.
package seccompbroker

/*
#cgo CFLAGS: -I${SRCDIR}/../../dist/include
#cgo LDFLAGS: ${SRCDIR}/../../dist/lib/libseccomp_broker.a
#include <seccomp_broker.h>
*/
import "C"

import (
	"fmt"
	"strconv"
	"strings"
	"unsafe"
)

// Report has the lines of each part of a report, and the numbers of its summary.
type Report struct {
	Journal []string
	Calls   []string
	Audits  []string
	Summary map[string]int
}

// Findings has what is found of a report: how many events its history has, whether it is finished, and the lines of its trail.
type Findings struct {
	Events   int
	Finished bool
	Trail    []string
}

// Refused says why there is no report, or why one isn't taken: the program's status, and its line.
type Refused struct {
	Status int
	Line   string
}

func (r *Refused) Error() string {
	return fmt.Sprintf("status %d: %s", r.Status, strings.TrimSpace(r.Line))
}

// Play plays the schedule of a script under a policy.
func Play(policy, script string) (*Report, error) {
	text, err := ReportOf(policy, script)
	if err != nil {
		return nil, err
	}
	return parse(text)
}

// ReportOf gives the text of the report of a script that is played under a policy.
func ReportOf(policy, script string) (string, error) {
	p, s := []byte(policy), []byte(script)
	return answer(func(out, line []byte, length, said *C.size_t) C.enum_broker_status {
		return C.broker_play(at(p), size(p), at(s), size(s), C.BROKER_ROOM_LIMIT, at(out), size(out), length, at(line), size(line), said)
	})
}

// HandOver plays the schedule of a script with a worker replaced after every so many steps of workers, and gives the text of the report, and
// a line for each ledger from which a successor went on.
func HandOver(policy, script string, every uint32) (report string, ledgers []string, err error) {
	p, s := []byte(policy), []byte(script)
	text, err := answer(func(out, line []byte, length, said *C.size_t) C.enum_broker_status {
		return C.broker_handover(at(p), size(p), at(s), size(s), C.uint32_t(every), C.BROKER_ROOM_LIMIT, at(out), size(out), length, at(line), size(line), said)
	})
	if err != nil {
		return "", nil, err
	}
	report, rest, _ := strings.Cut(text, "\nhandovers ")
	return report + "\n", strings.Split(strings.TrimSuffix(rest, "\n"), "\n")[1:], nil
}

// Check gives what is found of a report under a policy and a script.
func Check(policy, script, report string) (*Findings, error) {
	p, s, r := []byte(policy), []byte(script), []byte(report)
	text, err := answer(func(out, line []byte, length, said *C.size_t) C.enum_broker_status {
		return C.broker_audit_check(at(p), size(p), at(s), size(s), at(r), size(r), C.BROKER_ROOM_LIMIT, at(out), size(out), length, at(line), size(line), said)
	})
	if err != nil {
		return nil, err
	}
	lines := strings.Split(strings.TrimSuffix(text, "\n"), "\n")
	findings, finished := &Findings{Trail: lines[1:]}, ""
	_, err = fmt.Sscanf(lines[0], "yes events=%d finished=%s", &findings.Events, &finished)
	findings.Finished = finished == "yes"
	return findings, err
}

// Judge says of the workers of a script's schedule, whoever they are, whether they mediate: a line that begins with "mediated", or one that
// begins with "broken", followed by lines that show why.
func Judge(policy, script string) (string, error) {
	p, s := []byte(policy), []byte(script)
	return answer(func(out, line []byte, length, said *C.size_t) C.enum_broker_status {
		return C.broker_judge(at(p), size(p), at(s), size(s), C.BROKER_ROOM_LIMIT, at(out), size(out), length, at(line), size(line), said)
	})
}

// answer makes a call, again where its text didn't fit, and gives the text.
func answer(call func(out, line []byte, length, said *C.size_t) C.enum_broker_status) (string, error) {
	out, line := make([]byte, 65536), make([]byte, 4096)
	var length, said C.size_t
	status := call(out, line, &length, &said)
	if status == C.BROKER_SHORT_BUFFER {
		out = make([]byte, length)
		status = call(out, line, &length, &said)
	}
	if said > size(line) {
		said = size(line)
	}
	if status != C.BROKER_DONE && status != C.BROKER_OTHERWISE {
		return "", &Refused{int(status), string(line[:said])}
	}
	return string(out[:length]), nil
}

// at is where the bytes begin; NULL where there are none.
func at(bytes []byte) unsafe.Pointer {
	if len(bytes) == 0 {
		return nil
	}
	return unsafe.Pointer(&bytes[0])
}

func size(bytes []byte) C.size_t {
	return C.size_t(len(bytes))
}

// parse takes a report apart.
func parse(text string) (*Report, error) {
	lines := strings.Split(strings.TrimSuffix(text, "\n"), "\n")
	part := func() []string {
		count, _ := strconv.Atoi(strings.Fields(lines[0])[1])
		taken := lines[1 : count+1]
		lines = lines[count+1:]
		return taken
	}
	report := &Report{Journal: part(), Calls: part(), Audits: part(), Summary: map[string]int{}}
	for _, field := range strings.Fields(lines[0])[1:] {
		name, count, _ := strings.Cut(field, "=")
		number, err := strconv.Atoi(count)
		if err != nil {
			return nil, err
		}
		report.Summary[name] = number
	}
	return report, nil
}
