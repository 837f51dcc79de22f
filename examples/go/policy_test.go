package seccompbroker

import (
	"encoding/json"
	"errors"
	"strings"
	"testing"
)

// config is a policy with these keys of a container's config, as LXD has them.
func config(t *testing.T, keys map[string]string) string {
	t.Helper()
	policy, err := json.Marshal(map[string]any{"config": keys})
	if err != nil {
		t.Fatal(err)
	}
	return string(policy)
}

// container is a container that makes /dev/null and mounts a disk, with worker 0 as its broker.
func container(fstype string) string {
	return `dir "/dev"
dir "/mnt"
notify mknod mount
prog init
poke 0x10000 "/dev/null\0"
poke 0x10100 "/dev/sda1\0"
poke 0x10200 "/mnt\0"
poke 0x10300 "` + fstype + `\0"
call mknod 0x10000 0o020666 259
call mount 0x10100 0x10200 0x10300 0 0
end
schedule
t 0 5
w 0 9
t 0 2
w 0 11
t 0 3
end
`
}

func TestInterceptedCalls(t *testing.T) {
	keys := map[string]string{
		"security.nesting":                          "true",
		"security.syscalls.intercept.mknod":         "true",
		"security.syscalls.intercept.mount":         "true",
		"security.syscalls.intercept.mount.allowed": "ext4",
	}
	for _, test := range []struct{ fstype, mknod, mount string }{
		{"ext4", "rule=lxd.mknod.1:3 verdict=grant answer=0 ", "rule=lxd.mount.ext4 verdict=grant answer=0 "},
		{"xfs", "rule=lxd.mknod.1:3 verdict=grant answer=0 ", "rule=default.mount verdict=pass answer=continue "},
	} {
		t.Run(test.fstype, func(t *testing.T) {
			report, err := Play(config(t, keys), container(test.fstype))
			if err != nil {
				t.Fatal(err)
			}
			for at, wanted := range []string{test.mknod, test.mount} {
				if !strings.Contains(report.Audits[at], wanted) {
					t.Errorf("audit %q, wanted %q", report.Audits[at], wanted)
				}
			}
			if report.Summary["notified"] != 2 || report.Summary["lost"] != 0 {
				t.Errorf("summary %v", report.Summary)
			}
		})
	}
}

func TestKeyWithTypingError(t *testing.T) {
	_, err := Play(config(t, map[string]string{"security.syscalls.intercept.mknodd": "true"}), container("ext4"))
	var refused *Refused
	if !errors.As(err, &refused) || refused.Status != 4 || !strings.Contains(refused.Line, "mknodd") {
		t.Errorf("got %v", err)
	}
}

func TestReportIsChecked(t *testing.T) {
	policy, script := config(t, map[string]string{"security.syscalls.intercept.mknod": "true"}), container("ext4")
	report, err := ReportOf(policy, script)
	if err != nil {
		t.Fatal(err)
	}
	findings, err := Check(policy, script, report)
	if err != nil {
		t.Fatal(err)
	}
	if !findings.Finished || !strings.HasSuffix(findings.Trail[0], " rule=lxd.mknod.1:3") {
		t.Errorf("found %v", findings)
	}
}

func TestBrokerThatRestartsAfterTheEffect(t *testing.T) {
	policy, script := config(t, map[string]string{"security.syscalls.intercept.mknod": "true"}), container("ext4")
	played, err := ReportOf(policy, script)
	if err != nil {
		t.Fatal(err)
	}
	report, ledgers, err := HandOver(policy, script, 7)
	if err != nil {
		t.Fatal(err)
	}
	if report != played || strings.Count(report, " act mknod ") != 1 || !strings.Contains(ledgers[0], ` w0 {"count":6,`) {
		t.Errorf("report %q, ledgers %q", report, ledgers)
	}
}

func TestBrokerIsJudged(t *testing.T) {
	policy, script := config(t, map[string]string{"security.syscalls.intercept.mknod": "true"}), container("ext4")
	container, _, _ := strings.Cut(script, "schedule\n")
	hasty := `schedule
t 0 5
w 0 recv
w 0 open-mem 1
w 0 open-base 1 -100
w 0 read 0x10000 10
w 0 act mknod "/dev/null" 0o020666 259
end
`
	for wanted, schedule := range map[string]string{"mediated events=": script[len(container):], "broken 10 order unchecked\n": hasty} {
		found, err := Judge(policy, container+schedule)
		if err != nil {
			t.Fatal(err)
		}
		if !strings.HasPrefix(found, wanted) {
			t.Errorf("found %q, wanted %q", found, wanted)
		}
	}
}

func TestReportOfAnotherPolicy(t *testing.T) {
	script := container("ext4")
	report, err := ReportOf(config(t, map[string]string{"security.syscalls.intercept.mknod": "true"}), script)
	if err != nil {
		t.Fatal(err)
	}
	_, err = Check(config(t, map[string]string{}), script, report)
	var refused *Refused
	if !errors.As(err, &refused) || refused.Status != 9 || !strings.HasPrefix(refused.Line, "report: line ") {
		t.Errorf("got %v", err)
	}
}
