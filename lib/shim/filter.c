/* filter.c - see filter.h */
#define _GNU_SOURCE
#include "filter.h"
#include "calls.h"
#include "gate.h"

#include <errno.h>
#include <linux/audit.h>
#include <linux/filter.h>
#include <linux/seccomp.h>
#include <sys/prctl.h>

/* What the filter says of a call: it goes to the kernel, it goes there from the gate alone, or it doesn't. */
enum verdict { LETS, FROM_GATE, NEVER_LETS };

static enum verdict verdict_of(long number, bool is_alone) {
  const struct call_class *call = &call_classes[number];
  if (call->class == NEVER || call->class == UNKNOWN || number == SYS_mount)
    return NEVER_LETS;
  if (is_alone)
    return call->class == PASS && number != SYS_rt_sigreturn ? LETS : FROM_GATE;
  return call->is_held ? FROM_GATE : LETS;
}

/* The lines of a filter while it is written. */
struct lines {
  struct sock_filter at[BPF_MAXINSNS];
  unsigned count;
};

static unsigned add(struct lines *lines, uint16_t code, uint32_t value, uint8_t if_so, uint8_t if_not) {
  lines->at[lines->count] = (struct sock_filter){code, if_so, if_not, value};
  return lines->count++;
}

static void load(struct lines *lines, size_t field) { add(lines, BPF_LD | BPF_W | BPF_ABS, (uint32_t)field, 0, 0); }
static void end(struct lines *lines, uint32_t action) { add(lines, BPF_RET | BPF_K, action, 0, 0); }

/* Lets a call go that comes from the gate, and traps it else. */
static void end_by_place(struct lines *lines) {
  load(lines, offsetof(struct seccomp_data, instruction_pointer) + 4);
  add(lines, BPF_JMP | BPF_JEQ | BPF_K, GATE >> 32, 0, 3);
  load(lines, offsetof(struct seccomp_data, instruction_pointer));
  add(lines, BPF_JMP | BPF_JGE | BPF_K, GATE_SIZE, 1, 0);
  end(lines, SECCOMP_RET_ALLOW);
  end(lines, SECCOMP_RET_TRAP);
}

static void end_by_verdict(struct lines *lines, enum verdict verdict) {
  if (verdict == FROM_GATE)
    end_by_place(lines);
  else
    end(lines, verdict == LETS ? SECCOMP_RET_ALLOW : SECCOMP_RET_TRAP);
}

/* The runs of neighbouring numbers with one verdict: where each begins. */
struct runs {
  long begin[CALLS];
  enum verdict verdict[CALLS];
  int count;
};

static void find_runs(struct runs *runs, bool is_alone) {
  runs->count = 0;
  for (long number = 0; number < CALLS; number++) {
    enum verdict verdict = verdict_of(number, is_alone);
    if (runs->count > 0 && runs->verdict[runs->count - 1] == verdict)
      continue;
    runs->begin[runs->count] = number;
    runs->verdict[runs->count++] = verdict;
  }
}

/* A tree of comparisons: the kernel goes through the filter for each call when it is installed, which takes long where it is a list. */
static void choose(struct lines *lines, const struct runs *runs, int from, int to) {
  if (to - from == 1) {
    end_by_verdict(lines, runs->verdict[from]);
    return;
  }
  int middle = from + (to - from) / 2;
  add(lines, BPF_JMP | BPF_JGE | BPF_K, (uint32_t)runs->begin[middle], 0, 1);
  unsigned jump = add(lines, BPF_JMP | BPF_JA, 0, 0, 0);
  choose(lines, runs, from, middle);
  lines->at[jump].k = lines->count - jump - 1;
  choose(lines, runs, middle, to);
}

int install_filter(bool is_alone) {
  static struct lines lines;
  static struct runs runs;
  find_runs(&runs, is_alone);
  lines.count = 0;
  load(&lines, offsetof(struct seccomp_data, arch));
  add(&lines, BPF_JMP | BPF_JEQ | BPF_K, AUDIT_ARCH_X86_64, 1, 0);
  end(&lines, SECCOMP_RET_TRAP);
  load(&lines, offsetof(struct seccomp_data, nr));
  add(&lines, BPF_JMP | BPF_JGE | BPF_K, CALLS, 0, 1);
  end(&lines, SECCOMP_RET_TRAP);
  choose(&lines, &runs, 0, runs.count);
  struct sock_fprog program = {(unsigned short)lines.count, lines.at};
  long given = made(SYS_prctl, PR_SET_NO_NEW_PRIVS, 1, 0, 0, 0);
  return (int)(given != 0 ? given : made(SYS_seccomp, SECCOMP_SET_MODE_FILTER, SECCOMP_FILTER_FLAG_SPEC_ALLOW, &program));
}
