/*
 * gate.h - how calls of the machine are made, and how they are trapped
 *
 * The kernel hands each system call of the process to a handler of SIGSYS: by syscall user dispatch (prctl(2), PR_SET_SYSCALL_USER_DISPATCH), or, where the
 * kernel hasn't that, by a filter of seccomp(2). Calls that are made from a page at a fixed address, the gate, aren't trapped. A call that may be made as it is
 * goes by a stub there, with the thread's own registers, stack and mask of signals, so that clone(2), vfork(2) and rt_sigreturn(2) work as ever.
 */
#ifndef SHIM_GATE_H
#define SHIM_GATE_H

#include "numbers.h"

#include <limits.h>
#include <signal.h>
#include <stdbool.h>
#include <stddef.h>
#include <stdint.h>
#include <ucontext.h>

#define GATE 0x3f0000000000ul
enum { GATE_SIZE = 1 << 17 };

/* The status by which the library ends a process that does something which can't be answered. */
enum { UNSUPPORTED = 125 };

/* What the library knows of a thread. A child of vfork(2) shares it with its parent. */
struct trap_state {
  /* whether calls are trapped: prctl(2), PR_SET_SYSCALL_USER_DISPATCH, the selector */
  unsigned char selector;
  /* whether this is the first thread of a child that got a copy of the memory, which nobody has noted yet */
  unsigned char is_copied;
  /* the stack for traps: where the next one begins, and where it ends */
  char *stack, *end_of_stack;
  /* the parent that is in vfork(2), 0 where none is, and where its next trap begins behind that */
  long vfork_parent;
  char *before_vfork;
  /* memory that a child leaves behind when it has started a program; NULL where there is none */
  void *of_exec;
  size_t size_of_exec;
  /* the thread's own mask of signals while a trap is answered, and one that a call gets in the place of its argument */
  uint64_t mask, changed_mask;
  /* whether the thread's signals may be handled while a trap of it waits */
  bool is_interruptible;
};
extern __thread struct trap_state trap_state __attribute__((tls_model("initial-exec")));

/* Makes a call from the gate: its result, or a negated error. */
long gate_call(long number, long a, long b, long c, long d, long e, long f);
#define MADE(number, a, b, c, d, e, f, ...) gate_call((long)(number), (long)(a), (long)(b), (long)(c), (long)(d), (long)(e), (long)(f))
#define made(...) MADE(__VA_ARGS__, 0, 0, 0, 0, 0, 0)

/* Waits until a descriptor has something to read. Meanwhile the thread's signals are handled as if it waited in its own call. */
void wait_readable(int fd);

/* What becomes of a call that is made by a stub. */
enum stub_kind { STUB_PLAIN, STUB_SHARING, STUB_COPYING };

/* The place from which a call is made that stands before `site`, and from which the thread goes on there. A child that is made so is trapped, too. */
unsigned char *stub_for(unsigned long site, enum stub_kind kind);

/* Maps the gate, and lets the calls be trapped: by dispatch and a filter that stays in children and in programs which they start, or by a filter alone. Where
 * another program has installed the filter before, it isn't once more. `answer` is called on a stack of the library's own, with all signals blocked. */
void open_gate(bool is_by_filter, bool has_filter, void (*answer)(siginfo_t *, ucontext_t *));

/* ---- what a call's arguments lead to: 0, or -EFAULT where nothing is mapped */

int copy_in(void *to, const void *from, size_t size);
int copy_out(void *to, const void *from, size_t size);
/* Also -ENAMETOOLONG. */
int copy_path(char to[PATH_MAX], const char *from);

/* ---- masks of signals, as the kernel has them; SIGSYS is never blocked */

bool has_sigsys(uint64_t mask);
uint64_t without_sigsys(uint64_t mask);

#endif
