/* gate.c - see gate.h */
#define _GNU_SOURCE
#include "gate.h"
#include "filter.h"
#include "telling.h"

#include <errno.h>
#include <poll.h>
#include <signal.h>
#include <stdio.h>
#include <string.h>
#include <sys/mman.h>
#include <sys/prctl.h>
#include <sys/uio.h>
#include <unistd.h>

#ifndef __x86_64__
#error "the library is for x86-64 alone; elsewhere let the broker use the client, seccomp_step.h"
#endif
#ifndef PR_SET_SYSCALL_USER_DISPATCH
#define PR_SET_SYSCALL_USER_DISPATCH 59
#define PR_SYS_DISPATCH_ON 1
#endif

enum { LETS_THROUGH, TRAPS };
/* How much a trap needs at most, and how large a stack for traps is: a signal's handler may be trapped while a trap waits. Only pages that are used take memory. */
enum { OF_ONE_TRAP = 1 << 16, STACK = 1 << 18 };

__thread struct trap_state trap_state __attribute__((tls_model("initial-exec"))) = {.selector = TRAPS};

/* ---- the gate's text */

#define TEXT_OF(value) TEXT_AS_WRITTEN(value)
#define TEXT_AS_WRITTEN(value) #value

/* What is copied into the gate. In a stub the child of a clone sets the dispatch, which it doesn't inherit, with the selector of its own thread; a child that has a
 * copy of the memory notes that. All jump to where the call was made, whose address stands behind them. The numbers 0x11111111 are the offsets of the thread's
 * state, which are known once the library is loaded. */
#define OF_CHILD(name, noted)                                                                                                                                  \
  "gate_" name ": syscall\n testq %rax, %rax\n jnz 1f\n subq $128, %rsp\n pushq %rdi\n pushq %rsi\n pushq %rdx\n pushq %r10\n pushq %r8\n"                     \
  "movl $157, %eax\n movl $59, %edi\n movl $1, %esi\n movabsq $0x3f0000000000, %rdx\n movl $0x20000, %r10d\n movq %fs:0, %r8\n addq $0x11111111, %r8\n"      \
  "syscall\n" noted "popq %r8\n popq %r10\n popq %rdx\n popq %rsi\n popq %rdi\n addq $128, %rsp\n xorl %eax, %eax\n 1: jmp *2f(%rip)\n 2:\n"                   \
  "gate_" name "_end:\n"
__asm__(".pushsection .rodata\n"
        "gate_entry: movq %rdi, %rax\n movq %rsi, %rdi\n movq %rdx, %rsi\n movq %rcx, %rdx\n movq %r8, %r10\n movq %r9, %r8\n movq 8(%rsp), %r9\n syscall\n ret\n"
        "gate_entry_end:\n"
        "gate_return: movl $15, %eax\n syscall\n gate_return_end:\n"
        "gate_plain: syscall\n jmp *2f(%rip)\n 2:\n gate_plain_end:\n" OF_CHILD("sharing", "") OF_CHILD("copying", "movb $1, %fs:0x11111111\n") ".popsection\n");
#define PIECE(name) extern const unsigned char name[], name##_end[]
PIECE(gate_entry);
PIECE(gate_return);
PIECE(gate_plain);
PIECE(gate_sharing);
PIECE(gate_copying);

_Static_assert(GATE == 0x3f0000000000 && GATE_SIZE == 0x20000, "the stubs have the gate's place");

enum { RETURN_AT = 48, STUBS_AT = 64, STUB = 128, MOST_STUBS = (GATE_SIZE - STUBS_AT) / STUB, HASHED = 4096 };

static bool is_open;

long gate_call(long number, long a, long b, long c, long d, long e, long f) {
  long (*at)(long, long, long, long, long, long, long) = (void *)GATE;
  if (is_open)
    return at(number, a, b, c, d, e, f);
  long given = syscall(number, a, b, c, d, e, f);
  return given == -1 ? -errno : given;
}

/* The offset of a part of the thread's state from the thread pointer. */
static int32_t offset_of_state(size_t part) {
  char *thread_pointer;
  __asm__("movq %%fs:0, %0" : "=r"(thread_pointer));
  return (int32_t)((char *)&trap_state + part - thread_pointer);
}

/* Puts the offsets into a stub, in the order in which they stand there. */
static void set_offsets(unsigned char *stub, size_t size) {
  static const unsigned char unset[] = {0x11, 0x11, 0x11, 0x11};
  size_t parts[] = {offsetof(struct trap_state, selector), offsetof(struct trap_state, is_copied)}, part = 0;
  for (size_t at = 0; at + sizeof unset <= size; at++) {
    if (memcmp(stub + at, unset, sizeof unset) != 0)
      continue;
    int32_t offset = offset_of_state(parts[part++]);
    memcpy(stub + at, &offset, sizeof offset);
  }
}

static struct {
  unsigned long key;
  unsigned char *stub;
} stubs[HASHED];
static unsigned stubs_made;
static int stubs_lock;

static unsigned char *make_stub(unsigned long site, enum stub_kind kind) {
  static const struct {
    const unsigned char *begin, *end;
  } texts[] = {[STUB_PLAIN] = {gate_plain, gate_plain_end}, [STUB_SHARING] = {gate_sharing, gate_sharing_end}, [STUB_COPYING] = {gate_copying, gate_copying_end}};
  if (stubs_made == MOST_STUBS)
    tell("syscall", "from so many places of a program");
  unsigned char *stub = (unsigned char *)GATE + STUBS_AT + STUB * stubs_made++;
  size_t size = (size_t)(texts[kind].end - texts[kind].begin);
  memcpy(stub, texts[kind].begin, size);
  set_offsets(stub, size);
  memcpy(stub + size, &site, sizeof site);
  return stub;
}

unsigned char *stub_for(unsigned long site, enum stub_kind kind) {
  unsigned long key = site << 2 | kind;
  for (unsigned long at = (key * 0x9e3779b97f4a7c15ul) >> 52;; at = (at + 1) % HASHED) {
    unsigned long found = __atomic_load_n(&stubs[at].key, __ATOMIC_ACQUIRE);
    if (found == 0) {
      while (__atomic_exchange_n(&stubs_lock, 1, __ATOMIC_ACQUIRE))
        ;
      if ((found = stubs[at].key) == 0) {
        stubs[at].stub = make_stub(site, kind);
        __atomic_store_n(&stubs[at].key, found = key, __ATOMIC_RELEASE);
      }
      __atomic_store_n(&stubs_lock, 0, __ATOMIC_RELEASE);
    }
    if (found == key)
      return stubs[at].stub;
  }
}

/* ---- traps */

static void (*answer_trap)(siginfo_t *, ucontext_t *);

/* The mapping of a thread's own stack, so that a trap needs no more of the broker's than its frame. Below it is a page that nothing may touch. */
static void make_stack(void) {
  long at = made(SYS_mmap, NULL, STACK, PROT_READ | PROT_WRITE, MAP_PRIVATE | MAP_ANONYMOUS | MAP_NORESERVE, -1, 0);
  if (at < 0 && at > -4096)
    tell("mmap", "of a stack for the library");
  made(SYS_mprotect, at, 4096, PROT_NONE);
  trap_state.end_of_stack = (char *)at + 4096;
  trap_state.stack = (char *)at + STACK;
}

/* Where vfork(2) has come back, what its child had of the stack is free again. */
static void end_vfork(void) {
  if (trap_state.vfork_parent != made(SYS_getpid))
    return;
  trap_state.stack = trap_state.before_vfork;
  trap_state.vfork_parent = 0;
  if (trap_state.of_exec != NULL)
    made(SYS_munmap, trap_state.of_exec, trap_state.size_of_exec);
  trap_state.of_exec = NULL;
}

/* Answers a trap on the thread's stack for them. `info` stands in the frame that the kernel left on the broker's stack. */
static void answer_here(siginfo_t *info, ucontext_t *context) {
  struct trap_state *self = &trap_state;
  char *stack = self->stack, here;
  uint64_t mask = self->mask;
  bool is_interruptible = self->is_interruptible;
  self->before_vfork = stack;
  self->stack = (char *)((uintptr_t)&here & ~(uintptr_t)15) - OF_ONE_TRAP;
  self->mask = *(uint64_t *)&context->uc_sigmask;
  /* (on an alternate stack a handler would begin where the frame is) */
  self->is_interruptible = (uintptr_t)info - (uintptr_t)context->uc_stack.ss_sp >= context->uc_stack.ss_size;
  answer_trap(info, context);
  self->stack = stack;
  self->mask = mask;
  self->is_interruptible = is_interruptible;
}

static void on_trap(int signal, siginfo_t *info, void *context) {
  (void)signal;
  int error = errno;
  trap_state.selector = LETS_THROUGH;
  if (trap_state.vfork_parent != 0)
    end_vfork();
  if (trap_state.stack == NULL)
    make_stack();
  if (trap_state.stack - trap_state.end_of_stack < OF_ONE_TRAP / 2)
    tell("sigaction", "of handlers that interrupt one another so deeply");
  __asm__ volatile("movq %%rsp, %%rbx\n movq %[top], %%rsp\n callq *%[answer]\n movq %%rbx, %%rsp"
                   : "+D"(info), "+S"(context)
                   : [top] "r"(trap_state.stack), [answer] "r"(answer_here)
                   : "rax", "rbx", "rcx", "rdx", "r8", "r9", "r10", "r11", "memory", "cc");
  trap_state.selector = TRAPS;
  errno = error;
}

void wait_readable(int fd) {
  struct pollfd waited = {.fd = fd, .events = POLLIN};
  if (!trap_state.is_interruptible || trap_state.selector == TRAPS) {
    made(SYS_poll, &waited, 1, -1);
    return;
  }
  trap_state.selector = TRAPS;
  made(SYS_ppoll, &waited, 1, NULL, &trap_state.mask, sizeof trap_state.mask);
  trap_state.selector = LETS_THROUGH;
}

/* ---- how it begins */

/* The form in which the kernel takes an action. */
struct kernel_action {
  void *handler;
  unsigned long flags;
  void *restorer;
  uint64_t mask;
};
enum { SA_WITH_RESTORER = 0x04000000 };

static void map_gate(void) {
  void *at = mmap((void *)GATE, GATE_SIZE, PROT_READ | PROT_WRITE | PROT_EXEC, MAP_PRIVATE | MAP_ANONYMOUS | MAP_FIXED_NOREPLACE, -1, 0);
  if (at != (void *)GATE)
    tell("mmap", "of the library's gate, whose place this program uses itself");
  memcpy((char *)GATE, gate_entry, (size_t)(gate_entry_end - gate_entry));
  memcpy((char *)GATE + RETURN_AT, gate_return, (size_t)(gate_return_end - gate_return));
  is_open = true;
}

void open_gate(bool is_by_filter, bool has_filter, void (*answer)(siginfo_t *, ucontext_t *)) {
  map_gate();
  answer_trap = answer;
  struct kernel_action action = {(void *)on_trap, SA_SIGINFO | SA_ONSTACK | SA_WITH_RESTORER, (char *)GATE + RETURN_AT, ~0ul};
  if (made(SYS_rt_sigaction, SIGSYS, &action, NULL, sizeof action.mask) != 0)
    tell("rt_sigaction", "of SIGSYS");
  uint64_t only = 1ul << (SIGSYS - 1);
  made(SYS_rt_sigprocmask, SIG_UNBLOCK, &only, NULL, sizeof only);
  if (has_filter && install_filter(is_by_filter) != 0)
    tell("seccomp", "of a filter, which this machine refuses");
  if (!is_by_filter && made(SYS_prctl, PR_SET_SYSCALL_USER_DISPATCH, PR_SYS_DISPATCH_ON, GATE, GATE_SIZE, &trap_state.selector) != 0)
    tell("prctl", "PR_SET_SYSCALL_USER_DISPATCH, which this machine's kernel hasn't (Linux 5.11): --unguarded does without it");
}

/* ---- memory */

static int copied(long number, void *own, const void *others, size_t size) {
  if (size == 0)
    return 0;
  struct iovec here = {own, size}, there = {(void *)others, size};
  long given = made(number, made(SYS_getpid), &here, 1, &there, 1, 0);
  if (given != -ENOSYS && given != -EPERM)
    return given == (long)size ? 0 : -EFAULT;
  /* (a machine that refuses the call: what isn't mapped ends the broker) */
  memcpy(number == SYS_process_vm_readv ? own : (void *)others, number == SYS_process_vm_readv ? others : own, size);
  return 0;
}

int copy_in(void *to, const void *from, size_t size) { return copied(SYS_process_vm_readv, to, from, size); }
int copy_out(void *to, const void *from, size_t size) { return copied(SYS_process_vm_writev, (void *)from, to, size); }

int copy_path(char to[PATH_MAX], const char *from) {
  size_t used = 0;
  while (used < PATH_MAX) {
    /* (up to the end of a page, behind which nothing may be) */
    size_t part = 4096 - ((uintptr_t)from + used) % 4096;
    if (part > PATH_MAX - used)
      part = PATH_MAX - used;
    if (part > 256 && used == 0)
      part = 256;
    if (copy_in(to + used, from + used, part) != 0)
      return -EFAULT;
    if (memchr(to + used, '\0', part) != NULL)
      return 0;
    used += part;
  }
  return -ENAMETOOLONG;
}

bool has_sigsys(uint64_t mask) { return (mask >> (SIGSYS - 1) & 1) != 0; }
uint64_t without_sigsys(uint64_t mask) { return mask & ~(1ul << (SIGSYS - 1)); }
