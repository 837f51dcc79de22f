/* A process that stands in for a task or a worker of a script. It does nothing of its own: it takes orders from a mailbox in shared memory.
 *
 * It has two syscall instructions. Its own calls are made at the one, which six instructions in front of each filter let through by its
 * address; the script's calls are made at the other. A handler of a signal notes what it found, and waits until it is released. */
typedef unsigned long u64;
typedef unsigned int u32;
typedef long i64;

#define MAILBOXES 0x200000000000UL
#define MAILBOX 0x40000UL
#define STACKS 0x210000000000UL
#define STACK 0x10000UL
#define SLOTS 312
#define SHARED_TEXTS 4096

enum { CLOSE = 3, MMAP = 9, SIGACTION = 13, SIGRETURN = 15, CLONE = 56, FUTEX = 202 };
enum { SCRIPT_CALL = 1, OWN_CALL, STORE, START, HANDLE };

struct handled { u32 signal, unused; u64 instruction, value; };
struct mailbox {
  volatile u32 orders, done, order, handled, released, hold;
  volatile i64 result;
  volatile u64 arguments[8];
  struct handled log[64];
  u64 own_call_after, script_call_at, script_call_after;
};

long own_call(long number, long a, long b, long c, long d, long e, long f);
long script_call(long number, long a, long b, long c, long d, long e, long f);
void restorer(void);
void child_start(void);
extern char own_call_after[], script_call_at[], script_call_after[];

#define REGISTERS " mov %rdi,%rax; mov %rsi,%rdi; mov %rdx,%rsi; mov %rcx,%rdx; mov %r8,%r10; mov %r9,%r8; mov 8(%rsp),%r9\n"
__asm__(
    ".text\n"
    ".globl own_call\nown_call:\n" REGISTERS
    "own_call_at: syscall\n"
    ".globl own_call_after\nown_call_after: ret\n"
    ".globl script_call\nscript_call:\n" REGISTERS
    ".globl script_call_at\nscript_call_at: syscall\n"
    ".globl script_call_after\nscript_call_after: ret\n"
    ".globl restorer\nrestorer: mov $15,%eax; jmp own_call_at\n"
    ".globl child_start\nchild_start: xor %ebp,%ebp; and $-16,%rsp; call obey\n"
    ".globl _start\n_start: xor %ebp,%ebp; mov %rsp,%rdi; and $-16,%rsp; call begin\n");

/* The stack tells whose mailbox it is, also in threads. */
static struct mailbox *own_mailbox(void) {
  u64 stack;
  __asm__ volatile("mov %%rsp,%0" : "=r"(stack));
  return (struct mailbox *)(MAILBOXES + (stack - STACKS) / STACK * MAILBOX);
}

static void on_signal(int signal, void *info, void *context) {
  (void)info;
  struct mailbox *box = own_mailbox();
  u64 *registers = (u64 *)((char *)context + 40); /* rax is the 13th, rip the 16th */
  u32 number = box->handled;
  struct handled *entry = &box->log[number & 63];
  entry->signal = signal;
  entry->instruction = registers[16];
  entry->value = registers[13];
  box->handled = ++number;
  while (box->hold && (int)(box->released - number) < 0) {
    u32 released = box->released;
    if ((int)(released - number) < 0)
      own_call(FUTEX, (long)&box->released, 0, released, 0, 0, 0);
  }
}

static i64 handle(u64 signal, u64 mode) {
  u64 action[4];
  action[0] = mode == 0 ? 0 : (u64)on_signal;
  action[1] = 0x4000004 | (mode == 1 ? 0x10000000UL : 0); /* SA_SIGINFO, SA_RESTORER, SA_RESTART */
  action[2] = (u64)restorer;
  action[3] = 1UL << 9 | 1UL << 11 | 1UL << 14; /* no handler of 10, 12 or 15 runs in another */
  return own_call(SIGACTION, signal, (long)action, 0, 8, 0, 0);
}

static i64 start(u64 flags, u64 slot) {
  u64 top = STACKS + (slot + 1) * STACK - 64;
  *(u64 *)top = (u64)child_start;
  return own_call(CLONE, flags, top, 0, 0, 0, 0);
}

static i64 carry_out(struct mailbox *box) {
  volatile u64 *a = box->arguments;
  switch (box->order) {
  case SCRIPT_CALL:
    return script_call(a[0], a[1], a[2], a[3], a[4], a[5], a[6]);
  case OWN_CALL:
    return own_call(a[0], a[1], a[2], a[3], a[4], a[5], a[6]);
  case STORE:
    for (u64 i = 0; i < a[1]; i++)
      ((volatile char *)a[0])[i] = ((char *)box)[SHARED_TEXTS + i];
    return 0;
  case START:
    return start(a[0], a[1]);
  case HANDLE:
    return handle(a[0], a[1]);
  }
  return 0;
}

void obey(void) {
  struct mailbox *box = own_mailbox();
  u32 last = box->done;
  for (;;) {
    while (box->orders == last)
      own_call(FUTEX, (long)&box->orders, 0, last, 0, 0, 0);
    last = box->orders;
    box->result = carry_out(box);
    __sync_synchronize();
    box->done = last;
  }
}

/* The first argument is the slot, descriptor 3 the mailboxes. */
void begin(u64 *stack) {
  u64 slot = 0;
  for (char *digit = (char *)stack[2]; *digit; digit++)
    slot = slot * 10 + (*digit - '0');
  own_call(MMAP, MAILBOXES, SLOTS * MAILBOX, 3, 0x11, 3, 0);
  own_call(MMAP, STACKS, SLOTS * STACK, 3, 0x4032, -1, 0);
  own_call(CLOSE, 3, 0, 0, 0, 0, 0);
  struct mailbox *box = (struct mailbox *)(MAILBOXES + slot * MAILBOX);
  box->own_call_after = (u64)own_call_after;
  box->script_call_at = (u64)script_call_at;
  box->script_call_after = (u64)script_call_after;
  u64 top = STACKS + (slot + 1) * STACK - 64;
  __asm__ volatile("mov %0,%%rsp; jmp child_start" ::"r"(top));
}
