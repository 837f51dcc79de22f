/* starting.c - processes, threads and programs that the broker starts; see answers.h */
#define _GNU_SOURCE
#include "answers.h"
#include "broker.h"
#include "starting.h"
#include "telling.h"

#include <elf.h>
#include <errno.h>
#include <fcntl.h>
#include <linux/sched.h>
#include <sched.h>
#include <signal.h>
#include <stdio.h>
#include <stdlib.h>
#include <string.h>

extern char **environ;

/* ---- programs */

/* The variables by which the library is loaded into a program that the broker starts, and finds its way. */
static const char *const kept[] = {"LD_PRELOAD=", "SECCOMP_BROKER_KERNEL=", "SECCOMP_BROKER_SAME_ROOT=", "SECCOMP_BROKER_WRITABLE=", "SECCOMP_BROKER_TOLD=", "SECCOMP_BROKER_HELD=", "SECCOMP_BROKER_LISTENER=",
                                   "SECCOMP_BROKER_FDS=", "SECCOMP_BROKER_SOCKET=", "SECCOMP_BROKER_SESSION="};
enum { KEPT = sizeof kept / sizeof *kept, MOST_HEAD = 4096, MOST_INTERPRETERS = 4, MOST_VARIABLES = 1 << 16 };
static char *own_variables[KEPT];
static char helper[] = "SECCOMP_BROKER_HELPER=1";
static char own_loader[256];
static bool may_start;

static bool begins_with(const char *text, const char *beginning) { return strncmp(text, beginning, strlen(beginning)) == 0; }

/* The dynamic loader that a program names: false where it names none. */
static bool loader_in(const unsigned char *head, size_t count, char loader[256]) {
  const Elf64_Ehdr *header = (const Elf64_Ehdr *)head;
  if (count < sizeof *header || head[EI_CLASS] != ELFCLASS64 || header->e_machine != EM_X86_64)
    return false;
  for (unsigned at = 0; at < header->e_phnum; at++) {
    size_t place = header->e_phoff + at * sizeof(Elf64_Phdr);
    if (place + sizeof(Elf64_Phdr) > count)
      return false;
    Elf64_Phdr segment;
    memcpy(&segment, head + place, sizeof segment);
    if (segment.p_type != PT_INTERP || segment.p_offset + segment.p_filesz > count)
      continue;
    snprintf(loader, 256, "%.*s", (int)segment.p_filesz, (const char *)head + segment.p_offset);
    return true;
  }
  return false;
}

/* The bytes at a program's beginning: how many there are, or a negated error. */
static long head_of(int dirfd, const char *path, unsigned char head[MOST_HEAD]) {
  long fd = path[0] == '\0' ? made(SYS_dup, dirfd) : made(SYS_openat, dirfd, path, O_RDONLY | O_CLOEXEC);
  if (fd < 0)
    return fd;
  long count = made(SYS_pread64, fd, head, MOST_HEAD - 1, 0);
  made(SYS_close, fd);
  return count;
}

static const char *name_in(const char *path) { return strrchr(path, '/') == NULL ? path : strrchr(path, '/') + 1; }

/* Tells a program that the library can't be loaded into: by its head, or by that of its interpreter. */
static void test_program(const char *call, int dirfd, const char *path, int depth) {
  unsigned char head[MOST_HEAD];
  long count = head_of(dirfd, path, head);
  if (count < 4)
    return;
  if (head[0] == '#' && head[1] == '!' && depth < MOST_INTERPRETERS) {
    head[count] = '\0';
    char *interpreter = (char *)head + 2 + strspn((char *)head + 2, " \t");
    interpreter[strcspn(interpreter, " \t\n")] = '\0';
    test_program(call, AT_FDCWD, interpreter, depth + 1);
    return;
  }
  char loader[256];
  if (memcmp(head, ELFMAG, SELFMAG) != 0)
    return;
  if (!loader_in(head, (size_t)count, loader))
    tell_of(call, "of %s, a program that isn't linked with a C library for this machine", path);
  if (strcmp(name_in(loader), name_in(own_loader)) != 0)
    tell_of(call, "of %s, which another C library loads (%s)", path, loader);
}

void begin_starting(bool can_start) {
  unsigned char head[MOST_HEAD];
  long count = head_of(AT_FDCWD, "/proc/self/exe", head);
  if (count < 4 || !loader_in(head, (size_t)count, own_loader))
    own_loader[0] = '\0';
  may_start = can_start;
  for (char **variable = environ; *variable != NULL; variable++)
    for (size_t at = 0; at < KEPT; at++)
      if (begins_with(*variable, kept[at]))
        own_variables[at] = strdup(*variable);
}

static bool is_kept(const char *variable) {
  for (size_t at = 0; at < KEPT; at++)
    if (begins_with(variable, kept[at]))
      return true;
  return begins_with(variable, "SECCOMP_BROKER_HELPER=");
}

/* Starts a program with these variables. In the place of a good one this thread's parent may go on, which has the same memory (vfork(2)). */
static long started(const struct call *call, char *const *variables) {
  bool is_at = call->number == SYS_execveat;
  uint64_t all = ~0ul;
  trap_state.selector = 1;
  made(SYS_rt_sigprocmask, SIG_SETMASK, &trap_state.mask, NULL, sizeof trap_state.mask);
  long given = is_at ? made(SYS_execveat, call->a[0], call->a[1], call->a[2], variables, call->a[4]) : made(SYS_execve, call->a[0], call->a[1], variables);
  made(SYS_rt_sigprocmask, SIG_SETMASK, &all, NULL, sizeof all);
  trap_state.selector = 0;
  return given;
}

/* How many variables a broker gives to a program, or a negated error. */
static long count_variables(char *const *given) {
  long count = 0;
  for (char *variable; given != NULL; count++) {
    if (count == MOST_VARIABLES)
      return -E2BIG;
    if (copy_in(&variable, &given[count], sizeof variable) != 0)
      return -EFAULT;
    if (variable == NULL)
      break;
  }
  return count;
}

bool answer_exec(struct call *call) {
  bool is_at = call->number == SYS_execveat;
  int dirfd = is_at ? (int)call->a[0] : AT_FDCWD;
  char path[PATH_MAX], *const *given = (char *const *)call->a[is_at ? 3 : 2];
  long count = count_variables(given);
  if (copy_path(path, (const char *)call->a[is_at]) != 0 || count < 0)
    return false;
  if (!may_start)
    tell_of(call->name, "of %s: with --unguarded no other program can be started", path);
  if (path[0] != '\0')
    test_path(call->name, dirfd, path);
  test_program(call->name, dirfd, path, 0);
  /* (not on the stack, of which there may be little) */
  size_t size = ((size_t)count + KEPT + 2) * sizeof(char *);
  long at = made(SYS_mmap, NULL, size, 3 /* PROT_READ | PROT_WRITE */, 0x22 /* MAP_PRIVATE | MAP_ANONYMOUS */, -1, 0);
  if (at < 0 && at > -4096)
    return give(call, at);
  char **with = (char **)at;
  trap_state.of_exec = with;
  trap_state.size_of_exec = size;
  size_t used = 0;
  for (long place = 0; place < count; place++) {
    char beginning[32] = "";
    (void)copy_in(beginning, given[place], sizeof beginning - 1);
    if (!is_kept(beginning))
      with[used++] = given[place];
  }
  for (size_t place = 0; place < KEPT; place++)
    if (own_variables[place] != NULL)
      with[used++] = own_variables[place];
  if (has_begun())
    with[used++] = helper;
  long result = started(call, with);
  trap_state.of_exec = NULL;
  made(SYS_munmap, at, size);
  return give(call, result);
}

/* ---- processes and threads */

enum { NEW_NAMESPACES = CLONE_NEWNS | CLONE_NEWUTS | CLONE_NEWIPC | CLONE_NEWUSER | CLONE_NEWPID | CLONE_NEWNET | CLONE_NEWCGROUP };

/* A child shares the memory, or has a copy of it: the call is made by a stub that lets the child be trapped. */
static bool clone_with(struct call *call, uint64_t flags) {
  if ((flags & (NEW_NAMESPACES | 0x80 /* CLONE_NEWTIME */)) != 0)
    tell(call->name, "of a namespace");
  bool shares = (flags & CLONE_VM) != 0;
  if (shares && (flags & CLONE_VFORK) == 0 && (flags & CLONE_SETTLS) == 0)
    tell(call->name, "of a thread without a place of its own");
  if (shares && (flags & CLONE_VFORK) != 0)
    trap_state.vfork_parent = made(SYS_getpid);
  call->stub = shares ? STUB_SHARING : STUB_COPYING;
  return false;
}

bool answer_clone(struct call *call) { return clone_with(call, (uint64_t)call->a[0] & ~0xfful); }
bool answer_fork(struct call *call) { return clone_with(call, call->number == SYS_vfork ? CLONE_VM | CLONE_VFORK : 0); }

bool answer_clone3(struct call *call) {
  struct clone_args asked = {0};
  if (copy_in(&asked, (void *)call->a[0], sizeof asked.flags) != 0)
    return false;
  return clone_with(call, asked.flags);
}

bool answer_unshare(struct call *call) {
  if ((call->a[0] & (NEW_NAMESPACES | 0x80)) != 0)
    tell(call->name, "of a namespace");
  return false;
}
