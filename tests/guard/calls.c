/*
 * calls.c - an agent that makes one call in each notification, of those that real brokers make
 *
 *   calls NAME OUT
 *
 * It opens the caller's memory, root and working directory, makes the call NAME of calls.h, and writes its result to the file OUT, as `= RESULT ERROR`. Else it is a right agent: it makes the
 * null device that it is asked for. Where NAME is `none` it makes no call.
 */
#define _GNU_SOURCE
#include <dirent.h>
#include <errno.h>
#include <fcntl.h>
#include <linux/openat2.h>
#include <linux/seccomp.h>
#include <poll.h>
#include <sched.h>
#include <signal.h>
#include <spawn.h>
#include <stdarg.h>
#include <stdbool.h>
#include <stdint.h>
#include <stdio.h>
#include <stdlib.h>
#include <string.h>
#include <sys/epoll.h>
#include <sys/fsuid.h>
#include <sys/ioctl.h>
#include <sys/mman.h>
#include <sys/mount.h>
#include <sys/pidfd.h>
#include <sys/ptrace.h>
#include <sys/select.h>
#include <sys/sendfile.h>
#include <sys/signalfd.h>
#include <sys/socket.h>
#include <sys/stat.h>
#include <sys/statfs.h>
#include <sys/statvfs.h>
#include <sys/syscall.h>
#include <sys/sysmacros.h>
#include <sys/timerfd.h>
#include <sys/uio.h>
#include <sys/un.h>
#include <sys/wait.h>
#include <sys/xattr.h>
#include <unistd.h>

#ifndef SECCOMP_IOCTL_NOTIF_SET_FLAGS
#define SECCOMP_IOCTL_NOTIF_SET_FLAGS SECCOMP_IOW(4, __u64)
#endif

enum { LISTENER = 100 };

extern char **environ;
static FILE *out;
static struct seccomp_notif notif;
static int mem, root, cwd;
static char path[128], buffer[4096];

static void tell_of(const char *what, long result) {
  int error = errno;
  fprintf(out, "%s= %ld%s%s\n", what, result, result == -1 ? " " : "", result == -1 ? strerrorname_np(error) : "");
  fflush(out);
}

static void tell(long result) { tell_of("", result); }

__attribute__((format(printf, 1, 2))) static void set_path(const char *form, ...) {
  va_list arguments;
  va_start(arguments, form);
  vsnprintf(path, sizeof path, form, arguments);
  va_end(arguments);
}

static const char *path_of(const char *rest) {
  set_path("/proc/%u%s%s", notif.pid, *rest == '\0' ? "" : "/", rest);
  return path;
}

#define CALL(name, ...) \
  static void call_##name(void) __VA_ARGS__
#include "calls.h"
#undef CALL

static const struct {
  const char *name;
  void (*make)(void);
} calls[] = {
#define CALL(name, ...) {#name, call_##name},
#include "calls.h"
};

static void make(const char *name) {
  for (size_t at = 0; at < sizeof calls / sizeof *calls; at++)
    if (strcmp(calls[at].name, name) == 0)
      calls[at].make();
}

static bool is_valid(void) { return ioctl(LISTENER, SECCOMP_IOCTL_NOTIF_ID_VALID, &notif.id) == 0; }

static void serve(const char *name) {
  mem = open(path_of("mem"), O_RDWR | O_CLOEXEC);
  root = open(path_of("root"), O_PATH | O_CLOEXEC);
  cwd = open(path_of("cwd"), O_PATH | O_CLOEXEC);
  if (!is_valid())
    return;
  bool has_read = pread(mem, buffer, 10, 0x10000) == 10;
  make(name);
  if (!is_valid())
    return;
  /* (the call `fork_work` has made the device) */
  int made = !has_read ? -1 : strcmp(name, "fork_work") == 0 ? 0 : mknodat(root, "dev/null", S_IFCHR | 0666, makedev(1, 3));
  struct seccomp_notif_resp answer = {.id = notif.id, .error = made == 0 ? 0 : -errno};
  ioctl(LISTENER, SECCOMP_IOCTL_NOTIF_SEND, &answer);
  close(mem);
  close(root);
  close(cwd);
}

int main(int argc, char **argv) {
  signal(SIGPIPE, SIG_IGN);
  out = argc > 2 ? fopen(argv[2], "w") : NULL;
  if (out == NULL)
    return 2;
  for (;;) {
    memset(&notif, 0, sizeof notif);
    if (ioctl(LISTENER, SECCOMP_IOCTL_NOTIF_RECV, &notif) == 0)
      serve(argv[1]);
    else if (errno != ENOENT)
      return 1;
  }
}
