/* step.c - the client of the simulated kernel, lib/seccomp_step.c, whose calls of the machine are made from the gate */
#define _GNU_SOURCE
#include "gate.h"
#include "step.h"

#include <ctype.h>
#include <errno.h>
#include <fcntl.h>
#include <inttypes.h>
#include <pthread.h>
#include <signal.h>
#include <spawn.h>
#include <stdarg.h>
#include <stdio.h>
#include <stdlib.h>
#include <string.h>
#include <sys/socket.h>
#include <sys/un.h>
#include <sys/wait.h>
#include <time.h>
#include <unistd.h>

static long with_errno(long given) {
  if (given >= 0)
    return given;
  errno = (int)-given;
  return -1;
}

#define read(fd, to, count) (wait_readable(fd), with_errno(made(SYS_read, fd, to, count)))
#define send(fd, from, count, flags) with_errno(made(SYS_sendto, fd, from, count, flags))
#define socket(family, type, protocol) (int)with_errno(made(SYS_socket, family, type, protocol))
#define connect(fd, address, size) with_errno(made(SYS_connect, fd, address, size))
#define fcntl(fd, ...) (int)with_errno(made(SYS_fcntl, fd, __VA_ARGS__))
#define shutdown(fd, how) with_errno(made(SYS_shutdown, fd, how))
#define close(fd) with_errno(made(SYS_close, fd))
#include "../seccomp_step.c"

int step_hold(struct sb_kernel *kernel, unsigned count) {
  add_format(request(kernel), "hold %u", count);
  return ask(kernel);
}
