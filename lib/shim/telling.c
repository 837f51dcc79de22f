/* telling.c - see telling.h */
#define _GNU_SOURCE
#include "telling.h"
#include "gate.h"

#include <fcntl.h>
#include <stdarg.h>
#include <stdio.h>
#include <stdlib.h>
#include <string.h>
#include <unistd.h>

static char place[PATH_MAX];

void begin_telling(void) {
  const char *named = getenv("SECCOMP_BROKER_TOLD");
  snprintf(place, sizeof place, "%s", named == NULL ? "" : named);
}

void note(const char *line) {
  long fd = place[0] == '\0' ? -1 : made(SYS_openat, AT_FDCWD, place, O_WRONLY | O_APPEND | O_CLOEXEC);
  if (fd < 0)
    return;
  made(SYS_write, fd, line, strlen(line));
  made(SYS_close, fd);
}

void tell(const char *call, const char *what) {
  char line[PATH_MAX + 256];
  snprintf(line, sizeof line, "shim: not supported: %s%s%s\n", call, *what == '\0' ? "" : " ", what);
  note(line);
  made(SYS_write, STDERR_FILENO, line, strlen(line));
  /* (a child of vfork(2) has its parent's memory) */
  trap_state.selector = 1;
  for (;;)
    made(SYS_exit_group, UNSUPPORTED);
}

void tell_of(const char *call, const char *form, ...) {
  char what[PATH_MAX + 128];
  va_list arguments;
  va_start(arguments, form);
  vsnprintf(what, sizeof what, form, arguments);
  va_end(arguments);
  tell(call, what);
}
