/* places.c - see places.h */
#define _GNU_SOURCE
#include "places.h"
#include "broker.h"
#include "descriptors.h"
#include "gate.h"
#include "telling.h"

#include <errno.h>
#include <fcntl.h>
#include <stdio.h>
#include <stdlib.h>
#include <string.h>

static char writable[PATH_MAX], socket_path[PATH_MAX];
static const char harmless[] = "/dev/null:/dev/zero:/dev/full:/dev/tty:/dev/ptmx:/dev/pts:/dev/console";

struct entered entered;

void begin_places(void) {
  const char *folders = getenv("SECCOMP_BROKER_WRITABLE");
  const char *place = getenv("SECCOMP_BROKER_SOCKET");
  snprintf(writable, sizeof writable, "%s", folders == NULL ? "" : folders);
  snprintf(socket_path, sizeof socket_path, "%s", place == NULL ? "" : place);
}

/* ---- PIDs */

bool is_own(long pid) {
  if (pid < 0)
    pid = -pid;
  if (pid == 0)
    return true;
  if (is_callers(pid))
    return false;
  /* (0 is a session of another PID namespace, of which nothing is known) */
  long session = made(SYS_getsid, 0);
  return pid == made(SYS_getpid) || (session > 0 && made(SYS_getsid, pid) == session);
}

void test_own(const char *call, long pid) {
  if (!is_own(pid))
    tell_of(call, "of PID %ld", pid);
}

/* ---- paths */

/* The path that a relative one goes from: false where that isn't known. */
static bool begin_path(int dirfd, char path[PATH_MAX], size_t *used) {
  long length = dirfd == AT_FDCWD ? made(SYS_getcwd, path, PATH_MAX) : link_of(dirfd, path, PATH_MAX);
  if (length < 0 || path[0] != '/')
    return false;
  *used = strlen(path);
  if (*used == 1)
    *used = 0;
  return true;
}

/* Goes on along a path, name by name. False where it is too long. */
static bool add_names(char path[PATH_MAX], size_t *used, const char *names) {
  while (*names != '\0') {
    size_t length = strcspn(names, "/");
    if (length == 2 && names[0] == '.' && names[1] == '.') {
      while (*used > 0 && path[--*used] != '/')
        ;
    } else if (length > 0 && !(length == 1 && names[0] == '.')) {
      if (*used + length + 2 > PATH_MAX)
        return false;
      path[(*used)++] = '/';
      memcpy(path + *used, names, length);
      *used += length;
    }
    names += length + (names[length] == '/');
  }
  if (*used == 0)
    path[(*used)++] = '/';
  path[*used] = '\0';
  return true;
}

/* What stands behind a name at a path's beginning, or NULL. */
static const char *behind(const char *path, const char *name) {
  size_t length = strlen(name);
  if (strncmp(path, name, length) != 0)
    return NULL;
  return path[length] == '/' ? path + length + 1 : path[length] == '\0' ? path + length : NULL;
}

/* The number at a path's beginning, and what stands behind it. */
static bool number_at(const char *path, unsigned *number, const char **rest) {
  int length = 0;
  if (sscanf(path, "%9u%n", number, &length) != 1 || (path[length] != '/' && path[length] != '\0'))
    return false;
  *rest = path + length + (path[length] == '/');
  return true;
}

/* Of a path in the folder of this process: of a descriptor that stands for something, or what stands behind its root. */
static void find_in_own(struct place *place, const char *rest);

static void find_below(struct place *place, const char *path) {
  const char *rest = behind(path, "/proc"), *own;
  unsigned number;
  if (rest == NULL)
    return;
  if ((own = behind(rest, "self")) != NULL || (own = behind(rest, "thread-self")) != NULL) {
    find_in_own(place, own);
    return;
  }
  if (!number_at(rest, &number, &rest))
    return;
  if (is_own(number)) {
    find_in_own(place, rest);
    return;
  }
  place->whose = OF_TASK;
  place->pid = number;
  place->rest = rest;
  /* (a thread's own folder has the same files) */
  const char *of_task = behind(rest, "task");
  unsigned thread;
  if (of_task != NULL && number_at(of_task, &thread, &of_task) && thread == number)
    place->rest = of_task;
}

static void find_in_own(struct place *place, const char *rest) {
  const char *root = behind(rest, "root"), *fds = behind(rest, "fd");
  unsigned number;
  if (root != NULL)
    find_below(place, root - 1);
  else if (fds != NULL && number_at(fds, &number, &fds) && handle_of((int)number) != NULL) {
    place->whose = OF_STANDIN;
    place->fd = (int)number;
    place->rest = fds;
  }
}

void find_place(struct place *place, int dirfd, const char *path) {
  size_t used = 0;
  place->whose = ORDINARY;
  place->path[0] = '\0';
  struct handle *from = path[0] == '/' ? NULL : handle_of(dirfd);
  if (from != NULL && from->kind == PROC_FOLDER) {
    /* (below a task's own folder) */
    used = (size_t)snprintf(place->path, PATH_MAX, "/proc/%u", from->pid);
  } else if (from != NULL) {
    place->whose = OF_STANDIN;
    place->fd = dirfd;
    place->rest = path;
    return;
  } else if (path[0] != '/' && !begin_path(dirfd, place->path, &used)) {
    place->path[0] = '\0';
    return;
  }
  if (add_names(place->path, &used, path))
    find_below(place, place->path);
  else
    place->path[0] = '\0';
}

/* ---- what may be changed */

static bool is_below(const char *path, const char *folders) {
  for (const char *folder = folders; *folder != '\0';) {
    size_t length = strcspn(folder, ":");
    if (length > 0 && strncmp(path, folder, length) == 0 && (path[length] == '/' || path[length] == '\0'))
      return true;
    folder += length + (folder[length] == ':');
  }
  return false;
}

bool is_of_run(const char *path) { return is_below(path, writable); }

void tell_outside(const char *call, const char *path) { tell_of(call, "of %s, which isn't below the run's folder or a --writable one", path); }

bool is_writable(int fd, enum change change) {
  char found[PATH_MAX], own[64];
  if (link_of(fd, found, sizeof found) < 0)
    return true;
  snprintf(own, sizeof own, "/proc/%ld", made(SYS_getpid));
  return found[0] != '/' || strncmp(found, "/memfd:", strlen("/memfd:")) == 0 || is_of_run(found) || is_below(found, own) ||
         (change == OF_CONTENT && is_below(found, harmless));
}

/* Opens what a path leads to, or else the next folder above it that is there, as the machine finds them; a negated error where there is none. */
static long open_above(const char *path, enum change change) {
  char folder[PATH_MAX];
  snprintf(folder, sizeof folder, "%s", path);
  long fd = change == OF_ENTRY ? -ENOENT : made(SYS_openat, AT_FDCWD, folder, O_PATH | O_CLOEXEC);
  for (char *slash; fd < 0 && (slash = strrchr(folder, '/')) != NULL;) {
    slash[slash == folder] = '\0';
    fd = made(SYS_openat, AT_FDCWD, folder, O_PATH | O_CLOEXEC);
    if (slash == folder)
      break;
  }
  return fd;
}

/* Whether a path is a link to what isn't there: by it a file would be made elsewhere. */
static bool is_dangling(const char *path) {
  long fd = made(SYS_openat, AT_FDCWD, path, O_PATH | O_CLOEXEC), link = made(SYS_openat, AT_FDCWD, path, O_PATH | O_NOFOLLOW | O_CLOEXEC);
  if (fd >= 0)
    made(SYS_close, fd);
  if (link >= 0)
    made(SYS_close, link);
  return fd < 0 && link >= 0;
}

void test_writable(const char *call, const char *path, enum change change) {
  /* (where the broker waits for the listener) */
  if (strcmp(path, socket_path) == 0)
    return;
  if (change != OF_ENTRY && is_dangling(path))
    tell_outside(call, path);
  long fd = open_above(path, change);
  if (fd < 0)
    return;
  bool is_allowed = is_writable((int)fd, change);
  made(SYS_close, fd);
  if (!is_allowed)
    tell_outside(call, path);
}
