/* places.h - whose a PID, a path or a file is, and what the run may change */
#ifndef SHIM_PLACES_H
#define SHIM_PLACES_H

#include <limits.h>
#include <stdbool.h>
#include <stdint.h>

void begin_places(void);

/* Whether a PID is this process, one of its threads, or one that it has started, and no caller's: negated, a group's. */
bool is_own(long pid);
/* Tells a call that concerns another one's PID. */
void test_own(const char *call, long pid);

enum whose { ORDINARY, OF_TASK, OF_STANDIN };

/* A path that a call has, and what it is: of a task, `pid` and what stands behind that in /proc; of a descriptor that stands for something, that one and what stands behind it. */
struct place {
  enum whose whose;
  uint32_t pid;
  int fd;
  const char *rest;
  /* the path without `.`, `..` and doubled slashes; empty where it isn't known, or leads to no path */
  char path[PATH_MAX];
};

/* Looks whose the path of a call is. `dirfd` is what it goes from, and `path` a copy of it. */
void find_place(struct place *place, int dirfd, const char *path);

/* What of a file a call changes: what it has, which a device may keep nothing of, the file itself, or its entry in its folder. */
enum change { OF_CONTENT, OF_FILE, OF_ENTRY };

/* Whether what a descriptor is open on may be changed: it has no path, or it is the run's. */
bool is_writable(int fd, enum change change);
/* Tells a call that changes what isn't the run's. */
void test_writable(const char *call, const char *path, enum change change);
_Noreturn void tell_outside(const char *call, const char *path);
/* Whether a path stands below a folder of the run. */
bool is_of_run(const char *path);

/* ---- a process that has entered a task's mount namespace, or its root: its paths are the container's */

struct entered {
  bool is_there;
  unsigned seat;
  uint32_t pid;
};
extern struct entered entered;

#endif
