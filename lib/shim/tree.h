/* tree.h - a container's tree and its tasks; see answers.h for the calls */
#ifndef SHIM_TREE_H
#define SHIM_TREE_H

#include "descriptors.h"
#include "places.h"

void begin_tree(void);

/* Whether a process that was opened still has its PID; so many requests that follow are in the same turn. */
bool is_there(const char *call, uint32_t pid, uint64_t wanted, unsigned more);
/* Whether the task has ended that a pidfd names. */
bool has_task_ended(const char *call, const struct handle *handle);

/* Where in a task's tree a path is that goes from a descriptor, or that an entered process has: false of another one. */
struct spot {
  uint32_t pid;
  int dirfd;
  unsigned seat;
  char path[PATH_MAX + 1];
};
bool spot_of(const char *call, const struct place *place, int dirfd, const char *given, struct spot *spot);

/* Looks where a path leads that goes from a descriptor, or from a task's root: 0, or the error of the walk. `resolve` is that of openat2(2). */
long find_node(const char *call, uint32_t pid, int dirfd, const char *path, bool follows, uint64_t resolve, struct sb_node *node);

#endif
