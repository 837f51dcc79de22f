/* look.h - questions to the simulated kernel that are no events: `look` of `step` */
#ifndef SHIM_LOOK_H
#define SHIM_LOOK_H

#include "seccomp_step.h"

/* Each connects first; `call` is what the broker makes. */

/* The task that has a PID: 0, or -ESRCH. */
long look_pid(const char *call, uint32_t pid, struct sb_task *task);
/* What a task's descriptor leads to: 0. */
long look_fd(const char *call, uint32_t pid, uint32_t fd, struct sb_descriptor *leads);
/* The node that a path leads to: 0, or the error of the walk. */
long look_path(const char *call, uint32_t pid, int dirfd, const char *path, bool follow, struct sb_node *node);
/* POLLIN and POLLOUT of the listener. */
long look_listener(const char *call);

/* Lets the next so many requests of this thread be in one turn. */
void hold(unsigned count);

/* A number that tells one task from another. */
uint64_t key_of_task(const struct sb_task *task);

#endif
