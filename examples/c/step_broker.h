/* A small broker: it makes the harmless devices that a container asks for by mknod(2), and leaves every other call to the kernel. */
#ifndef STEP_BROKER_H
#define STEP_BROKER_H

#include <seccomp_step.h>

/* Serves a notification that was received at this seat, up to the answer, and lets go of it.
 * Returns 0 where the call got its answer, -ENOENT where it was gone before, and another error where the broker itself failed. */
int broker_serve(struct sb_kernel *kernel, unsigned seat, const struct seccomp_notif *notif);

#endif
