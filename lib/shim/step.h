/* step.h - what the library asks the explorer besides the calls of the client */
#ifndef SHIM_STEP_H
#define SHIM_STEP_H

#include "seccomp_step.h"

/* Asks that the next so many requests of this thread are answered in one turn: no task steps between them. */
int step_hold(struct sb_kernel *kernel, unsigned count);

#endif
