/* starting.h - what goes to the programs that the broker starts; see answers.h for the calls */
#ifndef SHIM_STARTING_H
#define SHIM_STARTING_H

#include <stdbool.h>

/* Keeps the variables that the library needs, before the broker may change its environment. `can_start` says whether programs may be started. */
void begin_starting(bool can_start);

#endif
