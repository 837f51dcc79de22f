/* filter.h - the filter of seccomp(2) that stays in children, and in programs which they start */
#ifndef SHIM_FILTER_H
#define SHIM_FILTER_H

#include <stdbool.h>

/* Installs it: 0, or a negated error. What may never reach the machine is trapped wherever it is made, and what changes it is trapped unless it comes from the gate. Where
 * `is_alone`, so is each call that isn't made as it is. */
int install_filter(bool is_alone);

#endif
