/* calls.h - the classes of system calls, by their numbers */
#ifndef SHIM_CALLS_H
#define SHIM_CALLS_H

#include "numbers.h"

#include <stdbool.h>

enum call_kind {
  /* isn't known: told */
  UNKNOWN,
  /* concerns the process alone: made as it is */
  PASS,
  /* made as it is where its arguments concern no task of a container, and change nothing but the run's own */
  LOOK,
  /* has a function in answers.c, which answers it, lets it be made, or tells it */
  OWN,
  /* is never made: told */
  NEVER,
};

struct call_class {
  const char *name;
  enum call_kind class;
  /* What each argument is: `f` a descriptor, `m` one that is changed, `d` the descriptor of a folder for the path behind it, `D` the same where the path may be empty,
   * `r` a path that is read, `w` one whose file is changed, `e` one whose entry in its folder is, `i` a PID, `.` anything else. */
  const char *arguments;
  /* whether it changes more than the process, so that it is made from the gate alone, in children and in programs which they start, too */
  bool is_held;
};

/* All that the table below has, and room up to the highest number. */
enum { CALLS = 470 };
extern const struct call_class call_classes[CALLS];

#endif
