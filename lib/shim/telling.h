/* telling.h - how a call is told that can't be answered */
#ifndef SHIM_TELLING_H
#define SHIM_TELLING_H

/* Ends the process with UNSUPPORTED, and writes `shim: not supported: CALL WHAT` to the file that SECCOMP_BROKER_TOLD names, since the standard error of a program that
 * the broker has started may lead elsewhere, and to standard error. */
_Noreturn void tell(const char *call, const char *what);

/* The same with a number or a path. */
__attribute__((format(printf, 2, 3))) _Noreturn void tell_of(const char *call, const char *form, ...);

/* Writes a line to that file alone, and goes on: the explorer tells it where the run comes to nothing. */
void note(const char *line);

/* Looks once where to write, before the broker may change its environment. */
void begin_telling(void);

#endif
