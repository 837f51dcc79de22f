/* broker.h - the broker's processes, its threads with their connections, the seats of its notifications, and its calls on the listener. Results are those of system calls: a negated error where one failed. */
#ifndef SHIM_BROKER_H
#define SHIM_BROKER_H

#include "seccomp_step.h"

#include <stdbool.h>
#include <stdint.h>

/* The connection of the thread that runs; NULL before its first call that concerns the kernel. */
extern __thread struct sb_kernel *kernel __attribute__((tls_model("initial-exec")));

void begin_broker(void);
/* The first thread of a child that has a copy of the memory: it has a connection of its own from its first call on. */
void begin_copy(void);
/* Connects before the first call of a thread that concerns the kernel; `call` is what it makes. */
void connect_once(const char *call);
/* Whether the broker has asked the kernel for something, in any of its processes. */
bool has_begun(void);

/* The result of a call of the simulated kernel. Where the run is over, so is the broker. */
long result_of(int given);
/* That of an opening in /proc. Where nobody has the PID Linux says ENOENT, and the broker knows that its caller has gone. */
long result_of_opening(unsigned seat, int given);

/* ---- seats: a notification has one from its receive on, until the thread that did something for it last receives again, and it is answered or was told to have gone */

/* The seat of the notification of a PID that is in hand, the thread's own before another one's; of the notification that is meant where there is no PID. It is the thread's from now on. */
unsigned seat_of_pid(uint32_t pid, const char *call, const char *path);
unsigned seat_meant(const char *call, const char *path);
/* Whether a notification in hand is of this PID. */
bool is_callers(long pid);
/* A seat keeps what was opened last of each: notes an opening, and gives its number; and whether it is the last one. */
enum opened { A_MEMORY, A_FOLDER, KINDS_OPENED };
unsigned note_opening(unsigned seat, enum opened what);
bool is_last_opening(unsigned seat, enum opened what, unsigned opening);
/* Whether a call is in hand that isn't answered, as far as the broker knows. */
bool has_unanswered(void);

/* ---- the listener; pointers are the broker's, and nothing need be mapped there */

long receive(void *notif);
long id_valid(const void *id);
long respond(const void *answer);
long put(const void *asked);

/* ---- a process that installs the filter itself would be the container: the script's tasks are in its place */

void become_container(void);
bool is_container(void);
/* It has passed on the listener: it waits for ever. */
_Noreturn void wait_for_ever(void);

#endif
