/*
 * seccomp_broker.h - the simulator of a broker for seccomp user notifications, as a library
 *
 * Each call takes bytes and gives a report and a status, as the program of the same name does of files. docs/reference has policies,
 * scripts and reports. docs/reference/C_LIBRARY.md is the guide to this library, with its proved sentences.
 *
 * Buffers. The caller owns every buffer, before the call and after it; the library keeps no pointer. A buffer is a pointer and a
 * number of bytes. One of 0 bytes may be NULL. Nothing is written past a buffer, and no zero byte is added after a text. The buffers
 * and lengths of one call don't overlap.
 *
 * Lengths. Every call sets *out_length and *line_length to the length of the whole text, whatever its status. If a text is longer than
 * its buffer, the buffer has its beginning. A whole report that doesn't fit is BROKER_SHORT_BUFFER, never BROKER_DONE or
 * BROKER_OTHERWISE: call again with a buffer of *out_length bytes.
 *
 * Room. A call holds its report in memory before it copies it to `out`: at most `room` bytes, taken as they are needed. A larger room
 * than BROKER_ROOM_LIMIT counts as BROKER_ROOM_LIMIT.
 *
 * Memory comes from the program's malloc and realloc, and goes back by free before the call returns.
 *
 * Threads. There is no state between calls: any number of threads may call at once, each with its own buffers. A call starts no
 * thread, takes no lock except malloc's, and reads and writes no file. Don't call from a signal handler, or after fork(2) in the child
 * of a process with several threads.
 */
#ifndef SECCOMP_BROKER_H
#define SECCOMP_BROKER_H

#include <stddef.h>
#include <stdint.h>

#ifdef __cplusplus
extern "C" {
#endif

/* The version of the library that this header belongs to. */
#define BROKER_VERSION "0.10.0"

/* How a call ended. 0 to 11 are the program's exit statuses. With each but BROKER_DONE, BROKER_OTHERWISE and BROKER_SHORT_BUFFER, `line`
 * has the one line that the program would print on standard error; with these three it is empty. */
enum broker_status {
  /* `out` has the whole text of the call's command. Of broker_judge: the workers mediate. */
  BROKER_DONE = 0,
  /* `count` isn't 1 to 4000, `every` isn't 1 to 200000, `workers` is above 15, or `delays` above 8 and not BROKER_ALL_DELAYS. */
  BROKER_USAGE = 1,
  /* A file couldn't be read. No call of this library answers it. */
  BROKER_READ_FAULT = 2,
  /* The policy has more than 1,048,576 bytes, the script more than 8,388,608, or the report more than 33,554,432. */
  BROKER_TOO_LONG = 3,
  /* The policy is refused. */
  BROKER_BAD_POLICY = 4,
  /* The script is refused. */
  BROKER_BAD_SCRIPT = 5,
  /* The report has more bytes than `room`. `out` has a beginning of it, and *out_length is larger than `room`. */
  BROKER_WRITE_FAULT = 6,
  /* There was no memory. `out` has nothing, or a beginning of the report. */
  BROKER_NO_MEMORY = 7,
  /* (No status is 8.) The bytes aren't the report of a legal history. `line` has the number of the first line that can't be right. */
  BROKER_NOT_REPORT = 9,
  /* (No status is 10.) Of broker_judge: the workers break a clause, and `out` has the whole judgement. */
  BROKER_OTHERWISE = 11,
  /* The report is whole, and has more bytes than `out`, which has the beginning of it. */
  BROKER_SHORT_BUFFER = 100
};

/* The largest room: 1 GiB. */
#define BROKER_ROOM_LIMIT ((size_t)1 << 30)

#if defined(__GNUC__)
#define BROKER_NOT_NULL(...) __attribute__((nonnull(__VA_ARGS__)))
#else
#define BROKER_NOT_NULL(...)
#endif

/*
 * Plays the schedule of a script under a policy, and writes the whole report to `out`, as `play POLICY SCRIPT` prints it.
 *
 * Answers BROKER_DONE, BROKER_TOO_LONG, BROKER_BAD_POLICY, BROKER_BAD_SCRIPT, BROKER_WRITE_FAULT, BROKER_NO_MEMORY or
 * BROKER_SHORT_BUFFER. The policy is read first, and the script only if the policy is accepted.
 */
BROKER_NOT_NULL(8, 11)
enum broker_status broker_play(const void *policy, size_t policy_length,
                               const void *script, size_t script_length,
                               size_t room,
                               void *out, size_t out_size, size_t *out_length,
                               void *line, size_t line_size, size_t *line_length);

/*
 * Plays generated input of `count` calls, 1 to 4000, and writes the line of its summary to `out`, as `stress FROM COUNT` prints
 * it. The same `from` makes the same input.
 *
 * Answers BROKER_DONE, BROKER_USAGE, BROKER_WRITE_FAULT, BROKER_NO_MEMORY or BROKER_SHORT_BUFFER.
 */
BROKER_NOT_NULL(6, 9)
enum broker_status broker_stress(uint64_t from, uint32_t count,
                                 size_t room,
                                 void *out, size_t out_size, size_t *out_length,
                                 void *line, size_t line_size, size_t *line_length);

/*
 * Checks if bytes are the report of a legal history under a policy and a script, whatever its schedule. Writes to `out` the output of
 * `audit-check POLICY SCRIPT REPORT`: a line with the number of events, and if the history is finished; then the trail, a line for each
 * call. Here the lengths, `room` and BROKER_SHORT_BUFFER are of that text.
 *
 * Answers BROKER_DONE, BROKER_TOO_LONG, BROKER_BAD_POLICY, BROKER_BAD_SCRIPT, BROKER_WRITE_FAULT, BROKER_NO_MEMORY,
 * BROKER_NOT_REPORT or BROKER_SHORT_BUFFER. The report is read only if the policy and the script are accepted.
 */
BROKER_NOT_NULL(10, 13)
enum broker_status broker_audit_check(const void *policy, size_t policy_length,
                                      const void *script, size_t script_length,
                                      const void *report, size_t report_length,
                                      size_t room,
                                      void *out, size_t out_size, size_t *out_length,
                                      void *line, size_t line_size, size_t *line_length);

/*
 * Plays the schedule of a script under a policy, and replaces workers. After each `every` steps of workers, 1 to 200000, a successor
 * goes on from the ledger of the worker that took the last one. Writes to `out` the output of `handover POLICY SCRIPT EVERY`: the whole
 * report, which is that of broker_play, then the number of replaced workers, and a line for each ledger. Here the lengths, `room` and
 * BROKER_SHORT_BUFFER are of that text.
 *
 * Answers BROKER_DONE, BROKER_USAGE, BROKER_TOO_LONG, BROKER_BAD_POLICY, BROKER_BAD_SCRIPT, BROKER_WRITE_FAULT, BROKER_NO_MEMORY or
 * BROKER_SHORT_BUFFER. The policy is read first, and the script only if the policy is accepted.
 */
BROKER_NOT_NULL(9, 12)
enum broker_status broker_handover(const void *policy, size_t policy_length,
                                   const void *script, size_t script_length,
                                   uint32_t every,
                                   size_t room,
                                   void *out, size_t out_size, size_t *out_length,
                                   void *line, size_t line_size, size_t *line_length);

/* The number of delays that means all of them. */
#define BROKER_ALL_DELAYS UINT32_MAX

/*
 * Explores a script under a policy: plays it in the orders of steps with at most `delays` delays, 0 to 8, or BROKER_ALL_DELAYS, by
 * workers from 0 to `workers`, at most 15. Writes to `out` the output of `explore POLICY SCRIPT WORKERS DELAYS`: the number of explored
 * histories, and each outcome of the calls, with a schedule that plays it. Here the lengths, `room` and BROKER_SHORT_BUFFER are of that
 * text.
 *
 * Answers BROKER_DONE, BROKER_USAGE, BROKER_TOO_LONG, BROKER_BAD_POLICY, BROKER_BAD_SCRIPT, BROKER_WRITE_FAULT, BROKER_NO_MEMORY or
 * BROKER_SHORT_BUFFER. The policy is read first, and the script only if the policy is accepted.
 */
BROKER_NOT_NULL(10, 13)
enum broker_status broker_explore(const void *policy, size_t policy_length,
                                  const void *script, size_t script_length,
                                  uint32_t workers, uint32_t delays,
                                  size_t room,
                                  void *out, size_t out_size, size_t *out_length,
                                  void *line, size_t line_size, size_t *line_length);

/*
 * Judges if the workers of a script's schedule mediate, built-in ones or another broker's. Writes to `out` the output of
 * `judge POLICY SCRIPT`: one line with counts, or the first event that breaks a clause, with the clause and its class, and lines that
 * show why. Here the lengths, `room` and BROKER_SHORT_BUFFER are of that text.
 *
 * Answers BROKER_DONE if no clause is broken, BROKER_OTHERWISE if one is, BROKER_TOO_LONG, BROKER_BAD_POLICY, BROKER_BAD_SCRIPT,
 * BROKER_WRITE_FAULT, BROKER_NO_MEMORY or BROKER_SHORT_BUFFER. The policy is read first, and the script only if the policy is accepted.
 */
BROKER_NOT_NULL(8, 11)
enum broker_status broker_judge(const void *policy, size_t policy_length,
                                const void *script, size_t script_length,
                                size_t room,
                                void *out, size_t out_size, size_t *out_length,
                                void *line, size_t line_size, size_t *line_length);

#undef BROKER_NOT_NULL

#ifdef __cplusplus
}
#endif

#endif
