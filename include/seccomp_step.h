/*
 * seccomp_step.h - your own broker on the simulated kernel
 *
 * A broker that serves seccomp user notifications makes a few calls of the kernel: it receives, asks if an id is still valid,
 * reads the caller's memory, acts, and answers (seccomp_unotify(2)). With this library it makes them of the simulated kernel, which the
 * program `seccomp-broker step POLICY SCRIPT` runs. A test steps the container's tasks itself, so each race comes when the test wants it.
 * docs/YOUR_BROKER.md is the guide. lib/seccomp_step.c is all of the library, and needs only a C library and <linux/seccomp.h>.
 *
 * Results. Each call that returns an int or a ssize_t returns 0 or a number if it succeeds, and else a negated error number of
 * its manual page. No call sets errno. Every call may return these errors:
 *
 *   -EAGAIN     the real call would wait here: nothing has happened, and the caller steps tasks and asks again
 *   -ECHRNG     the worker's number is above SB_MOST_WORKERS - 1
 *   -ESHUTDOWN  the listener is closed
 *   -EMSGSIZE   the texts of the call have more than the 65,536 bytes that a request may have
 *   -EPIPE      the program has ended; sb_close tells its status
 *   -EPROTO     the program's answer can't be understood: it isn't a program that knows `step`, or takes no such number or text
 *   -ENOMEM     there is no memory; a request that wasn't sent has changed nothing
 *
 * Workers. The simulated kernel has 16 seats for notifications, and `worker` is the number of one. A seat holds a notification from
 * sb_recv to sb_let_go, with the memory and the directory that were opened for it. A broker that holds several notifications at
 * once, or has several threads, uses one seat for each.
 *
 * Threads. A `struct sb_kernel` is used by one thread at a time: the library takes no lock. Two kernels share nothing.
 *
 * Processes. sb_open starts a child process, and sb_close waits for it. The library changes no signal's disposition, and raises no
 * SIGPIPE. A program that waits for any child (waitpid(-1, ..)) takes the status away from sb_close, which then returns -ECHILD.
 *
 * Variables. If SECCOMP_BROKER_KERNEL names a Unix socket, sb_open connects there, and starts no program: another one holds the kernel and
 * steps the tasks, as explore-broker does. Then a call that would wait waits, and sb_step and sb_close_listener aren't for the broker.
 * If SECCOMP_BROKER_SESSION names a file, requests and answers are written there, for reference-judge; each sb_open writes it again.
 *
 * A whole session, which makes the device that a container asks for (examples/c/step_broker.c has a real one):
 *
 *   struct sb_kernel *kernel;
 *   struct seccomp_notif notif = {0};
 *   struct seccomp_notif_resp answer = {0};
 *   char path[256];
 *   int error = sb_open(&kernel, NULL, "policy.json", "script.txt");
 *   while (error == 0 && sb_able(kernel, NULL, 0) == 0)
 *     error = sb_step(kernel, "0");
 *   if (error == 0 && sb_recv(kernel, 0, &notif) == 0 && sb_open_mem(kernel, 0, notif.pid) == 0 && sb_id_valid(kernel, 0, notif.id) == 0
 *       && sb_pread(kernel, 0, path, sizeof path, notif.data.args[0]) > 0 && sb_id_valid(kernel, 0, notif.id) == 0) {
 *     answer.id = notif.id;
 *     answer.error = sb_mknodat(kernel, 0, AT_FDCWD, path, S_IFCHR | 0666, makedev(1, 3));
 *     sb_send(kernel, 0, &answer);
 *   }
 *   sb_let_go(kernel, 0);
 *   sb_close(kernel);
 */
#ifndef SECCOMP_STEP_H
#define SECCOMP_STEP_H

#include <linux/seccomp.h>
#include <stdbool.h>
#include <stddef.h>
#include <stdint.h>
#include <sys/sysinfo.h>
#include <sys/types.h>

#ifdef __cplusplus
extern "C" {
#endif

/* How many seats there are: `worker` is 0 to 15. */
#define SB_MOST_WORKERS 16
/* How many bytes sb_pread reads at once. */
#define SB_MOST_READ 4096

/* A simulated kernel with a container, and the program that runs it. */
struct sb_kernel;

/* ---- the kernel */

/* Starts the program on a policy and a script, and waits until the container has started: its first task is there and hasn't stepped.
 * `program` is a path, or a name on the PATH. If it is NULL, the variable SECCOMP_BROKER of the environment names it,
 * by default `seccomp-broker`. If 0 is returned, give *kernel to sb_close; else it is NULL. With SECCOMP_BROKER_KERNEL
 * all three may be NULL.
 *
 *   -ENOENT, -EACCES, ..  the program can't be started (execve(2)), the socket can't be connected to (connect(2)), or a file can't be written
 *   -EINVAL               the program took no request: it refuses the policy or the script, and has said why on standard error
 *
 *   int error = sb_open(&kernel, NULL, "policy.json", "script.txt"); */
int sb_open(struct sb_kernel **kernel, const char *program, const char *policy, const char *script);

/* Closes the program's input, which closes the listener, and waits for the program. Frees the kernel in any case. NULL is 0.
 * Returns the program's exit status, 0 if all went well, or 128 and the number of the signal that ended it.
 *
 *   assert(sb_close(kernel) == 0); */
int sb_close(struct sb_kernel *kernel);

/* The program's answer to the newest request, without its newline: the journal's line of the event (docs/reference/REPORT.md), `skip` if there
 * was none, or the reason of a refusal. It holds until the next call. Never NULL.
 *
 *   puts(sb_answer(kernel));                             7 w0 send 1 0 ok */
const char *sb_answer(const struct sb_kernel *kernel);

/* The report so far, as `seccomp-broker play` prints it, as a text with a zero byte after it, which the caller frees. *length, if
 * `length` isn't NULL, is the number of its bytes. If an error is returned, *report is NULL.
 *
 *   if (sb_report(kernel, &report, NULL) == 0) { fputs(report, stdout); free(report); } */
int sb_report(struct sb_kernel *kernel, char **report, size_t *length);

/* The script of what has happened so far, given as sb_report gives the report: the lines of the script before its schedule, and a schedule with each
 * step of a task and each call of the broker that was an event. `seccomp-broker play` plays it, and prints the report that sb_report gives after
 * sb_close_listener. The script's own bytes are as in its file; in a comment there may be a zero byte, so take the length.
 *
 *   -EFBIG  it would have more steps (200,000) or bytes (8,388,608) than a script may have
 *
 *   if (sb_script(kernel, &script, &length) == 0) { fwrite(script, 1, length, file); free(script); } */
int sb_script(struct sb_kernel *kernel, char **script, size_t *length);

/* The judgement of the broker so far: the first line of the output of `reference-judge`, with its newline, given as sb_report gives the report.
 * It is `mediated events=N calls=N effects=N answers=N`, or of the first event that breaks a clause `broken PLACE CLASS CLAUSE` (docs/reference/OUTPUTS.md). With `is_idle` the
 * broker does nothing more by itself: then a received call that waits is unanswered, at the newest event, while the listener is open.
 *
 *   if (sb_judge(kernel, true, &found, NULL) == 0) { fputs(found, stdout); free(found); } */
int sb_judge(struct sb_kernel *kernel, bool is_idle, char **found, size_t *length);

/* ---- the container's tasks */

/* Writes the names of the tasks that can step, with a blank between two, and returns 1 if sb_recv wouldn't wait, else 0: a notification is
 * there, or its call has gone. With a `size` of 0 nothing is written, and `tasks` may be NULL.
 *
 *   -ERANGE  the names and a zero byte don't fit
 *
 *   char tasks[256];
 *   bool is_notified = sb_able(kernel, tasks, sizeof tasks) == 1;     tasks is "0 0.1" */
int sb_able(struct sb_kernel *kernel, char *tasks, size_t size);

/* Lets a task make its next step: an instruction, a call that returns, a signal that is delivered.
 *
 *   -EAGAIN  it has no step to make: it has ended, or waits for the broker, or for a child
 *   -ESRCH   no task of this name was made
 *
 *   while (sb_step(kernel, "0") == 0) ; */
int sb_step(struct sb_kernel *kernel, const char *task);

/* ---- looks. A look is no event: it changes nothing, no report has it, and no judge gets it. */

/* How many bytes a task's name and a link's target have at most, with the zero byte. */
#define SB_MOST_NAME 456
#define SB_MOST_TARGET 4096

/* A task's state, by the letter of /proc/PID/stat: it can step; it waits, for the broker or for a child; it waits, and only a fatal signal
 * ends that, since its call was received and the listener is killable; or it has ended and wasn't waited for. */
enum sb_task_state { SB_RUNNING = 'R', SB_SLEEPING = 'S', SB_DISK_SLEEP = 'D', SB_ZOMBIE = 'Z' };

/* A task: its name, the PID of its parent while that lives, else 0, and its state. Each task is a thread group of its own. */
struct sb_task {
  char name[SB_MOST_NAME];
  uint32_t ppid;
  enum sb_task_state state;
};

/* A node of the container's tree: its ordinal, which no other node gets; its kind, as S_IFDIR (inode(7)); the numbers of a device, else 0; and
 * the target of a link, else empty. */
struct sb_node {
  uint32_t ordinal;
  mode_t kind;
  uint32_t major_number, minor_number;
  char target[SB_MOST_TARGET];
};

/* What a descriptor leads to. */
enum sb_object { SB_NOTHING, SB_CONSOLE, SB_FILE, SB_NODE };

/* The same, with the number of the broker's file that was put there (`srcfd`), or with the node. */
struct sb_descriptor {
  enum sb_object object;
  uint32_t file;
  struct sb_node node;
};

/* The task that holds a PID.
 *
 *   -ESRCH  nobody does
 *
 *   struct sb_task task;
 *   bool waits = sb_look_pid(kernel, notif.pid, &task) == 0 && task.state != SB_RUNNING; */
int sb_look_pid(struct sb_kernel *kernel, uint32_t pid, struct sb_task *task);

/* What a descriptor of the task that holds a PID leads to: SB_NOTHING if it isn't open, nobody holds the PID, or the task has ended.
 *
 *   struct sb_descriptor leads;
 *   int error = sb_look_fd(kernel, notif.pid, 3, &leads); */
int sb_look_fd(struct sb_kernel *kernel, uint32_t pid, uint32_t number, struct sb_descriptor *leads);

/* The node of a path that the holder of a PID would walk from a descriptor, or from its working directory (AT_FDCWD). If `follows` isn't set,
 * a link at the end is itself the node. Each path goes over the container's tree, and ends at its root.
 *
 *   -ESRCH  nobody holds the PID, or the task has ended
 *   -EBADF  a relative path, and the descriptor is no directory
 *   -ENOENT, -ENOTDIR, -ELOOP, -ENAMETOOLONG  the walk leads nowhere (path_resolution(7))
 *
 *   struct sb_node node;
 *   int error = sb_look_path(kernel, notif.pid, AT_FDCWD, "/dev/null", true, &node); */
int sb_look_path(struct sb_kernel *kernel, uint32_t pid, int dirfd, const char *path, bool follows, struct sb_node *node);

/* poll(2) of the listener: POLLIN if a call waits to be received, POLLOUT if one was received and waits for its answer.
 *
 *   bool is_there = (sb_look_listener(kernel) & POLLIN) != 0; */
int sb_look_listener(struct sb_kernel *kernel);

/* ---- its end */

/* Closes the listener, as the broker's end does. After it only sb_answer, sb_report, sb_script, sb_judge and sb_close work. */
int sb_close_listener(struct sb_kernel *kernel);

/* ---- the listener: ioctl(2) with the requests of seccomp_unotify(2) */

/* SECCOMP_IOCTL_NOTIF_RECV: the oldest notification that wasn't received. *notif has to be filled with zeros, as for the kernel. If the
 * seat has a notification already, that one is released, but the memory and the directory that were opened for it stay open.
 *
 *   -EINVAL  *notif isn't filled with zeros
 *   -ENOENT  the call has gone: its task was interrupted or has ended
 *   -EAGAIN  no call is waiting: the real one would block
 *
 *   struct seccomp_notif notif = {0};
 *   int error = sb_recv(kernel, 0, &notif); */
int sb_recv(struct sb_kernel *kernel, unsigned worker, struct seccomp_notif *notif);

/* SECCOMP_IOCTL_NOTIF_ID_VALID: if the call still waits for an answer. A broker asks it after it has opened the caller's memory, and
 * again after it has read all that it needs.
 *
 *   -ENOENT  it doesn't: what was opened by the caller's PID may be another task's
 *
 *   if (sb_id_valid(kernel, 0, notif.id) != 0) { sb_let_go(kernel, 0); return; } */
int sb_id_valid(struct sb_kernel *kernel, unsigned worker, uint64_t id);

/* SECCOMP_IOCTL_NOTIF_SEND: answers a call. `error` is 0 or a negated error number.
 *
 *   -EINVAL       an unknown flag; SECCOMP_USER_NOTIF_FLAG_CONTINUE with a value or an error; an error above 0 or below -4095
 *   -ENOENT       no such call waits any more
 *   -EINPROGRESS  it was answered already, or not received yet
 *
 *   struct seccomp_notif_resp answer = {.id = notif.id, .error = -EPERM};
 *   int error = sb_send(kernel, 0, &answer); */
int sb_send(struct sb_kernel *kernel, unsigned worker, const struct seccomp_notif_resp *answer);

/* SECCOMP_IOCTL_NOTIF_ADDFD, its first half: asks for a descriptor to be put into the caller. The script's lines `broker N` have the numbers
 * of `srcfd`. The real call waits until the caller has installed it; here a step of the caller does that, and sb_addfd_result tells.
 *
 *   -EINVAL       an unknown flag, or a number without SECCOMP_ADDFD_FLAG_SETFD
 *   -EBADF        `srcfd` isn't open in the broker
 *   -ENOENT       no such call waits any more
 *   -EINPROGRESS  it was answered already, or not received yet
 *   -EBUSY        with SECCOMP_ADDFD_FLAG_SEND: another request of the call isn't installed yet
 *   -EALREADY     the result of the seat's last request wasn't taken
 *
 *   struct seccomp_notif_addfd asked = {.id = notif.id, .flags = SECCOMP_ADDFD_FLAG_SEND, .srcfd = 5};
 *   int error = sb_addfd(kernel, 0, &asked); */
int sb_addfd(struct sb_kernel *kernel, unsigned worker, const struct seccomp_notif_addfd *asked);

/* Its second half: the number that the descriptor got in the caller.
 *
 *   -EAGAIN   the caller hasn't installed it yet: let it step
 *   -EBADF    no number was free (Linux: EMFILE), or the number that was asked for isn't below the caller's limit
 *   -EMFILE   the number that was asked for isn't below 1,048,576, where every limit ends (Linux: EBADF)
 *   -ENOENT   the call has gone
 *   -ENOMSG   nothing was asked for
 *
 *   int number = sb_addfd_result(kernel, 0); */
int sb_addfd_result(struct sb_kernel *kernel, unsigned worker);

/* Releases the seat's notification, and closes all that was opened for it. Send an answer before. */
int sb_let_go(struct sb_kernel *kernel, unsigned worker);

/* ---- the caller's memory (proc(5)) */

/* open(2) of /proc/PID/mem: the memory of whichever task has this PID by now. It stays open, even if the task ends. A second one
 * replaces and closes it.
 *
 *   -ESRCH  nobody has the PID, or the task has ended (Linux: ENOENT)
 *
 *   int error = sb_open_mem(kernel, 0, notif.pid); */
int sb_open_mem(struct sb_kernel *kernel, unsigned worker, uint32_t pid);

/* pread(2) of the memory that is open: at most SB_MOST_READ bytes at once, and as many as are mapped from the address on. Returns
 * how many.
 *
 *   -EFAULT  nothing is mapped at the address (Linux: EIO), or no memory is open
 *
 *   ssize_t count = sb_pread(kernel, 0, path, sizeof path, notif.data.args[0]); */
ssize_t sb_pread(struct sb_kernel *kernel, unsigned worker, void *buffer, size_t count, uint64_t address);

/* pwrite(2) of sysinfo(2)'s result, into the memory that is open: all of it or nothing.
 *
 *   -EFAULT  not all of the place is mapped
 *   -EBADF   no memory is open
 *
 *   struct sysinfo info = {.uptime = 3600, .totalram = 512 << 20, .mem_unit = 1};
 *   int error = sb_write_sysinfo(kernel, 0, notif.data.args[0], &info); */
int sb_write_sysinfo(struct sb_kernel *kernel, unsigned worker, uint64_t address, const struct sysinfo *info);

/* ---- effects with the broker's rights, in the container's tree. Relative paths go from the directory of sb_open_dir, and without one
 * they answer EBADF; absolute ones go from the container's root. */

/* open(2) of /proc/PID/cwd (`dirfd` is AT_FDCWD) or /proc/PID/fd/DIRFD, as the directory of relative paths. A second one replaces it.
 *
 *   -ESRCH  nobody has the PID, or the task has ended
 *   -EBADF  the caller has no directory open at that number
 *
 *   int error = sb_open_dir(kernel, 0, notif.pid, AT_FDCWD); */
int sb_open_dir(struct sb_kernel *kernel, unsigned worker, uint32_t pid, int dirfd);

/* mknodat(2). `dirfd` is the number that the caller gave, for the report's sake: the directory is that of sb_open_dir.
 * Errors of the path: -ENOENT, -ENOTDIR, -ELOOP, -ENAMETOOLONG, -EBADF; of the node: -EEXIST, -EPERM for a directory, -EINVAL for no kind.
 *
 *   int error = sb_mknodat(kernel, 0, AT_FDCWD, "/dev/null", S_IFCHR | 0666, makedev(1, 3)); */
int sb_mknodat(struct sb_kernel *kernel, unsigned worker, int dirfd, const char *path, mode_t mode, uint64_t device);

/* Options of a mount that mount(2) doesn't have: the program that makes it (LXD's mount.fuse), and shifted ids. */
struct sb_mount_options {
  const char *via;
  bool shift;
};

/* mount(2). A text that is NULL is empty. `options` may be NULL. Errors: those of the target's path, -ENOTDIR, and -EINVAL for an empty type.
 *
 *   int error = sb_mount(kernel, 0, "/dev/sda1", "/mnt", "ext4", MS_RDONLY, "", &(struct sb_mount_options){.via = "fuse2fs"}); */
int sb_mount(struct sb_kernel *kernel, unsigned worker, const char *source, const char *target, const char *type, uint64_t flags, const char *data,
             const struct sb_mount_options *options);

/* setxattr(2). Errors: those of the path, -EINVAL for an unknown flag, -EEXIST (XATTR_CREATE), -ENODATA (XATTR_REPLACE).
 *
 *   int error = sb_setxattr(kernel, 0, "/dir", "trusted.overlay.opaque", "y", 1, 0); */
int sb_setxattr(struct sb_kernel *kernel, unsigned worker, const char *path, const char *name, const void *value, size_t size, int flags);

#ifdef __cplusplus
}
#endif

#endif
