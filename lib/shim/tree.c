/* tree.c - what is opened of a container's task, and what is done in its tree; see answers.h */
#define _GNU_SOURCE
#include "answers.h"
#include "broker.h"
#include "descriptors.h"
#include "places.h"
#include "telling.h"
#include "tree.h"

#include <errno.h>
#include <fcntl.h>
#include <limits.h>
#include <linux/openat2.h>
#include <linux/stat.h>
#include <poll.h>
#include <sched.h>
#include <stdio.h>
#include <stdlib.h>
#include <string.h>
#include <sys/mman.h>
#include <sys/stat.h>
#include <sys/sysinfo.h>
#include <sys/sysmacros.h>
#include <sys/uio.h>

enum { MOST_TEXT = 1024 };

static bool has_same_root;

void begin_tree(void) { has_same_root = getenv("SECCOMP_BROKER_SAME_ROOT") != NULL; }

/* ---- tasks */

/* The key of the task that has a PID: 0, or -ENOENT. */
static long task_of(const char *call, uint32_t pid, uint64_t *key) {
  struct sb_task task;
  long given = look_pid(call, pid, &task);
  if (given == 0)
    *key = key_of_task(&task);
  return given == -ESRCH ? -ENOENT : given;
}

bool is_there(const char *call, uint32_t pid, uint64_t wanted, unsigned more) {
  uint64_t key;
  connect_once(call);
  if (more > 0)
    hold(1 + more);
  bool is_same = task_of(call, pid, &key) == 0 && key == wanted;
  if (more > 0 && !is_same)
    hold(0);
  return is_same;
}

/* What became of the task that a descriptor names. One that has ended has its PID until it is waited for. */
enum life { LIVES, HAS_ENDED, IS_GONE };

static enum life life_of(const char *call, const struct handle *handle) {
  struct sb_task task;
  if (look_pid(call, handle->pid, &task) != 0 || key_of_task(&task) != handle->task)
    return IS_GONE;
  return task.state == SB_ZOMBIE ? HAS_ENDED : LIVES;
}

bool has_task_ended(const char *call, const struct handle *handle) { return life_of(call, handle) != LIVES; }

/* ---- opening */

static long open_memory(const char *call, uint32_t pid, int flags) {
  unsigned seat = seat_of_pid(pid, call, "/proc/PID/mem");
  int error = sb_open_mem(kernel, seat, pid);
  return error == 0 ? handle_for((struct handle){.kind = MEMORY, .seat = seat, .pid = pid, .opening = note_opening(seat, A_MEMORY)}, flags) : result_of_opening(seat, error);
}

static long open_folder(const char *call, uint32_t pid, enum kind kind, int dirfd, int flags) {
  unsigned seat = seat_of_pid(pid, call, "/proc/PID/root");
  int error = sb_open_dir(kernel, seat, pid, dirfd);
  return error == 0 ? handle_for((struct handle){.kind = kind, .seat = seat, .pid = pid, .dirfd = dirfd, .opening = note_opening(seat, A_FOLDER)}, flags) : result_of_opening(seat, error);
}

/* What stands for the task itself: its folder in /proc, that of its threads, a pidfd, its mount namespace. */
static long open_task(const char *call, uint32_t pid, enum kind kind, int flags) {
  struct handle handle = {.kind = kind, .seat = seat_of_pid(pid, call, "/proc/PID"), .pid = pid};
  long given = task_of(call, pid, &handle.task);
  return given == 0 ? handle_for(handle, flags) : given;
}

/* A file with a text, of which nothing is left when it is closed. */
static long open_text(const char *text, int flags) {
  long fd = made(SYS_memfd_create, "proc", (flags & O_CLOEXEC) != 0 ? MFD_CLOEXEC : 0);
  if (fd >= 0)
    made(SYS_pwrite64, fd, text, strlen(text), 0);
  return fd;
}

static const char *state_of(enum sb_task_state state) {
  return state == SB_RUNNING ? "running" : state == SB_SLEEPING ? "sleeping" : state == SB_DISK_SLEEP ? "disk sleep" : "zombie";
}

/* Files of a task whose text says what the kernel has of it: proc(5). */
static long open_description(const char *call, uint32_t pid, const char *name, int flags) {
  struct sb_task task;
  char text[MOST_TEXT];
  (void)seat_of_pid(pid, call, name);
  long given = look_pid(call, pid, &task);
  if (given != 0)
    return given == -ESRCH ? -ENOENT : given;
  if (strcmp(name, "comm") == 0)
    snprintf(text, sizeof text, "%s\n", task.name);
  else if (strcmp(name, "stat") == 0)
    snprintf(text, sizeof text, "%u (%s) %c %u %u %u 0 -1 0 0 0 0 0 0 0 0 0 20 0 1 0 0 0 0 18446744073709551615 0 0 0 0 0 0 0 0 0 0 0 0 17 0 0 0 0 0 0 0 0 0 0 0 0 0 0\n", pid, task.name, task.state,
             task.ppid, pid, pid);
  else
    snprintf(text, sizeof text, "Name:\t%s\nState:\t%c (%s)\nTgid:\t%u\nPid:\t%u\nPPid:\t%u\nTracerPid:\t0\nUid:\t0\t0\t0\t0\nGid:\t0\t0\t0\t0\nThreads:\t1\n", task.name, task.state,
             state_of(task.state), pid, pid, task.ppid);
  return open_text(text, flags);
}

static bool is_one_of(const char *name, const char *const *names, size_t count) {
  for (size_t at = 0; at < count; at++)
    if (strcmp(name, names[at]) == 0)
      return true;
  return false;
}

static long open_node(const char *call, uint32_t pid, unsigned seat, int dirfd, const char *path, int flags, uint64_t resolve);

static long open_of_task(const char *call, const struct place *place, int flags, uint64_t resolve) {
  static const char *const descriptions[] = {"status", "stat", "comm"};
  const char *rest = place->rest;
  int dirfd = AT_FDCWD, length = 0;
  connect_once(call);
  if (*rest == '\0')
    return open_task(call, place->pid, PROC_FOLDER, flags);
  if (strcmp(rest, "mem") == 0)
    return open_memory(call, place->pid, flags);
  if (strcmp(rest, "root") == 0 || strcmp(rest, "cwd") == 0)
    return open_folder(call, place->pid, rest[0] == 'r' ? ROOT : DIRECTORY, AT_FDCWD, flags);
  if (sscanf(rest, "fd/%d%n", &dirfd, &length) == 1 && rest[length] == '\0')
    return open_folder(call, place->pid, DIRECTORY, dirfd, flags);
  if (strcmp(rest, "ns/mnt") == 0)
    return open_task(call, place->pid, NAMESPACE, flags);
  if (strcmp(rest, "task") == 0)
    return open_task(call, place->pid, THREADS, flags);
  if (is_one_of(rest, descriptions, sizeof descriptions / sizeof *descriptions) && (flags & O_ACCMODE) == O_RDONLY)
    return open_description(call, place->pid, rest, flags);
  if (strncmp(rest, "root/", strlen("root/")) == 0)
    return open_node(call, place->pid, seat_of_pid(place->pid, call, place->path), AT_FDCWD, rest + strlen("root"), flags, resolve);
  tell(call, place->path);
}

/* ---- what stands in the tree */

/* A link that is met on the way: 0, or why the walk ends there. From its root on it would lead the broker elsewhere, and where the walk stays below a folder (openat2(2)), so may `..`. */
static long test_link(const char *call, const char *path, uint64_t resolve, const struct sb_node *link) {
  bool is_absolute = link->target[0] == '/';
  if ((resolve & RESOLVE_NO_SYMLINKS) != 0)
    return -ELOOP;
  if ((resolve & RESOLVE_BENEATH) != 0 && is_absolute)
    return -EXDEV;
  if (is_absolute || (resolve & (RESOLVE_BENEATH | RESOLVE_IN_ROOT)) != 0)
    tell_of(call, "through the link %s, which leads from the broker's own root: RESOLVE_IN_ROOT keeps below the container's", path);
  return 0;
}

/* Looks at the path name by name: 0, or why it ends before. */
static long walk(const char *call, uint32_t pid, int dirfd, const char *path, bool follows, uint64_t resolve, struct sb_node *node) {
  char part[PATH_MAX];
  long error = 0;
  for (const char *end = path; *end != '\0' && error == 0;) {
    end += strspn(end, "/");
    end += strcspn(end, "/");
    snprintf(part, sizeof part, "%.*s", (int)(end - path), path);
    bool is_last = end[strspn(end, "/")] == '\0';
    error = look_path(call, pid, dirfd, part, false, node);
    if (error == 0 && node->kind == S_IFLNK && (!is_last || follows))
      error = test_link(call, part, resolve, node);
    if (is_last)
      break;
  }
  return error;
}

long find_node(const char *call, uint32_t pid, int dirfd, const char *path, bool follows, uint64_t resolve, struct sb_node *node) {
  bool is_from_root = path[0] == '/', stays = (resolve & RESOLVE_BENEATH) != 0 || ((resolve & RESOLVE_IN_ROOT) != 0 && !is_from_root);
  if ((resolve & ~(uint64_t)(RESOLVE_IN_ROOT | RESOLVE_BENEATH | RESOLVE_NO_SYMLINKS | RESOLVE_NO_MAGICLINKS)) != 0 || (stays && strstr(path, "..") != NULL))
    tell(call, "with such a way of resolving");
  unsigned names = 0;
  for (const char *at = path; *at != '\0'; at++)
    names += *at != '/' && (at == path || at[-1] == '/');
  bool is_as_ever = is_from_root && (resolve & (RESOLVE_IN_ROOT | RESOLVE_BENEATH | RESOLVE_NO_SYMLINKS)) == RESOLVE_IN_ROOT;
  if (is_as_ever || names == 0)
    return look_path(call, pid, dirfd, path, follows, node);
  connect_once(call);
  hold(names + follows);
  long error = walk(call, pid, dirfd, path, follows, resolve, node);
  if (error != 0) {
    hold(0);
    return error;
  }
  return follows ? look_path(call, pid, dirfd, path, true, node) : 0;
}

static struct handle node_handle(uint32_t pid, unsigned seat, const struct sb_node *node) {
  return (struct handle){.kind = NODE, .seat = seat, .pid = pid, .node = {node->ordinal, node->kind, node->major_number, node->minor_number}};
}

static long open_node(const char *call, uint32_t pid, unsigned seat, int dirfd, const char *path, int flags, uint64_t resolve) {
  struct sb_node node;
  if ((flags & (O_CREAT | O_TRUNC)) != 0 || ((flags & O_PATH) == 0 && ((flags & O_ACCMODE) != O_RDONLY || (flags & O_DIRECTORY) == 0)))
    tell_of(call, "of %s in a container's tree, but with O_PATH", path);
  long given = find_node(call, pid, dirfd, path, (flags & O_NOFOLLOW) == 0, resolve, &node);
  if (given != 0)
    return given;
  if ((flags & O_DIRECTORY) != 0 && node.kind != S_IFDIR)
    return -ENOTDIR;
  return handle_for(node_handle(pid, seat, &node), flags);
}

/* What stands behind a task's root: the path itself, as it was copied from the caller's memory, where its beginning has the usual form. */
static void copy_behind_root(struct spot *spot, const struct place *place, const char *given) {
  char usual[64];
  int length = snprintf(usual, sizeof usual, "/%u/root/", place->pid);
  const char *found = strstr(given, usual);
  if (found != NULL)
    snprintf(spot->path, sizeof spot->path, "%s", found + length - 1);
  else
    snprintf(spot->path, sizeof spot->path, "/%s", place->rest[strlen("root")] == '\0' ? "" : place->rest + strlen("root/"));
}

bool spot_of(const char *call, const struct place *place, int dirfd, const char *given, struct spot *spot) {
  *spot = (struct spot){.dirfd = AT_FDCWD, .seat = SB_MOST_WORKERS};
  if (place->whose == OF_TASK && (strcmp(place->rest, "root") == 0 || strncmp(place->rest, "root/", strlen("root/")) == 0)) {
    spot->pid = place->pid;
    copy_behind_root(spot, place, given);
  } else if (place->whose == OF_STANDIN) {
    const struct handle *handle = handle_of(place->fd);
    if (handle->kind != ROOT && handle->kind != DIRECTORY)
      return false;
    spot->pid = handle->pid;
    spot->dirfd = handle->kind == ROOT ? AT_FDCWD : handle->dirfd;
    spot->seat = handle->seat;
    if (handle->kind == DIRECTORY && spot->seat < SB_MOST_WORKERS && !is_last_opening(spot->seat, A_FOLDER, handle->opening))
      tell(call, "from another folder than the one that was opened last for the notification");
    snprintf(spot->path, sizeof spot->path, "%s%s", handle->kind == ROOT ? "/" : "", place->rest[0] != '\0' || handle->kind == ROOT ? place->rest : ".");
  } else if (entered.is_there && place->whose == ORDINARY && (given[0] == '/' || dirfd == AT_FDCWD)) {
    /* (its working directory is the root) */
    spot->pid = entered.pid;
    spot->seat = entered.seat;
    snprintf(spot->path, sizeof spot->path, "%s%s", given[0] == '/' ? "" : "/", given);
  } else
    return false;
  return true;
}

/* ---- the calls that open */

static const char *below_folder(const char *path) {
  path += strspn(path, "/");
  return *path == '\0' ? "." : path;
}

static bool opens(struct call *call, int dirfd, const char *given, int flags, uint64_t resolve) {
  char path[PATH_MAX];
  struct place place;
  struct spot spot;
  if (copy_path(path, given) != 0 || path[0] == '\0')
    return false;
  /* (openat2(2): then an absolute path goes from the folder, too) */
  const char *from = (resolve & RESOLVE_IN_ROOT) != 0 && path[0] == '/' ? below_folder(path) : path;
  find_place(&place, dirfd, from);
  if (place.whose == OF_TASK)
    return give(call, open_of_task(call->name, &place, flags, resolve));
  if (spot_of(call->name, &place, dirfd, from, &spot))
    return give(call, open_node(call->name, spot.pid, spot.seat, spot.dirfd, spot.path, flags, entered.is_there ? RESOLVE_IN_ROOT : resolve));
  if (place.whose == OF_STANDIN || entered.is_there)
    tell_of(call->name, "%s", place.whose == OF_STANDIN ? "below a descriptor of a container's task" : path);
  bool is_changed = (flags & (O_WRONLY | O_RDWR | O_CREAT | O_TRUNC)) != 0 && (flags & O_PATH) == 0;
  if (is_changed && place.path[0] != '\0')
    test_writable(call->name, place.path, OF_CONTENT);
  return false;
}

bool answer_open(struct call *call) { return opens(call, AT_FDCWD, (char *)call->a[0], (int)call->a[1], 0); }
bool answer_open_at(struct call *call) { return opens(call, (int)call->a[0], (char *)call->a[1], (int)call->a[2], 0); }

bool answer_openat2(struct call *call) {
  struct open_how how;
  if (copy_in(&how, (void *)call->a[2], sizeof how) != 0)
    return false;
  return opens(call, (int)call->a[0], (char *)call->a[1], (int)how.flags, how.resolve);
}

/* ---- what is done in the container's tree */

/* Where an effect is made: the seat that it is for, and the path as the caller's call has it. */
struct aim {
  unsigned seat;
  int dirfd;
  char path[PATH_MAX + 1];
};

/* What the broker does itself, and not below /proc, is the machine's, unless it shares the container's root. Then it is done for the notification that the thread has in hand. */
static void aim_at_same_root(const char *call, const char *path, struct aim *aim) {
  if (!has_same_root)
    tell(call, "of a path that isn't below /proc/PID/root: --same-root takes it for the container's");
  connect_once(call);
  *aim = (struct aim){.seat = seat_meant(call, path), .dirfd = AT_FDCWD};
  snprintf(aim->path, sizeof aim->path, "%s", path);
}

/* Aims at a path of a task's tree; false of the machine's own, which `path` is. */
static bool aims(const char *call, int dirfd, const char *path, struct place *place, struct aim *aim) {
  struct spot spot;
  find_place(place, dirfd, path);
  if (place->whose == OF_TASK && strncmp(place->rest, "root/", strlen("root/")) != 0) {
    connect_once(call);
    (void)seat_of_pid(place->pid, call, place->path);
    tell(call, place->path);
  }
  if (!spot_of(call, place, dirfd, path, &spot)) {
    if (place->whose == OF_STANDIN)
      tell(call, "from such a descriptor of a container's task");
    return false;
  }
  connect_once(call);
  unsigned seat = place->whose == OF_TASK ? seat_of_pid(spot.pid, call, place->path) : spot.seat;
  if (seat == SB_MOST_WORKERS)
    tell(call, "from a folder whose notification was let go of");
  *aim = (struct aim){.seat = seat, .dirfd = spot.dirfd};
  snprintf(aim->path, sizeof aim->path, "%s", spot.path);
  return true;
}

static bool is_device(mode_t mode) { return S_ISCHR(mode) || S_ISBLK(mode); }

static bool makes_node(struct call *call, int dirfd, const char *given, mode_t mode, dev_t device) {
  char path[PATH_MAX];
  struct place place;
  struct aim aim;
  if (copy_path(path, given) != 0 || path[0] == '\0')
    return false;
  if (!aims(call->name, dirfd, path, &place, &aim)) {
    if (!is_device(mode) && !has_same_root) {
      test_writable(call->name, place.path, OF_ENTRY);
      return false;
    }
    aim_at_same_root("mknod", path, &aim);
  }
  return give(call, result_of(sb_mknodat(kernel, aim.seat, aim.dirfd, aim.path, mode, device)));
}

bool answer_mknod(struct call *call) {
  if (call->number == SYS_mknod)
    return makes_node(call, AT_FDCWD, (char *)call->a[0], (mode_t)call->a[1], (dev_t)call->a[2]);
  return makes_node(call, (int)call->a[0], (char *)call->a[1], (mode_t)call->a[2], (dev_t)call->a[3]);
}

/* A text of a call, which may be missing: 0, or a negated error. */
static long copy_text(char to[PATH_MAX], const char *given) {
  to[0] = '\0';
  return given == NULL ? 0 : copy_path(to, given);
}

bool answer_mount(struct call *call) {
  char source[PATH_MAX], target[PATH_MAX], type[PATH_MAX], data[PATH_MAX];
  struct place place;
  struct aim aim;
  if (copy_path(target, (char *)call->a[1]) != 0)
    return give(call, -EFAULT);
  if (!aims(call->name, AT_FDCWD, target, &place, &aim))
    aim_at_same_root(call->name, target, &aim);
  if (copy_text(source, (char *)call->a[0]) != 0 || copy_text(type, (char *)call->a[2]) != 0 || copy_text(data, (char *)call->a[4]) != 0)
    return give(call, -EFAULT);
  return give(call, result_of(sb_mount(kernel, aim.seat, source, aim.path, type, (uint64_t)call->a[3], data, NULL)));
}

bool answer_setxattr(struct call *call) {
  char path[PATH_MAX], name[PATH_MAX], value[PATH_MAX];
  struct place place;
  struct aim aim;
  size_t size = (size_t)call->a[3];
  if (copy_path(path, (char *)call->a[0]) != 0)
    return false;
  if (!aims(call->name, AT_FDCWD, path, &place, &aim)) {
    if (!has_same_root) {
      test_writable(call->name, place.path, OF_FILE);
      return false;
    }
    aim_at_same_root(call->name, path, &aim);
  }
  if (size > sizeof value)
    tell(call->name, "of so long a value");
  if (copy_path(name, (char *)call->a[1]) != 0 || copy_in(value, (void *)call->a[2], size) != 0)
    return give(call, -EFAULT);
  return give(call, result_of(sb_setxattr(kernel, aim.seat, aim.path, name, value, size, (int)call->a[4])));
}

/* ---- entering a task's tree */

/* Whether the process has one thread: another one can't enter a mount namespace. */
static bool is_single(void) {
  struct stat threads;
  return made(SYS_stat, "/proc/self/task", &threads) != 0 || threads.st_nlink == 3;
}

static long enter(const char *call, unsigned seat, uint32_t pid) {
  if (entered.is_there)
    tell(call, "for the second time");
  if (seat == SB_MOST_WORKERS)
    tell(call, "of a task whose notification was let go of");
  entered = (struct entered){.is_there = true, .seat = seat, .pid = pid};
  return 0;
}

bool answer_setns(struct call *call) {
  struct handle *handle = handle_of((int)call->a[0]);
  if (handle == NULL)
    tell(call->name, "of a namespace that isn't a task's");
  if ((handle->kind != NAMESPACE && handle->kind != PIDFD) || (call->a[1] != 0 && call->a[1] != CLONE_NEWNS))
    tell(call->name, "of another namespace than a task's mounts");
  if (handle->kind == PIDFD && call->a[1] != CLONE_NEWNS)
    return give(call, -EINVAL);
  if (!is_single())
    return give(call, -EINVAL);
  /* (a namespace that is open stays) */
  if (handle->kind == PIDFD && has_task_ended(call->name, handle))
    return give(call, -ESRCH);
  return give(call, enter(call->name, handle->seat, handle->pid));
}

bool answer_chroot(struct call *call) {
  char path[PATH_MAX];
  struct place place;
  uint64_t task;
  if (copy_path(path, (char *)call->a[0]) != 0)
    return false;
  find_place(&place, AT_FDCWD, path);
  if (entered.is_there && (strcmp(path, ".") == 0 || strcmp(path, "/") == 0))
    return give(call, 0);
  if (place.whose != OF_TASK || strcmp(place.rest, "root") != 0)
    tell_of(call->name, "of %s", path);
  connect_once(call->name);
  unsigned seat = seat_of_pid(place.pid, call->name, place.path);
  if (task_of(call->name, place.pid, &task) != 0)
    return give(call, -ENOENT);
  return give(call, enter(call->name, seat, place.pid));
}

bool answer_chdir(struct call *call) {
  char path[PATH_MAX];
  struct place place;
  if (copy_path(path, (char *)call->a[0]) != 0)
    return false;
  if (entered.is_there && strcmp(path, "/") == 0)
    return give(call, 0);
  find_place(&place, AT_FDCWD, path);
  test_path(call->name, AT_FDCWD, path);
  return false;
}

bool answer_fchdir(struct call *call) {
  test_descriptor(call->name, (int)call->a[0]);
  return false;
}

/* ---- processes */

bool answer_pidfd_open(struct call *call) {
  if (is_own(call->a[0]))
    return false;
  connect_once(call->name);
  long given = open_task(call->name, (uint32_t)call->a[0], PIDFD, O_CLOEXEC);
  return give(call, given == -ENOENT ? -ESRCH : given);
}

bool answer_pidfd_getfd(struct call *call) {
  struct handle *handle = handle_of((int)call->a[0]);
  struct sb_descriptor leads;
  if (handle == NULL)
    tell(call->name, "of a process that isn't a task");
  if (handle->kind != PIDFD)
    return give(call, -EBADF);
  if (!is_there(call->name, handle->pid, handle->task, 2))
    return give(call, -ESRCH);
  long given = look_fd(call->name, handle->pid, (uint32_t)call->a[1], &leads);
  if (given != 0 || leads.object == SB_NOTHING) {
    hold(0);
    return give(call, given != 0 ? given : -EBADF);
  }
  if (leads.object != SB_NODE)
    tell_of(call->name, "of a task's descriptor %ld, which is %s", call->a[1], leads.object == SB_CONSOLE ? "the console" : "the broker's own file");
  if (leads.node.kind != S_IFDIR) {
    hold(0);
    return give(call, handle_for(node_handle(handle->pid, handle->seat, &leads.node), O_CLOEXEC));
  }
  given = open_folder(call->name, handle->pid, DIRECTORY, (int)call->a[1], O_CLOEXEC);
  return give(call, given == -ENOENT ? -ESRCH : given);
}

bool answer_pidfd_signal(struct call *call) {
  struct handle *handle = handle_of((int)call->a[0]);
  if (handle == NULL) {
    /* (a pidfd of the broker's own child) */
    char text[512] = "", path[64];
    snprintf(path, sizeof path, "/proc/self/fdinfo/%d", (int)call->a[0]);
    long fd = made(SYS_openat, AT_FDCWD, path, O_RDONLY | O_CLOEXEC);
    if (fd >= 0) {
      made(SYS_read, fd, text, sizeof text - 1);
      made(SYS_close, fd);
    }
    const char *at = strstr(text, "\nPid:");
    if (at != NULL)
      test_own(call->name, atol(at + strlen("\nPid:")));
    return false;
  }
  if (handle->kind != PIDFD)
    return give(call, -EBADF);
  if (call->a[1] != 0)
    tell(call->name, "of a signal to a task");
  return give(call, life_of(call->name, handle) == IS_GONE ? -ESRCH : 0);
}

bool answer_waitid(struct call *call) {
  /* (a task is no child of the broker) */
  return call->a[0] == 3 /* P_PIDFD */ && kind_of((int)call->a[1]) == PIDFD ? give(call, -ECHILD) : false;
}
