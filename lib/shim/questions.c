/* questions.c - what is told of a container's tasks and of what stands in its tree; see answers.h */
#define _GNU_SOURCE
#include "answers.h"
#include "broker.h"
#include "descriptors.h"
#include "look.h"
#include "places.h"
#include "telling.h"
#include "tree.h"

#include <dirent.h>
#include <errno.h>
#include <fcntl.h>
#include <linux/magic.h>
#include <linux/openat2.h>
#include <linux/stat.h>
#include <stdio.h>
#include <string.h>
#include <sys/stat.h>
#include <sys/statfs.h>
#include <sys/sysmacros.h>

/* Where something is: in a container's tree, in its /proc, or in no file system, as a listener. */
enum whereabouts { IN_TREE, IN_PROC, NOWHERE };

/* What is told of a node: its kind, its number and its device. The simulated kernel has no owners, modes or times. Folders of /proc have the number of their task. */
struct described {
  uint32_t kind, ordinal, major, minor;
  enum whereabouts where;
  unsigned links;
};

/* The devices on which all of a container's tree is, and its /proc, and listeners, one after another; and the longest name. */
enum { FIRST_MAJOR = 0, FIRST_MINOR = 0x5ec, LONGEST_NAME = 255, BLOCK = 4096 };
/* A folder that no file system counts the links of; and that of the threads of a task, which has one (proc(5)). */
enum { ONE_LINK = 1, LINKS_OF_THREADS = 3 };
/* What Linux says in `f_flags` of each file system: that they are told (statfs(2)). */
enum { FLAGS_ARE_TOLD = 0x20 };

static struct described folder_of_task(uint32_t pid, bool is_of_threads) {
  return (struct described){.kind = S_IFDIR, .ordinal = pid, .where = IN_PROC, .links = is_of_threads ? LINKS_OF_THREADS : ONE_LINK};
}

/* Describes what a descriptor itself stands for, where that is no folder of the tree. A listener has no kind. */
static bool describes_open(int fd, struct described *found) {
  const struct handle *handle = handle_of(fd);
  enum kind kind = kind_of(fd);
  if (kind == LISTENER)
    *found = (struct described){.kind = S_IRUSR | S_IWUSR, .ordinal = LISTENER, .where = NOWHERE, .links = ONE_LINK};
  else if (kind == NODE)
    *found = (struct described){handle->node.kind, handle->node.ordinal, handle->node.major, handle->node.minor, IN_TREE, ONE_LINK};
  else if (kind == PROC_FOLDER || kind == THREADS)
    *found = folder_of_task(handle->pid, kind == THREADS);
  else
    return false;
  return true;
}

static bool describes_place(const char *call, int dirfd, const char *path, bool follows, struct described *found, long *error) {
  struct place place;
  struct spot spot;
  struct sb_node node;
  find_place(&place, dirfd, path);
  bool is_of_threads = place.whose == OF_TASK && strcmp(place.rest, "task") == 0;
  if (place.whose == OF_TASK && (place.rest[0] == '\0' || is_of_threads)) {
    struct sb_task task;
    *error = look_pid(call, place.pid, &task) == 0 ? 0 : -ENOENT;
    *found = folder_of_task(place.pid, is_of_threads);
    return true;
  }
  if (!spot_of(call, &place, dirfd, path, &spot)) {
    test_path(call, dirfd, path[0] == '\0' ? "." : path);
    return false;
  }
  *error = find_node(call, spot.pid, spot.dirfd, spot.path, follows, entered.is_there ? RESOLVE_IN_ROOT : 0, &node);
  *found = (struct described){node.kind, node.ordinal, node.major_number, node.minor_number, IN_TREE, ONE_LINK};
  return true;
}

/* Describes what a call asks about: 0, or the error of the walk; false where that isn't a container's. */
static bool describes(const char *call, int dirfd, const char *given, bool follows, bool may_be_empty, struct described *found, long *error) {
  char path[PATH_MAX] = "";
  *error = 0;
  if (given != NULL && copy_path(path, given) != 0)
    return false;
  if (path[0] == '\0') {
    enum kind kind = may_be_empty && dirfd != AT_FDCWD ? kind_of(dirfd) : NOTHING;
    /* (the machine's file has the kind of a memory) */
    if (kind == NOTHING || kind == MEMORY)
      return false;
    if (describes_open(dirfd, found))
      return true;
    if (kind == NAMESPACE || kind == PIDFD || kind == INHERITED)
      test_descriptor(call, dirfd);
  }
  return describes_place(call, dirfd, path, follows, found, error);
}

/* ---- stat(2) and statx(2) */

static unsigned minor_of(const struct described *found) { return FIRST_MINOR + found->where; }

static bool gives_stat(struct call *call, int dirfd, const char *path, void *to, bool follows, bool may_be_empty) {
  struct described found;
  long error;
  if (!describes(call->name, dirfd, path, follows, may_be_empty, &found, &error))
    return false;
  if (error != 0)
    return give(call, error);
  struct stat told = {.st_mode = found.kind, .st_ino = found.ordinal, .st_dev = makedev(FIRST_MAJOR, minor_of(&found)), .st_rdev = makedev(found.major, found.minor), .st_nlink = found.links, .st_blksize = BLOCK};
  return give(call, copy_out(to, &told, sizeof told));
}

bool answer_stat(struct call *call) {
  if (call->number == SYS_newfstatat)
    return gives_stat(call, (int)call->a[0], (char *)call->a[1], (void *)call->a[2], (call->a[3] & AT_SYMLINK_NOFOLLOW) == 0, (call->a[3] & AT_EMPTY_PATH) != 0);
  return gives_stat(call, AT_FDCWD, (char *)call->a[0], (void *)call->a[1], call->number == SYS_stat, false);
}

bool answer_fstat(struct call *call) {
  return gives_stat(call, (int)call->a[0], NULL, (void *)call->a[1], true, true);
}

bool answer_statx(struct call *call) {
  struct described found;
  long error;
  if (!describes(call->name, (int)call->a[0], (char *)call->a[1], (call->a[2] & AT_SYMLINK_NOFOLLOW) == 0, (call->a[2] & AT_EMPTY_PATH) != 0, &found, &error))
    return false;
  if (error != 0)
    return give(call, error);
  struct statx told = {.stx_mask = STATX_TYPE | STATX_INO, .stx_blksize = BLOCK, .stx_nlink = found.links, .stx_mode = (uint16_t)found.kind, .stx_ino = found.ordinal, .stx_dev_major = FIRST_MAJOR,
                       .stx_dev_minor = minor_of(&found), .stx_rdev_major = found.major, .stx_rdev_minor = found.minor};
  return give(call, copy_out((void *)call->a[4], &told, sizeof told));
}

/* ---- statfs(2): the simulated kernel has no types or sizes of file systems */

static const long types[] = {[IN_TREE] = 0, [IN_PROC] = PROC_SUPER_MAGIC, [NOWHERE] = ANON_INODE_FS_MAGIC};

static bool gives_statfs(struct call *call, int dirfd, const char *path, void *to) {
  bool is_memory = path == NULL && kind_of(dirfd) == MEMORY;
  struct described found = {.where = IN_PROC};
  long error = 0;
  if (!is_memory && !describes(call->name, dirfd, path, true, path == NULL, &found, &error))
    return false;
  if (error != 0)
    return give(call, error);
  struct statfs told = {.f_type = types[found.where], .f_bsize = BLOCK, .f_frsize = BLOCK, .f_namelen = LONGEST_NAME, .f_flags = FLAGS_ARE_TOLD, .f_fsid = {{(int)minor_of(&found), 0}}};
  return give(call, copy_out(to, &told, sizeof told));
}

bool answer_statfs(struct call *call) {
  if (call->number == SYS_fstatfs)
    return gives_statfs(call, (int)call->a[0], NULL, (void *)call->a[1]);
  return gives_statfs(call, AT_FDCWD, (char *)call->a[0], (void *)call->a[1]);
}

/* ---- getdents64(2) of the threads of a task, of which each task has one, with its PID */

/* A name of a folder, in the form of Linux. */
struct entry {
  uint64_t ordinal;
  int64_t next;
  unsigned short size;
  unsigned char kind;
  char name[13];
};
enum { ENTRIES = 3 };

bool answer_list(struct call *call) {
  struct handle *handle = handle_of((int)call->a[0]);
  if (handle == NULL || handle->kind != THREADS || (handle->flags & O_PATH) != 0) {
    test_descriptor(call->name, (int)call->a[0]);
    return false;
  }
  if (!is_there(call->name, handle->pid, handle->task, 0))
    return give(call, -ENOENT);
  struct entry entries[ENTRIES];
  size_t first = handle->offset < ENTRIES ? (size_t)handle->offset : ENTRIES, room = (size_t)call->a[2] / sizeof *entries, end = ENTRIES - first < room ? ENTRIES : first + room;
  for (size_t at = 0; at < ENTRIES; at++) {
    entries[at] = (struct entry){.ordinal = handle->pid, .next = (int64_t)at + 1, .size = sizeof *entries, .kind = DT_DIR};
    if (at < 2)
      snprintf(entries[at].name, sizeof entries[at].name, "%s", at == 0 ? "." : "..");
    else
      snprintf(entries[at].name, sizeof entries[at].name, "%u", handle->pid);
  }
  if (room == 0 && first < ENTRIES)
    return give(call, -EINVAL);
  size_t size = (end - first) * sizeof *entries;
  if (copy_out((void *)call->a[1], entries + first, size) != 0)
    return give(call, -EFAULT);
  handle->offset = end;
  return give(call, (long)size);
}

/* ---- access(2) and readlink(2) */

bool answer_access(struct call *call) {
  bool is_at = call->number != SYS_access;
  struct described found;
  long error, mode = call->a[is_at ? 2 : 1], flags = call->number == SYS_faccessat2 ? call->a[3] : 0;
  if (!describes(call->name, is_at ? (int)call->a[0] : AT_FDCWD, (char *)call->a[is_at], (flags & AT_SYMLINK_NOFOLLOW) == 0, (flags & AT_EMPTY_PATH) != 0, &found, &error))
    return false;
  if (error == 0 && mode != 0 /* F_OK */)
    tell(call->name, "with a mode, which the simulated kernel hasn't");
  return give(call, error);
}

bool answer_readlink(struct call *call) {
  bool is_at = call->number == SYS_readlinkat;
  int dirfd = is_at ? (int)call->a[0] : AT_FDCWD;
  char path[PATH_MAX];
  struct place place;
  struct spot spot;
  struct sb_node node;
  if (copy_path(path, (char *)call->a[is_at]) != 0)
    return false;
  if (path[0] == '\0' && dirfd != AT_FDCWD)
    test_descriptor(call->name, dirfd);
  find_place(&place, dirfd, path);
  if (place.whose == OF_TASK && strchr(place.rest, '/') == NULL)
    tell(call->name, place.path);
  if (!spot_of(call->name, &place, dirfd, path, &spot)) {
    test_path(call->name, dirfd, path);
    return false;
  }
  long error = find_node(call->name, spot.pid, spot.dirfd, spot.path, false, entered.is_there ? RESOLVE_IN_ROOT : 0, &node);
  if (error != 0 || node.kind != S_IFLNK)
    return give(call, error != 0 ? error : -EINVAL);
  size_t length = strlen(node.target), size = (size_t)call->a[is_at ? 3 : 2];
  length = length < size ? length : size;
  return give(call, copy_out((void *)call->a[is_at ? 2 : 1], node.target, length) != 0 ? -EFAULT : (long)length);
}
