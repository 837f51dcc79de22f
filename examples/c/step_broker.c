/* See step_broker.h. The order is that of seccomp_unotify(2): open the caller's memory, check, read, check again, act, answer. */
#define _GNU_SOURCE
#include "step_broker.h"

#include <errno.h>
#include <fcntl.h>
#include <limits.h>
#include <string.h>
#include <sys/stat.h>
#include <sys/syscall.h>
#include <sys/sysmacros.h>

/* null, zero, full, random, urandom and tty: none of them reaches the host's disks or memory. */
static const struct {
  unsigned major, minor;
} harmless[] = {{1, 3}, {1, 5}, {1, 7}, {1, 8}, {1, 9}, {5, 0}};

static bool is_harmless(mode_t mode, dev_t device) {
  for (size_t at = 0; S_ISCHR(mode) && at < sizeof harmless / sizeof *harmless; at++)
    if (major(device) == harmless[at].major && minor(device) == harmless[at].minor)
      return true;
  return false;
}

/* Where a piece of the caller's memory ends: so no piece goes beyond a page, behind which nothing may be mapped. The report's audit follows
 * a copy that is read in these pieces. */
enum { PIECE = 256 };

/* Copies a path out of the caller's memory. */
static int copy_path(struct sb_kernel *kernel, unsigned seat, uint64_t address, char path[PATH_MAX]) {
  for (size_t used = 0; used < PATH_MAX;) {
    size_t left = PIECE - (address + used) % PIECE;
    ssize_t count = sb_pread(kernel, seat, path + used, left < PATH_MAX - used ? left : PATH_MAX - used, address + used);
    if (count <= 0)
      return count < 0 ? (int)count : -EFAULT;
    if (memchr(path + used, '\0', (size_t)count) != NULL)
      return 0;
    used += (size_t)count;
  }
  return -ENAMETOOLONG;
}

/* Opens the caller's memory by its PID, copies the path, and makes sure that all of this was the caller's: -ENOENT where it is gone. */
static int read_caller(struct sb_kernel *kernel, unsigned seat, const struct seccomp_notif *notif, char path[PATH_MAX], int *fault) {
  int error = sb_open_mem(kernel, seat, notif->pid);
  if (error == 0)
    error = sb_open_dir(kernel, seat, notif->pid, AT_FDCWD);
  if (error != 0)
    return error == -ESRCH ? -ENOENT : error;
  error = sb_id_valid(kernel, seat, notif->id);
  if (error != 0)
    return error;
  *fault = copy_path(kernel, seat, notif->data.args[0], path);
  /* What was read counts only if the call still waits: by now the memory may be another task's. */
  return sb_id_valid(kernel, seat, notif->id);
}

static int answer(struct sb_kernel *kernel, unsigned seat, const struct seccomp_notif *notif, int error, unsigned flags) {
  struct seccomp_notif_resp response = {.id = notif->id, .error = error, .flags = flags};
  return sb_send(kernel, seat, &response);
}

static int serve_mknod(struct sb_kernel *kernel, unsigned seat, const struct seccomp_notif *notif) {
  mode_t mode = (mode_t)notif->data.args[1];
  dev_t device = (dev_t)notif->data.args[2];
  if (!is_harmless(mode, device))
    return answer(kernel, seat, notif, 0, SECCOMP_USER_NOTIF_FLAG_CONTINUE);
  char path[PATH_MAX];
  int fault = 0, error = read_caller(kernel, seat, notif, path, &fault);
  if (error != 0)
    return error;
  return answer(kernel, seat, notif, fault != 0 ? fault : sb_mknodat(kernel, seat, AT_FDCWD, path, mode, device), 0);
}

int broker_serve(struct sb_kernel *kernel, unsigned seat, const struct seccomp_notif *notif) {
  int error = notif->data.nr == SYS_mknod ? serve_mknod(kernel, seat, notif) : answer(kernel, seat, notif, 0, SECCOMP_USER_NOTIF_FLAG_CONTINUE);
  int let_go = sb_let_go(kernel, seat);
  return error != 0 ? error : let_go;
}
