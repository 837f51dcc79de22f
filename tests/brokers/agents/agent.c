/* A broker as it would run on Linux, on <linux/seccomp.h> alone: it makes the harmless devices that a container asks for by mknod(2), but none below /kept, and leaves all other calls to the kernel.
 * Its order is that of seccomp_unotify(2). The listener's descriptor is its only word, or that of SECCOMP_BROKER_LISTENER. */
#define _GNU_SOURCE
#include <errno.h>
#include <fcntl.h>
#include <limits.h>
#include <linux/seccomp.h>
#include <stdbool.h>
#include <stdint.h>
#include <stdio.h>
#include <stdlib.h>
#include <string.h>
#include <sys/ioctl.h>
#include <sys/stat.h>
#include <sys/syscall.h>
#include <sys/sysmacros.h>
#include <unistd.h>

static int listener;

static int open_of(uint32_t pid, const char *name, int flags) {
  char path[64];
  snprintf(path, sizeof path, "/proc/%u/%s", pid, name);
  return open(path, flags | O_CLOEXEC);
}

static bool is_valid(const struct seccomp_notif *notif) { return ioctl(listener, SECCOMP_IOCTL_NOTIF_ID_VALID, &notif->id) == 0; }

static bool is_harmless(mode_t mode, dev_t device) {
  static const unsigned devices[][2] = {{0, 0}, {1, 3}, {1, 5}, {1, 7}, {1, 8}, {1, 9}, {5, 0}, {5, 1}};
  for (size_t at = 0; S_ISCHR(mode) && at < sizeof devices / sizeof *devices; at++)
    if (major(device) == devices[at][0] && minor(device) == devices[at][1])
      return true;
  return false;
}

/* Reads a path out of the caller's memory: 0, or why there is none. */
static int read_path(int memory, uint64_t address, char path[PATH_MAX]) {
  ssize_t count = pread(memory, path, PATH_MAX, (off_t)address);
  if (count < 0)
    return EFAULT;
  if (memchr(path, '\0', (size_t)count) == NULL)
    return count == PATH_MAX ? ENAMETOOLONG : EFAULT;
  return 0;
}

/* Makes the node in the caller's tree: 0, or why it can't be made. */
static int make(int root, int cwd, const char *path, mode_t mode, dev_t device) {
  int made = path[0] == '/' ? mknodat(root, path + 1, mode, device) : mknodat(cwd, path, mode, device);
  return made == 0 ? 0 : errno;
}

#ifdef ONE_ID
/* The id of the notification that is served. */
static uint64_t served;
#endif

static void answer(const struct seccomp_notif *notif, int error, unsigned flags) {
  struct seccomp_notif_resp response = {.id = notif->id, .error = -error, .flags = flags};
#ifdef ONE_ID
  response.id = served;
#endif
  /* (where the call has gone there is nobody to answer) */
  (void)ioctl(listener, SECCOMP_IOCTL_NOTIF_SEND, &response);
}

static void serve_mknod(const struct seccomp_notif *notif, int memory, int root, int cwd) {
  mode_t mode = (mode_t)notif->data.args[1] & 0xffff;
  dev_t device = (dev_t)(uint32_t)notif->data.args[2];
  char path[PATH_MAX];
  if (memory < 0 || root < 0 || cwd < 0 || !is_valid(notif))
    return;
  int fault = read_path(memory, notif->data.args[0], path);
#ifndef NO_SECOND_CHECK
  if (!is_valid(notif))
    return;
#endif
  if (fault != 0)
    answer(notif, fault, 0);
  else if (strncmp(path, "/kept/", strlen("/kept/")) == 0)
    answer(notif, EPERM, 0);
  else if (!is_harmless(mode, device))
    answer(notif, 0, SECCOMP_USER_NOTIF_FLAG_CONTINUE);
  else
    answer(notif, make(root, cwd, path, mode, device), 0);
}

static void serve(const struct seccomp_notif *notif) {
#ifdef ONE_ID
  served = notif->id;
#endif
  if (notif->data.nr != SYS_mknod) {
    answer(notif, 0, SECCOMP_USER_NOTIF_FLAG_CONTINUE);
    return;
  }
  int memory = open_of(notif->pid, "mem", O_RDONLY), root = open_of(notif->pid, "root", O_PATH | O_DIRECTORY), cwd = open_of(notif->pid, "cwd", O_PATH | O_DIRECTORY);
  serve_mknod(notif, memory, root, cwd);
  close(memory);
  close(root);
  close(cwd);
}

#ifndef OWN_MAIN
int main(int argc, char **argv) {
  const char *named = argc > 1 ? argv[1] : getenv("SECCOMP_BROKER_LISTENER");
  listener = named == NULL ? -1 : atoi(named);
  for (;;) {
    struct seccomp_notif notif = {0};
    if (ioctl(listener, SECCOMP_IOCTL_NOTIF_RECV, &notif) == 0) {
      serve(&notif);
    } else if (errno != ENOENT && errno != EINTR) {
      perror("the listener");
      return 1;
    }
  }
}
#endif
