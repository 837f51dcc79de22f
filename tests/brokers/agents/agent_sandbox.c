/* A broker in the style of a sandbox that checks paths: it opens the files itself that its callers may have, and puts their descriptors in (ADDFD). It reads the path by process_vm_readv(2), and of a path
 * that isn't absolute it takes the folder by pidfd_getfd(2), whose kind it looks at. It allows /log, for which it opens the file that its second word names, and leaves all other calls to the kernel. The
 * listener's descriptor is its first word. */
#define _GNU_SOURCE
#include <errno.h>
#include <fcntl.h>
#include <limits.h>
#include <linux/seccomp.h>
#include <stdbool.h>
#include <stdint.h>
#include <stdio.h>
#include <stdlib.h>
#include <string.h>
#include <sys/ioctl.h>
#include <sys/stat.h>
#include <sys/syscall.h>
#include <sys/uio.h>
#include <unistd.h>

static int listener;

static bool is_valid(const struct seccomp_notif *notif) { return ioctl(listener, SECCOMP_IOCTL_NOTIF_ID_VALID, &notif->id) == 0; }

static void answer(const struct seccomp_notif *notif, int error, unsigned flags) {
  struct seccomp_notif_resp response = {.id = notif->id, .error = -error, .flags = flags};
  (void)ioctl(listener, SECCOMP_IOCTL_NOTIF_SEND, &response);
}

/* Whether the call's folder is one, as its process has it. */
static bool has_folder(const struct seccomp_notif *notif) {
  int process = (int)syscall(SYS_pidfd_open, notif->pid, 0), folder = -1;
  struct stat found;
  if (process >= 0)
    folder = (int)syscall(SYS_pidfd_getfd, process, (int)notif->data.args[0], 0);
  bool is_folder = folder >= 0 && fstat(folder, &found) == 0 && S_ISDIR(found.st_mode);
  if (folder >= 0)
    close(folder);
  if (process >= 0)
    close(process);
  return is_folder;
}

/* Puts the file in, and answers with its number. */
static void put(const struct seccomp_notif *notif, int file) {
  struct seccomp_notif_addfd asked = {.id = notif->id, .flags = SECCOMP_ADDFD_FLAG_SEND, .srcfd = (unsigned)file};
  if (ioctl(listener, SECCOMP_IOCTL_NOTIF_ADDFD, &asked) < 0 && errno != ENOENT)
    answer(notif, errno, 0);
}

static void serve(const struct seccomp_notif *notif, int file) {
  char path[64] = "";
  struct iovec here = {path, sizeof path}, there = {(void *)(uintptr_t)notif->data.args[1], sizeof path};
  ssize_t count = process_vm_readv((pid_t)notif->pid, &here, 1, &there, 1, 0);
  bool is_whole = count > 0 && memchr(path, '\0', (size_t)count) != NULL;
  bool is_lost = is_whole && path[0] != '/' && (int)notif->data.args[0] != AT_FDCWD && !has_folder(notif);
  /* (behind all that it rests on) */
  if (!is_valid(notif))
    return;
  if (!is_whole)
    answer(notif, EFAULT, 0);
  else if (is_lost)
    answer(notif, EBADF, 0);
  else if (strcmp(path, "/log") == 0)
    put(notif, file);
  else
    answer(notif, 0, SECCOMP_USER_NOTIF_FLAG_CONTINUE);
}

int main(int argc, char **argv) {
  if (argc < 3)
    return 2;
  listener = atoi(argv[1]);
  int file = open(argv[2], O_RDONLY | O_CLOEXEC);
  for (;;) {
    struct seccomp_notif notif = {0};
    if (ioctl(listener, SECCOMP_IOCTL_NOTIF_RECV, &notif) == 0) {
      if (notif.data.nr == SYS_openat)
        serve(&notif, file);
      else
        answer(&notif, 0, SECCOMP_USER_NOTIF_FLAG_CONTINUE);
    } else if (errno != ENOENT) {
      perror("the listener");
      return 1;
    }
  }
}
