/* A broker on libseccomp's seccomp_notify_*, which reads with lseek(2) and read(2) and polls before it receives: it denies each mknod(2) below /kept, and leaves all other calls to the kernel. Where that
 * would make a harmless device the policy says otherwise, so it has a mistake: it passes what the policy grants. */
#define _GNU_SOURCE
#include <errno.h>
#include <fcntl.h>
#include <limits.h>
#include <poll.h>
#include <seccomp.h>
#include <stdio.h>
#include <stdlib.h>
#include <string.h>
#include <sys/syscall.h>
#include <unistd.h>

/* Reads the path of a call: its length, or -1 where there is none, or the call waits no more. */
static ssize_t copy_path(int listener, const struct seccomp_notif *notif, char path[PATH_MAX]) {
  char name[64];
  snprintf(name, sizeof name, "/proc/%u/mem", notif->pid);
  int memory = open(name, O_RDONLY | O_CLOEXEC);
  if (memory < 0)
    return -1;
  ssize_t count = -1;
  if (seccomp_notify_id_valid(listener, notif->id) == 0 && lseek(memory, (off_t)notif->data.args[0], SEEK_SET) >= 0)
    count = read(memory, path, PATH_MAX);
  close(memory);
  return count > 0 && memchr(path, '\0', (size_t)count) != NULL && seccomp_notify_id_valid(listener, notif->id) == 0 ? count : -1;
}

static void serve(int listener, const struct seccomp_notif *notif, struct seccomp_notif_resp *answer) {
  char path[PATH_MAX];
  *answer = (struct seccomp_notif_resp){.id = notif->id, .flags = SECCOMP_USER_NOTIF_FLAG_CONTINUE};
  if (notif->data.nr == SYS_mknod) {
    if (copy_path(listener, notif, path) < 0)
      return;
    if (strncmp(path, "/kept/", strlen("/kept/")) == 0)
      *answer = (struct seccomp_notif_resp){.id = notif->id, .error = -EPERM};
  }
  seccomp_notify_respond(listener, answer);
}

int main(void) {
  const char *named = getenv("SECCOMP_BROKER_LISTENER");
  struct seccomp_notif *notif;
  struct seccomp_notif_resp *answer;
  if (named == NULL || seccomp_notify_alloc(&notif, &answer) != 0)
    return 1;
  struct pollfd watched = {.fd = atoi(named), .events = POLLIN};
  while (poll(&watched, 1, -1) == 1)
    if (seccomp_notify_receive(watched.fd, notif) == 0)
      serve(watched.fd, notif, answer);
  return 1;
}
