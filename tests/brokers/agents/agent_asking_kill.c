/* Asks with kill(2) whether its caller lives, which the simulated kernel has no answer to: it can't be tried. */
#define _GNU_SOURCE
#include <linux/seccomp.h>
#include <signal.h>
#include <stdlib.h>
#include <sys/ioctl.h>

int main(void) {
  const char *named = getenv("SECCOMP_BROKER_LISTENER");
  struct seccomp_notif notif = {0};
  if (named == NULL || ioctl(atoi(named), SECCOMP_IOCTL_NOTIF_RECV, &notif) != 0)
    return 1;
  return kill((pid_t)notif.pid, 0) == 0 ? 0 : 1;
}
