/* Makes a mount at a path of its own, without having entered the container: which of the two it would be in can't be told. */
#define _GNU_SOURCE
#include <linux/seccomp.h>
#include <stdlib.h>
#include <sys/ioctl.h>
#include <sys/mount.h>

int main(void) {
  const char *named = getenv("SECCOMP_BROKER_LISTENER");
  struct seccomp_notif notif = {0};
  if (named == NULL || ioctl(atoi(named), SECCOMP_IOCTL_NOTIF_RECV, &notif) != 0)
    return 1;
  return mount("/nowhere", "/nowhere", "none", 0, NULL) == 0 ? 0 : 1;
}
