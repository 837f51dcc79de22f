/* The small broker as a program: it serves the kernel of SECCOMP_BROKER_KERNEL, or the program on a policy and a script. */
#include "step_broker.h"

#include <errno.h>
#include <stdio.h>
#include <string.h>

int main(int argc, char **argv) {
  struct sb_kernel *kernel;
  int error = sb_open(&kernel, NULL, argc > 2 ? argv[1] : NULL, argc > 2 ? argv[2] : NULL);
  if (error != 0) {
    fprintf(stderr, "the kernel can't be opened: %s\n", strerror(-error));
    return 1;
  }
  for (;;) {
    struct seccomp_notif notif = {0};
    error = sb_recv(kernel, 0, &notif);
    if (error == 0)
      broker_serve(kernel, 0, &notif);
    else if (error != -ENOENT)
      break;
  }
  return sb_close(kernel);
}
