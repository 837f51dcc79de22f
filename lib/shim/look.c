/* look.c - see look.h */
#define _GNU_SOURCE
#include "look.h"
#include "broker.h"
#include "step.h"

long look_pid(const char *call, uint32_t pid, struct sb_task *task) {
  connect_once(call);
  return result_of(sb_look_pid(kernel, pid, task));
}

long look_fd(const char *call, uint32_t pid, uint32_t fd, struct sb_descriptor *leads) {
  connect_once(call);
  return result_of(sb_look_fd(kernel, pid, fd, leads));
}

long look_path(const char *call, uint32_t pid, int dirfd, const char *path, bool follow, struct sb_node *node) {
  connect_once(call);
  return result_of(sb_look_path(kernel, pid, dirfd, path, follow, node));
}

long look_listener(const char *call) {
  connect_once(call);
  return result_of(sb_look_listener(kernel));
}

void hold(unsigned count) { (void)result_of(step_hold(kernel, count)); }

uint64_t key_of_task(const struct sb_task *task) {
  uint64_t key = 0xcbf29ce484222325;
  for (const char *at = task->name; *at != '\0'; at++)
    key = (key ^ (unsigned char)*at) * 0x100000001b3;
  return key;
}
