/* Tests of the small broker on the simulated kernel. Each test steps the container's tasks itself, so each order comes as it is wanted. */
#include "step_broker.h"

#include <errno.h>
#include <stdio.h>
#include <stdlib.h>
#include <string.h>

#define POLICY "../own-broker/policy.json"
#define SCRIPT "../own-broker/script.txt"

static int failures;

static void wants(const char *what, int is_so) {
  printf("%s %s\n", is_so ? "ok  " : "FAIL", what);
  failures += !is_so;
}

/* Whether the report so far has a text. */
static int reports(struct sb_kernel *kernel, const char *text) {
  char *report;
  if (sb_report(kernel, &report, NULL) != 0)
    return 0;
  int found = strstr(report, text) != NULL;
  free(report);
  return found;
}

/* A kernel whose container has asked for /dev/null, and the notification at seat 0. */
static struct sb_kernel *asked_for_null(struct seccomp_notif *notif) {
  struct sb_kernel *kernel;
  memset(notif, 0, sizeof *notif);
  int error = sb_open(&kernel, NULL, POLICY, SCRIPT);
  if (error != 0) {
    fprintf(stderr, "the program can't be started: %s\n", strerror(-error));
    exit(1);
  }
  sb_step(kernel, "0");
  while (sb_step(kernel, "0.1") == 0)
    ;
  wants("the container waits, and a notification is there", sb_able(kernel, NULL, 0) == 1);
  wants("it is received", sb_recv(kernel, 0, notif) == 0 && notif->pid == 301);
  return kernel;
}

static void test_device_is_made(void) {
  struct seccomp_notif notif;
  struct sb_kernel *kernel = asked_for_null(&notif);
  wants("the call is served", broker_serve(kernel, 0, &notif) == 0);
  wants("the call returns", sb_step(kernel, "0.1") == 0 && strcmp(sb_answer(kernel), "13 t0.1 resume 0") == 0);
  wants("/dev/null was made", reports(kernel, " act mknod \"/dev/null\" chr 1:3 ok\n"));
  wants("as the policy grants it", reports(kernel, " mknod rule=lxd.mknod.1:3 verdict=grant answer=0 reply=sent\n"));
  wants("the kernel ends well", sb_close(kernel) == 0);
}

/* The caller is killed after its notification was received, and the next task gets its PID. */
static void test_caller_dies(void) {
  struct seccomp_notif notif;
  struct sb_kernel *kernel = asked_for_null(&notif);
  wants("the parent kills the caller", sb_step(kernel, "0") == 0);
  wants("which dies", sb_step(kernel, "0.1") == 0 && strstr(sb_answer(kernel), "deliver 9 end") != NULL);
  wants("and is reaped", sb_step(kernel, "0") == 0);
  wants("another task gets its PID", sb_step(kernel, "0") == 0 && strstr(sb_answer(kernel), "spawn 0.2 pid=301") != NULL);
  wants("and stores a path of its own", sb_step(kernel, "0.2") == 0);
  wants("the broker finds the caller gone", broker_serve(kernel, 0, &notif) == -ENOENT);
  wants("it has opened the other task's memory", reports(kernel, " open-mem 301 ok\n"));
  wants("and has made nothing", !reports(kernel, " act "));
  wants("the session counts as gone", reports(kernel, " mknod rule=- verdict=gone answer=- reply=none\n"));
  wants("the kernel ends well", sb_close(kernel) == 0);
}

int main(void) {
  test_device_is_made();
  test_caller_dies();
  return failures > 0;
}
