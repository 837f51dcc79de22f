/* Each call of seccomp_step.h, and each error that it says, in a folder with the files of examples/own-broker. tools/checks/check-your-broker runs it. */
#define _GNU_SOURCE
#include <seccomp_step.h>

#include <errno.h>
#include <fcntl.h>
#include <poll.h>
#include <stdio.h>
#include <stdlib.h>
#include <string.h>
#include <sys/mount.h>
#include <sys/stat.h>
#include <sys/sysmacros.h>
#include <sys/xattr.h>
#include <unistd.h>

static int failures;

static void wants_number(int line, const char *call, long long got, long long wanted) {
  if (got == wanted)
    return;
  fprintf(stderr, "seccomp_step_test.c:%d: %s is %lld (%s) and not %lld\n", line, call, got, got < 0 ? strerror((int)-got) : "no error", wanted);
  failures++;
}

static void wants_text(int line, const char *got, const char *wanted) {
  if (strcmp(got, wanted) == 0)
    return;
  fprintf(stderr, "seccomp_step_test.c:%d: the answer is %s and not %s\n", line, got, wanted);
  failures++;
}

#define WANTS(call, wanted) wants_number(__LINE__, #call, call, wanted)
#define SAYS(kernel, wanted) wants_text(__LINE__, sb_answer(kernel), wanted)

static struct sb_kernel *opened(const char *script) {
  struct sb_kernel *kernel;
  int error = sb_open(&kernel, NULL, "policy.json", script);
  if (error != 0) {
    fprintf(stderr, "the program can't be started: %s\n", strerror(-error));
    exit(1);
  }
  return kernel;
}

/* Lets task 0 step until it waits or has ended. */
static void run(struct sb_kernel *kernel) {
  while (sb_step(kernel, "0") == 0)
    ;
}

static void test_opening(void) {
  struct sb_kernel *kernel;
  WANTS(sb_open(&kernel, "./no-such-program", "policy.json", "script.txt"), -ENOENT);
  WANTS(kernel == NULL, 1);
  WANTS(sb_open(&kernel, NULL, NULL, "script.txt"), -EFAULT);
  WANTS(sb_open(&kernel, NULL, "no-such-policy", "script.txt"), -EINVAL);
  WANTS(sb_open(&kernel, NULL, "policy.json", "policy.json"), -EINVAL);
  WANTS(sb_open(&kernel, "true", "policy.json", "script.txt"), -EINVAL);
  WANTS(sb_close(NULL), 0);
}

static void test_before_a_call(void) {
  struct sb_kernel *kernel = opened("calls.txt");
  struct seccomp_notif notif = {0}, used = {.pid = 1};
  struct sysinfo info = {0};
  char bytes[16], tasks[8];
  WANTS(sb_able(kernel, tasks, sizeof tasks), 0);
  wants_text(__LINE__, tasks, "0");
  WANTS(sb_able(kernel, tasks, 1), -ERANGE);
  WANTS(sb_recv(kernel, 0, &notif), -EAGAIN);
  SAYS(kernel, "skip");
  WANTS(sb_recv(kernel, 0, &used), -EINVAL);
  SAYS(kernel, "error EINVAL");
  WANTS(sb_recv(kernel, 0, NULL), -EFAULT);
  WANTS(sb_recv(kernel, SB_MOST_WORKERS, &notif), -ECHRNG);
  WANTS(sb_step(kernel, "0.1"), -ESRCH);
  WANTS(sb_step(kernel, "0\nable"), -ESRCH);
  WANTS(sb_step(kernel, ""), -ESRCH);
  WANTS(sb_id_valid(kernel, 0, UINT64_MAX), -ENOENT);
  WANTS(sb_open_mem(kernel, 0, 99), -ESRCH);
  WANTS(sb_open_dir(kernel, 0, 99, AT_FDCWD), -ESRCH);
  WANTS(sb_open_dir(kernel, 0, 1, 77), -EBADF);
  WANTS(sb_open_dir(kernel, 0, 1, AT_FDCWD), 0);
  SAYS(kernel, "5 w0 open-base 1 -100 ok");
  WANTS(sb_pread(kernel, 0, bytes, sizeof bytes, 0x10000), -EFAULT);
  WANTS(sb_write_sysinfo(kernel, 0, 0x10000, &info), -EBADF);
  WANTS(sb_addfd_result(kernel, 0), -ENOMSG);
  WANTS(sb_let_go(kernel, 0), 0);
  WANTS(sb_close(kernel), 0);
}

static void test_answers(void) {
  struct sb_kernel *kernel = opened("calls.txt");
  struct seccomp_notif notif = {0};
  run(kernel);
  WANTS(sb_able(kernel, NULL, 0), 1);
  struct seccomp_notif_resp answer = {.id = 1, .error = -EPERM};
  WANTS(sb_send(kernel, 3, &answer), -EINPROGRESS);
  WANTS(sb_recv(kernel, 3, &notif), 0);
  WANTS(notif.id, 1);
  WANTS(notif.pid, 1);
  WANTS(notif.data.nr, 257);
  WANTS(notif.data.arch, 0xc000003e);
  WANTS((long long)notif.data.args[0], AT_FDCWD);
  WANTS(notif.data.args[1], 0x10000);
  WANTS(sb_id_valid(kernel, 3, notif.id), 0);
  answer.flags = 2;
  WANTS(sb_send(kernel, 3, &answer), -EINVAL);
  answer.flags = SECCOMP_USER_NOTIF_FLAG_CONTINUE;
  WANTS(sb_send(kernel, 3, &answer), -EINVAL);
  answer = (struct seccomp_notif_resp){.id = 1, .error = 1};
  WANTS(sb_send(kernel, 3, &answer), -EINVAL);
  answer.error = -EDQUOT;
  WANTS(sb_send(kernel, 3, &answer), 0);
  WANTS(sb_send(kernel, 3, &answer), -EINPROGRESS);
  WANTS(sb_id_valid(kernel, 3, notif.id), -ENOENT);
  WANTS(sb_step(kernel, "0"), 0);
  SAYS(kernel, "9 t0 resume EDQUOT");
  WANTS(sb_send(kernel, 3, &answer), -ENOENT);
  WANTS(sb_send(kernel, 3, NULL), -EFAULT);
  WANTS(sb_close(kernel), 0);
}

static void test_descriptors(void) {
  struct sb_kernel *kernel = opened("calls.txt");
  struct seccomp_notif notif = {0};
  run(kernel);
  WANTS(sb_recv(kernel, 0, &notif), 0);
  struct seccomp_notif_addfd asked = {.id = notif.id, .flags = 4, .srcfd = 5};
  WANTS(sb_addfd(kernel, 0, &asked), -EINVAL);
  asked.flags = SECCOMP_ADDFD_FLAG_SEND;
  asked.srcfd = 6;
  WANTS(sb_addfd(kernel, 0, &asked), -EBADF);
  asked.srcfd = 5;
  asked.id = 77;
  WANTS(sb_addfd(kernel, 0, &asked), -ENOENT);
  asked.id = notif.id;
  asked.flags = 0;
  WANTS(sb_addfd(kernel, 0, &asked), 0);
  WANTS(sb_addfd(kernel, 0, &asked), -EALREADY);
  asked.flags = SECCOMP_ADDFD_FLAG_SEND;
  WANTS(sb_addfd(kernel, 1, &asked), -EBUSY);
  WANTS(sb_addfd_result(kernel, 0), -EAGAIN);
  WANTS(sb_step(kernel, "0"), 0);
  WANTS(sb_addfd_result(kernel, 0), 3);
  WANTS(sb_addfd(kernel, 0, &asked), 0);
  WANTS(sb_step(kernel, "0"), 0);
  WANTS(sb_addfd_result(kernel, 0), -EBADF);
  asked.flags = SECCOMP_ADDFD_FLAG_SEND | SECCOMP_ADDFD_FLAG_SETFD;
  asked.newfd = 1 << 20;
  WANTS(sb_addfd(kernel, 0, &asked), 0);
  WANTS(sb_step(kernel, "0"), 0);
  WANTS(sb_addfd_result(kernel, 0), -EMFILE);
  asked.newfd = 0;
  WANTS(sb_addfd(kernel, 0, &asked), 0);
  WANTS(sb_step(kernel, "0"), 0);
  WANTS(sb_step(kernel, "0"), 0);
  WANTS(sb_addfd_result(kernel, 0), 0);
  WANTS(sb_addfd(kernel, 0, NULL), -EFAULT);
  WANTS(sb_close(kernel), 0);
}

static void test_looks(void) {
  struct sb_kernel *kernel = opened("calls.txt");
  struct seccomp_notif notif = {0};
  struct sb_task task;
  struct sb_descriptor leads;
  struct sb_node node;
  run(kernel);
  WANTS(sb_look_pid(kernel, 1, &task), 0);
  wants_text(__LINE__, task.name, "0");
  WANTS(task.ppid, 0);
  WANTS(task.state, SB_SLEEPING);
  WANTS(sb_look_pid(kernel, 2, &task), -ESRCH);
  WANTS(sb_look_pid(kernel, 1, NULL), -EFAULT);
  WANTS(sb_look_listener(kernel), POLLIN);
  WANTS(sb_recv(kernel, 0, &notif), 0);
  WANTS(sb_look_listener(kernel), POLLOUT);
  struct seccomp_notif_addfd asked = {.id = notif.id, .srcfd = 5};
  WANTS(sb_addfd(kernel, 0, &asked), 0);
  WANTS(sb_look_pid(kernel, 1, &task), 0);
  WANTS(task.state, SB_RUNNING);
  WANTS(sb_step(kernel, "0"), 0);
  WANTS(sb_look_fd(kernel, 1, 0, &leads), 0);
  WANTS(leads.object, SB_CONSOLE);
  WANTS(sb_look_fd(kernel, 1, 3, &leads), 0);
  WANTS(leads.object, SB_FILE);
  WANTS(leads.file, 5);
  WANTS(sb_look_fd(kernel, 1, 4, &leads), 0);
  WANTS(leads.object, SB_NOTHING);
  WANTS(sb_mknodat(kernel, 0, AT_FDCWD, "/look \"", S_IFCHR | 0666, makedev(1, 3)), 0);
  WANTS(sb_look_path(kernel, 1, AT_FDCWD, "look \"", false, &node), 0);
  WANTS(node.kind, S_IFCHR);
  WANTS(node.major_number, 1);
  WANTS(node.minor_number, 3);
  WANTS(sb_look_path(kernel, 1, AT_FDCWD, "/dev/", true, &node), 0);
  WANTS(node.kind, S_IFDIR);
  WANTS(node.ordinal, 1);
  WANTS(sb_look_path(kernel, 1, 4, "look", true, &node), -EBADF);
  WANTS(sb_look_path(kernel, 2, AT_FDCWD, "/", true, &node), -ESRCH);
  WANTS(sb_look_path(kernel, 1, AT_FDCWD, "", true, &node), -ENOENT);
  WANTS(sb_look_path(kernel, 1, AT_FDCWD, NULL, true, &node), -EFAULT);
  WANTS(sb_close_listener(kernel), 0);
  WANTS(sb_look_listener(kernel), -ESHUTDOWN);
  WANTS(sb_close(kernel), 0);
}

static void test_memory(void) {
  struct sb_kernel *kernel = opened("calls.txt");
  char bytes[2 * SB_MOST_READ];
  struct sysinfo info = {.uptime = 7, .totalram = 4096, .mem_unit = 1};
  run(kernel);
  WANTS(sb_open_mem(kernel, 0, 1), 0);
  WANTS(sb_open_mem(kernel, 0, 1), 0);
  WANTS(sb_pread(kernel, 0, bytes, 8, 0x10000), 8);
  WANTS(memcmp(bytes, "/log\0\0\0", 8), 0);
  WANTS(sb_pread(kernel, 0, bytes, sizeof bytes, 0x10000), SB_MOST_READ);
  WANTS(sb_pread(kernel, 0, bytes, 64, 0x1fff0), 16);
  WANTS(sb_pread(kernel, 0, bytes, 64, 0x20000), -EFAULT);
  WANTS(sb_pread(kernel, 0, NULL, 0, 0x10000), 0);
  WANTS(sb_pread(kernel, 0, NULL, 1, 0x10000), -EFAULT);
  WANTS(sb_write_sysinfo(kernel, 0, 0x1ffff, &info), -EFAULT);
  WANTS(sb_write_sysinfo(kernel, 0, 0x1f000, &info), 0);
  WANTS(sb_pread(kernel, 0, bytes, sizeof info, 0x1f000), sizeof info);
  WANTS(memcmp(bytes, &info, sizeof info), 0);
  WANTS(sb_let_go(kernel, 0), 0);
  WANTS(sb_pread(kernel, 0, bytes, 1, 0x10000), -EFAULT);
  WANTS(sb_close(kernel), 0);
}

static void test_effects(void) {
  struct sb_kernel *kernel = opened("calls.txt");
  char name[300];
  memset(name, 'x', sizeof name - 1);
  name[sizeof name - 1] = '\0';
  WANTS(sb_mknodat(kernel, 0, AT_FDCWD, "/dev/a \"b\\\n", S_IFCHR | 0666, makedev(1, 3)), 0);
  SAYS(kernel, "1 w0 act mknod \"/dev/a \\\"b\\\\\\x0a\" chr 1:3 ok");
  WANTS(sb_mknodat(kernel, 0, AT_FDCWD, "/log", S_IFIFO, 0), -EEXIST);
  WANTS(sb_mknodat(kernel, 0, 4, "x", S_IFIFO, 0), -EBADF);
  WANTS(sb_mknodat(kernel, 0, AT_FDCWD, "/no/x", S_IFIFO, 0), -ENOENT);
  WANTS(sb_mknodat(kernel, 0, AT_FDCWD, "/log/x", S_IFIFO, 0), -ENOTDIR);
  WANTS(sb_mknodat(kernel, 0, AT_FDCWD, name, S_IFIFO, 0), -EBADF);
  WANTS(sb_mknodat(kernel, 0, AT_FDCWD, "/d", S_IFDIR, 0), -EPERM);
  WANTS(sb_mknodat(kernel, 0, AT_FDCWD, NULL, S_IFIFO, 0), -EFAULT);
  WANTS(sb_open_dir(kernel, 0, 1, AT_FDCWD), 0);
  WANTS(sb_mknodat(kernel, 0, 4, "x", S_IFIFO, 0), 0);
  SAYS(kernel, "9 w0 act mknodat 4 \"x\" fifo ok");
  WANTS(sb_mknodat(kernel, 0, AT_FDCWD, name, S_IFIFO, 0), -ENAMETOOLONG);
  WANTS(sb_setxattr(kernel, 0, "/log", "user.a", "\0\xff", 2, XATTR_REPLACE), -ENODATA);
  WANTS(sb_setxattr(kernel, 0, "/log", "user.a", "\0\xff", 2, XATTR_CREATE), 0);
  SAYS(kernel, "12 w0 act setxattr \"/log\" \"user.a\" 00ff flags=1 ok");
  WANTS(sb_setxattr(kernel, 0, "/log", "user.a", NULL, 0, XATTR_CREATE), -EEXIST);
  WANTS(sb_setxattr(kernel, 0, "/log", "user.a", NULL, 0, 8), -EINVAL);
  WANTS(sb_mount(kernel, 0, "/dev/sda1", "/mnt", "", 0, NULL, NULL), -EINVAL);
  WANTS(sb_mount(kernel, 0, "/dev/sda1", "/log", "ext4", 0, NULL, NULL), -ENOTDIR);
  WANTS(sb_mount(kernel, 0, "/dev/sda1", "/mnt", "ext4", MS_RDONLY, "x", &(struct sb_mount_options){.via = "fuse2fs", .shift = true}), 0);
  SAYS(kernel, "17 w0 act mount \"/dev/sda1\" \"/mnt\" \"ext4\" flags=1 data=\"x\" via=fuse2fs shift=1 ok");
  WANTS(sb_mount(kernel, 0, NULL, NULL, NULL, 0, NULL, NULL), -EFAULT);
  char *long_value = calloc(1, 40000);
  WANTS(sb_setxattr(kernel, 0, "/log", "user.b", long_value, 40000, 0), -EMSGSIZE);
  free(long_value);
  WANTS(sb_close(kernel), 0);
}

/* A script as long as one may be, so that no schedule fits behind it. */
static void write_longest(const char *path) {
  static const char program[] = "prog main\nend\n";
  FILE *file = fopen(path, "w");
  if (file == NULL) {
    perror(path);
    exit(1);
  }
  for (size_t left = 8388608 - (sizeof program - 1); left > 1; left--)
    fputc('#', file);
  fprintf(file, "\n%s", program);
  fclose(file);
}

static void test_script(void) {
  struct sb_kernel *kernel = opened("calls.txt");
  struct seccomp_notif notif = {0};
  char *script;
  size_t length;
  run(kernel);
  WANTS(sb_recv(kernel, 3, &notif), 0);
  WANTS(sb_mknodat(kernel, 3, AT_FDCWD, "/dev/a \"b", S_IFIFO | 0600, 0), 0);
  struct seccomp_notif_resp answer = {.id = 1, .error = -EPERM};
  WANTS(sb_send(kernel, 3, &answer), 0);
  WANTS(sb_script(kernel, &script, &length), 0);
  if (script != NULL) {
    static const char schedule[] = "\nend\nschedule\nt 0\nt 0\nw 3 recv\nw 3 act mknod \"/dev/a \\\"b\" 4480 0\nw 3 send 1 0 -1 0\nend\n";
    WANTS(length, strlen(script));
    WANTS(strncmp(script, "# A container that makes calls of each kind", 43), 0);
    wants_text(__LINE__, length < sizeof schedule ? script : script + length - (sizeof schedule - 1), schedule);
  }
  free(script);
  WANTS(sb_close_listener(kernel), 0);
  WANTS(sb_script(kernel, &script, NULL), 0);
  free(script);
  WANTS(sb_close(kernel), 0);

  char path[] = "/tmp/seccomp_step_test-XXXXXX";
  close(mkstemp(path));
  write_longest(path);
  kernel = opened(path);
  WANTS(sb_script(kernel, &script, NULL), -EFBIG);
  WANTS(script == NULL, 1);
  WANTS(sb_close(kernel), 0);
  unlink(path);
}

static void wants_found(int line, struct sb_kernel *kernel, bool is_idle, const char *wanted) {
  char *found;
  size_t length;
  wants_number(line, "sb_judge", sb_judge(kernel, is_idle, &found, &length), 0);
  if (found != NULL) {
    wants_number(line, "the length", (long long)length, (long long)strlen(found));
    wants_text(line, found, wanted);
  }
  free(found);
}

#define FINDS(kernel, is_idle, wanted) wants_found(__LINE__, kernel, is_idle, wanted "\n")

static void test_judge(void) {
  struct sb_kernel *kernel = opened("calls.txt");
  struct seccomp_notif notif = {0};
  run(kernel);
  WANTS(sb_recv(kernel, 3, &notif), 0);
  FINDS(kernel, false, "mediated events=4 calls=1 effects=0 answers=0");
  FINDS(kernel, true, "broken 3 answer unanswered");
  WANTS(sb_mknodat(kernel, 3, AT_FDCWD, "/dev/a", S_IFIFO | 0600, 0), 0);
  FINDS(kernel, false, "broken 4 harm other-request");
  WANTS(sb_close_listener(kernel), 0);
  FINDS(kernel, true, "broken 4 harm other-request");
  WANTS(sb_close(kernel), 0);
}

static void test_ends(void) {
  struct sb_kernel *kernel = opened("calls.txt");
  char *report;
  size_t length;
  WANTS(sb_report(kernel, &report, &length), 0);
  if (report != NULL) {
    WANTS(length, strlen(report));
    wants_text(__LINE__, report,
               "journal 1\n0 - spawn 0 pid=1 new\ncalls 0\naudit 0\nsummary events=1 calls=0 notified=0 answered=0 granted=0 denied=0 passed=0 injected=0 "
               "faults=0 gone=0 lost=0\n");
  }
  free(report);
  WANTS(sb_close_listener(kernel), 0);
  WANTS(sb_step(kernel, "0"), -ESHUTDOWN);
  WANTS(sb_able(kernel, NULL, 0), -ESHUTDOWN);
  WANTS(sb_report(kernel, &report, NULL), 0);
  free(report);
  WANTS(sb_close(kernel), 0);
}

int main(void) {
  test_opening();
  test_before_a_call();
  test_answers();
  test_descriptors();
  test_looks();
  test_memory();
  test_effects();
  test_script();
  test_judge();
  test_ends();
  return failures > 0;
}
