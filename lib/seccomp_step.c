/* A client of `seccomp-broker step`: see include/seccomp_step.h. Each call writes one request as a line, and reads the line that answers it. */
#define _GNU_SOURCE
#include "seccomp_step.h"

#include <errno.h>
#include <fcntl.h>
#include <inttypes.h>
#include <poll.h>
#include <pthread.h>
#include <signal.h>
#include <spawn.h>
#include <stdarg.h>
#include <stdio.h>
#include <stdlib.h>
#include <string.h>
#include <sys/socket.h>
#include <sys/stat.h>
#include <sys/un.h>
#include <sys/wait.h>
#include <time.h>
#include <unistd.h>

extern char **environ;

/* A text that grows. Once there was no memory it stays as it was, and says so. */
struct text {
  char *bytes;
  size_t used, size;
  bool failed;
};

struct sb_kernel {
  pid_t program;
  /* Pipes: the program opens its standard input by name, which no socket can be. */
  int requests, answers;
  struct text request, answer;
  /* What was read behind the answer that is told. */
  struct text read;
  /* Why no further request is sent, or 0. */
  int broken;
  /* Where requests and answers are written down, or NULL. */
  FILE *session;
};

/* ---- texts */

static bool make_room(struct text *text, size_t more) {
  if (text->failed || more > SIZE_MAX / 2 - text->used) {
    text->failed = true;
    return false;
  }
  if (text->used + more <= text->size)
    return true;
  size_t size = 2 * (text->used + more);
  char *bytes = realloc(text->bytes, size);
  if (bytes == NULL) {
    text->failed = true;
    return false;
  }
  text->bytes = bytes;
  text->size = size;
  return true;
}

static void add(struct text *text, const void *bytes, size_t count) {
  if (count > 0 && make_room(text, count)) {
    memcpy(text->bytes + text->used, bytes, count);
    text->used += count;
  }
}

__attribute__((format(printf, 2, 3))) static void add_format(struct text *text, const char *format, ...) {
  /* Long enough for each of the formats below, which have words and numbers alone. */
  char piece[160];
  va_list arguments;
  va_start(arguments, format);
  int length = vsnprintf(piece, sizeof piece, format, arguments);
  va_end(arguments);
  add(text, piece, (size_t)length);
}

static void add_hex(struct text *text, const void *bytes, size_t count) {
  const unsigned char *from = bytes;
  for (size_t at = 0; at < count; at++)
    add_format(text, "%02x", from[at]);
}

/* A text between quotes, as scripts write it (docs/reference/SCRIPT.md, Script lines and tokens). */
static void add_quoted(struct text *text, const char *bytes, size_t count) {
  add(text, " \"", 2);
  for (size_t at = 0; at < count; at++) {
    unsigned char byte = (unsigned char)bytes[at];
    if (byte == '"' || byte == '\\')
      add(text, "\\", 1);
    if (byte < 0x20)
      add_format(text, "\\x%02x", byte);
    else
      add(text, &bytes[at], 1);
  }
  add(text, "\"", 1);
}

static void add_string(struct text *text, const char *string) {
  add_quoted(text, string == NULL ? "" : string, string == NULL ? 0 : strlen(string));
}

/* Drops bytes at the beginning. */
static void drop(struct text *text, size_t count) {
  memmove(text->bytes, text->bytes + count, text->used - count);
  text->used -= count;
}

/* ---- what answers say */

static const struct {
  const char *word;
  int number;
} errors[] = {
    {"EPERM", EPERM},   {"ENOENT", ENOENT},   {"ESRCH", ESRCH},     {"EINTR", EINTR},   {"E2BIG", E2BIG},
    {"EBADF", EBADF},   {"ECHILD", ECHILD},   {"EAGAIN", EAGAIN},   {"EACCES", EACCES}, {"EFAULT", EFAULT},
    {"EBUSY", EBUSY},   {"EEXIST", EEXIST},   {"ENODEV", ENODEV},   {"ENOTDIR", ENOTDIR}, {"EINVAL", EINVAL},
    {"EMFILE", EMFILE}, {"ERANGE", ERANGE},   {"ENAMETOOLONG", ENAMETOOLONG}, {"ENOSYS", ENOSYS}, {"ELOOP", ELOOP},
    {"ENODATA", ENODATA}, {"EINPROGRESS", EINPROGRESS}, {"EDQUOT", EDQUOT},
};

static const struct {
  const char *reason;
  int number;
} refusals[] = {
    {"no task", ESRCH},           {"worker", ECHRNG},     {"no memory is open", EBADF}, {"request is put", EALREADY},
    {"no request", ENOMSG},       {"closed", ESHUTDOWN},  {"long line", EMSGSIZE},      {"full", EFBIG},
};

/* The negated error of a result: 0 for `ok`, and -EPROTO for a word that is none. */
static int error_named(const char *word) {
  if (strcmp(word, "ok") == 0)
    return 0;
  for (size_t at = 0; at < sizeof errors / sizeof *errors; at++)
    if (strcmp(word, errors[at].word) == 0)
      return -errors[at].number;
  char *end;
  long number = word[0] == 'E' ? strtol(word + 1, &end, 10) : 0;
  return number > 0 && number <= 4095 && *end == '\0' ? (int)-number : -EPROTO;
}

static int error_refused(const char *reason) {
  for (size_t at = 0; at < sizeof refusals / sizeof *refusals; at++)
    if (strcmp(reason, refusals[at].reason) == 0)
      return -refusals[at].number;
  return -EPROTO;
}

static int digit_of(char letter) {
  return letter >= '0' && letter <= '9' ? letter - '0' : letter >= 'a' && letter <= 'f' ? letter - 'a' + 10 : -1;
}

/* What stands behind the beginning of a text, or NULL where it begins otherwise. */
static const char *behind(const char *text, const char *beginning) {
  size_t length = strlen(beginning);
  return strncmp(text, beginning, length) == 0 ? text + length : NULL;
}

static const char *last_word(const char *line) {
  const char *blank = strrchr(line, ' ');
  return blank == NULL ? line : blank + 1;
}

/* ---- the program */

/* Gives up for good. */
static int broken(struct sb_kernel *kernel, int error) {
  kernel->broken = error;
  return error;
}

/* A write that raises no SIGPIPE: where the program behind a pipe has ended, the signal that comes of the write alone is taken back. */
static ssize_t write_quietly(const struct sb_kernel *kernel, const void *bytes, size_t count) {
  if (kernel->program == 0)
    return send(kernel->requests, bytes, count, MSG_NOSIGNAL);
  sigset_t of_pipes, before, pending;
  sigemptyset(&of_pipes);
  sigaddset(&of_pipes, SIGPIPE);
  sigpending(&pending);
  pthread_sigmask(SIG_BLOCK, &of_pipes, &before);
  ssize_t written = write(kernel->requests, bytes, count);
  int error = errno;
  if (written < 0 && error == EPIPE && !sigismember(&pending, SIGPIPE))
    while (sigtimedwait(&of_pipes, NULL, &(struct timespec){0, 0}) < 0 && errno == EINTR)
      ;
  pthread_sigmask(SIG_SETMASK, &before, NULL);
  errno = error;
  return written;
}

static int write_whole(struct sb_kernel *kernel) {
  for (size_t at = 0; at < kernel->request.used;) {
    ssize_t count = write_quietly(kernel, kernel->request.bytes + at, kernel->request.used - at);
    if (count < 0 && errno != EINTR)
      return broken(kernel, -EPIPE);
    at += count > 0 ? (size_t)count : 0;
  }
  return 0;
}

/* Reads more behind what was read. */
static int read_more(struct sb_kernel *kernel) {
  if (!make_room(&kernel->read, SB_MOST_READ))
    return broken(kernel, -ENOMEM);
  ssize_t count;
  do
    count = read(kernel->answers, kernel->read.bytes + kernel->read.used, SB_MOST_READ);
  while (count < 0 && errno == EINTR);
  if (count <= 0)
    return broken(kernel, -EPIPE);
  kernel->read.used += (size_t)count;
  return 0;
}

/* Takes so many bytes of what was read as the answer, with a zero byte behind them, and drops them together with as many more. */
static int take(struct sb_kernel *kernel, size_t count, size_t more) {
  kernel->answer.used = 0;
  add(&kernel->answer, kernel->read.bytes, count);
  add(&kernel->answer, "", 1);
  drop(&kernel->read, count + more);
  return kernel->answer.failed ? broken(kernel, -ENOMEM) : 0;
}

static int read_line(struct sb_kernel *kernel) {
  size_t looked_at = 0;
  for (;;) {
    char *end = looked_at < kernel->read.used ? memchr(kernel->read.bytes + looked_at, '\n', kernel->read.used - looked_at) : NULL;
    if (end != NULL)
      return take(kernel, (size_t)(end - kernel->read.bytes), 1);
    looked_at = kernel->read.used;
    int error = read_more(kernel);
    if (error != 0)
      return error;
  }
}

static int read_bytes(struct sb_kernel *kernel, size_t count) {
  while (kernel->read.used < count) {
    int error = read_more(kernel);
    if (error != 0)
      return error;
  }
  return take(kernel, count, 0);
}

/* Begins a request. */
static struct text *request(struct sb_kernel *kernel) {
  kernel->request.used = 0;
  kernel->request.failed = false;
  return &kernel->request;
}

static struct text *request_of(struct sb_kernel *kernel, unsigned worker, const char *word) {
  add_format(request(kernel), "w %u %s", worker, word);
  return &kernel->request;
}

/* Writes the request, which has its newline, and the line that answers it to the file of the session. */
static void write_down(struct sb_kernel *kernel) {
  if (kernel->session == NULL)
    return;
  fputs("> ", kernel->session);
  fwrite(kernel->request.bytes, 1, kernel->request.used, kernel->session);
  fprintf(kernel->session, "< %s\n", kernel->answer.bytes);
  fflush(kernel->session);
}

/* Sends the request, and reads its answer: 0 where it tells of an event, or of what was asked for. */
static int ask(struct sb_kernel *kernel) {
  if (kernel->broken != 0)
    return kernel->broken;
  add(&kernel->request, "\n", 1);
  if (kernel->request.failed)
    return -ENOMEM;
  int error = write_whole(kernel);
  if (error == 0)
    error = read_line(kernel);
  if (error != 0)
    return error;
  write_down(kernel);
  const char *answer = kernel->answer.bytes, *rest;
  if (strcmp(answer, "skip") == 0)
    return -EAGAIN;
  if ((rest = behind(answer, "refused ")) != NULL)
    return error_refused(rest);
  if ((rest = behind(answer, "error ")) != NULL)
    return error_named(rest);
  return 0;
}

/* Sends a request of which the answer ends with its result. */
static int ask_result(struct sb_kernel *kernel) {
  int error = ask(kernel);
  return error != 0 ? error : error_named(last_word(kernel->answer.bytes));
}

static void close_ends(const int ends[2]) {
  close(ends[0]);
  close(ends[1]);
}

/* Starts the program, which reads from one pipe and writes to the other. */
static int spawn(struct sb_kernel *kernel, const char *program, const char *policy, const char *script, int input, int output) {
  posix_spawn_file_actions_t actions;
  int error = posix_spawn_file_actions_init(&actions);
  if (error != 0)
    return error;
  error = posix_spawn_file_actions_adddup2(&actions, input, STDIN_FILENO);
  if (error == 0)
    error = posix_spawn_file_actions_adddup2(&actions, output, STDOUT_FILENO);
  /* (the words of a program may be changed by it, and are its own) */
  char *words[] = {(char *)program, "step", (char *)policy, (char *)script, NULL};
  if (error == 0)
    error = posix_spawnp(&kernel->program, program, &actions, NULL, words, environ);
  posix_spawn_file_actions_destroy(&actions);
  return error;
}

static int start(struct sb_kernel *kernel, const char *program, const char *policy, const char *script) {
  int requests[2], answers[2];
  if (pipe2(requests, O_CLOEXEC) != 0)
    return -errno;
  if (pipe2(answers, O_CLOEXEC) != 0) {
    int error = -errno;
    close_ends(requests);
    return error;
  }
  int error = spawn(kernel, program, policy, script, requests[0], answers[1]);
  if (error != 0)
    kernel->program = 0;
  close(requests[0]);
  close(answers[1]);
  kernel->requests = requests[1];
  kernel->answers = answers[0];
  return -error;
}

/* A variable of the environment, or NULL where it isn't set or is empty. */
static const char *variable(const char *name) {
  const char *value = getenv(name);
  return value == NULL || *value == '\0' ? NULL : value;
}

static const char *program_or(const char *program) {
  const char *named = program == NULL ? variable("SECCOMP_BROKER") : program;
  return named == NULL || *named == '\0' ? "seccomp-broker" : named;
}

/* Connects to a socket behind which another program holds the kernel. */
static int connect_to(struct sb_kernel *kernel, const char *path) {
  struct sockaddr_un address = {.sun_family = AF_UNIX};
  if (strlen(path) >= sizeof address.sun_path)
    return -ENAMETOOLONG;
  memcpy(address.sun_path, path, strlen(path));
  kernel->requests = socket(AF_UNIX, SOCK_STREAM | SOCK_CLOEXEC, 0);
  if (kernel->requests < 0)
    return -errno;
  if (connect(kernel->requests, (const struct sockaddr *)&address, sizeof address) != 0)
    return -errno;
  kernel->answers = fcntl(kernel->requests, F_DUPFD_CLOEXEC, 0);
  return kernel->answers < 0 ? -errno : 0;
}

/* Opens the file in which requests and answers are written down, if one is wanted. */
static int open_session(struct sb_kernel *kernel) {
  const char *path = variable("SECCOMP_BROKER_SESSION");
  if (path == NULL)
    return 0;
  kernel->session = fopen(path, "we");
  return kernel->session == NULL ? -errno : 0;
}

int sb_open(struct sb_kernel **opened, const char *program, const char *policy, const char *script) {
  *opened = NULL;
  const char *socket_path = variable("SECCOMP_BROKER_KERNEL");
  if (socket_path == NULL && (policy == NULL || script == NULL))
    return -EFAULT;
  struct sb_kernel *kernel = calloc(1, sizeof *kernel);
  if (kernel == NULL)
    return -ENOMEM;
  kernel->requests = -1;
  kernel->answers = -1;
  int error = open_session(kernel);
  if (error == 0)
    error = socket_path != NULL ? connect_to(kernel, socket_path) : start(kernel, program_or(program), policy, script);
  if (error == 0) {
    /* (the first answer shows that policy and script were taken) */
    error = sb_able(kernel, NULL, 0);
    error = error == -EPIPE ? -EINVAL : error > 0 ? 0 : error;
  }
  if (error != 0)
    sb_close(kernel);
  else
    *opened = kernel;
  return error;
}

/* Waits for the program, which has no input any more. */
static int status_of(pid_t program) {
  int status;
  pid_t ended;
  do
    ended = waitpid(program, &status, 0);
  while (ended < 0 && errno == EINTR);
  if (ended < 0)
    return -errno;
  return WIFEXITED(status) ? WEXITSTATUS(status) : 128 + WTERMSIG(status);
}

int sb_close(struct sb_kernel *kernel) {
  if (kernel == NULL)
    return 0;
  int status = 0;
  /* (what is left of an answer is read, so that the program's write doesn't fail; of a socket that is closed in one direction the other end sees it) */
  if (kernel->requests >= 0) {
    if (kernel->program == 0)
      shutdown(kernel->requests, SHUT_WR);
    close(kernel->requests);
  }
  if (kernel->answers >= 0) {
    while (read_more(kernel) == 0)
      kernel->read.used = 0;
    close(kernel->answers);
  }
  if (kernel->program > 0)
    status = status_of(kernel->program);
  if (kernel->session != NULL)
    fclose(kernel->session);
  free(kernel->request.bytes);
  free(kernel->answer.bytes);
  free(kernel->read.bytes);
  free(kernel);
  return status;
}

const char *sb_answer(const struct sb_kernel *kernel) {
  return kernel->answer.used == 0 ? "" : kernel->answer.bytes;
}

/* Asks for a text of many lines, whose length stands behind the first word of the request. */
static int ask_text(struct sb_kernel *kernel, const char *asked, const char *word, char **bytes, size_t *length) {
  *bytes = NULL;
  add(request(kernel), asked, strlen(asked));
  int error = ask(kernel);
  if (error != 0)
    return error;
  const char *told = behind(kernel->answer.bytes, word);
  char *end;
  unsigned long long count = told == NULL ? 0 : strtoull(told, &end, 10);
  if (told == NULL || *told != ' ' || end == told || *end != '\0' || count > SIZE_MAX / 4)
    return broken(kernel, -EPROTO);
  error = read_bytes(kernel, (size_t)count);
  if (error != 0)
    return error;
  *bytes = malloc((size_t)count + 1);
  if (*bytes == NULL)
    return -ENOMEM;
  memcpy(*bytes, kernel->answer.bytes, (size_t)count + 1);
  if (length != NULL)
    *length = (size_t)count;
  return 0;
}

int sb_report(struct sb_kernel *kernel, char **report, size_t *length) {
  return ask_text(kernel, "report", "report", report, length);
}

int sb_script(struct sb_kernel *kernel, char **script, size_t *length) {
  return ask_text(kernel, "script", "script", script, length);
}

int sb_judge(struct sb_kernel *kernel, bool is_idle, char **found, size_t *length) {
  return ask_text(kernel, is_idle ? "judge idle" : "judge", "judge", found, length);
}

/* ---- tasks */

int sb_able(struct sb_kernel *kernel, char *tasks, size_t size) {
  add_format(request(kernel), "able");
  int error = ask(kernel);
  if (error != 0)
    return error;
  const char *names = behind(kernel->answer.bytes, "able");
  if (names == NULL)
    return broken(kernel, -EPROTO);
  names += *names == ' ';
  bool receives = strcmp(last_word(names), "recv") == 0;
  size_t length = strlen(names) - (receives ? strlen("recv") : 0);
  while (length > 0 && names[length - 1] == ' ')
    length--;
  if (size > 0) {
    if (length >= size)
      return -ERANGE;
    memcpy(tasks, names, length);
    tasks[length] = '\0';
  }
  return receives;
}

int sb_step(struct sb_kernel *kernel, const char *task) {
  if (task == NULL)
    return -EFAULT;
  /* (a name with a line end would be two requests) */
  if (task[strspn(task, "0123456789.")] != '\0')
    return -ESRCH;
  add(request(kernel), "t ", 2);
  add(&kernel->request, task, strlen(task));
  int error = ask(kernel);
  /* (what is no name of a task is none's) */
  return error == -EPROTO && behind(kernel->answer.bytes, "refused line") != NULL ? -ESRCH : error;
}

/* ---- looks */

static const struct {
  const char *word;
  enum sb_task_state state;
} states[] = {{"running", SB_RUNNING}, {"sleeping", SB_SLEEPING}, {"disk-sleep", SB_DISK_SLEEP}, {"zombie", SB_ZOMBIE}};

static const struct {
  const char *word;
  mode_t kind;
} kinds[] = {
    {"dir", S_IFDIR}, {"reg", S_IFREG}, {"link", S_IFLNK}, {"fifo", S_IFIFO}, {"sock", S_IFSOCK}, {"chr", S_IFCHR}, {"blk", S_IFBLK},
};

/* Reads a text between quotes, as a report writes it, and answers whether it is one and has room. */
static bool read_quoted(const char *text, char *bytes, size_t size) {
  if (*text++ != '"')
    return false;
  size_t used = 0;
  for (; *text != '"'; text++) {
    unsigned value = (unsigned char)*text;
    if (value == '\\' && text[1] == 'x') {
      int high = digit_of(text[2]), low = high < 0 ? -1 : digit_of(text[3]);
      if (low < 0)
        return false;
      value = (unsigned)(16 * high + low);
      text += 3;
    } else if (value == '\\') {
      value = (unsigned char)*++text;
    }
    if (value == 0 || used + 1 >= size)
      return false;
    bytes[used++] = (char)value;
  }
  bytes[used] = '\0';
  return text[1] == '\0';
}

/* Reads what stands behind `look node `: an ordinal, a kind, and what belongs to that. */
static int read_node(const char *told, struct sb_node *node) {
  char word[8];
  int end = 0;
  *node = (struct sb_node){0};
  if (sscanf(told, "%" SCNu32 " %7s%n", &node->ordinal, word, &end) != 2)
    return -EPROTO;
  for (size_t at = 0; at < sizeof kinds / sizeof *kinds; at++)
    if (strcmp(word, kinds[at].word) == 0)
      node->kind = kinds[at].kind;
  const char *rest = told + end;
  if (node->kind == S_IFLNK)
    return rest[0] == ' ' && read_quoted(rest + 1, node->target, sizeof node->target) ? 0 : -EPROTO;
  if (node->kind == S_IFCHR || node->kind == S_IFBLK)
    return sscanf(rest, " %" SCNu32 ":%" SCNu32, &node->major_number, &node->minor_number) == 2 ? 0 : -EPROTO;
  return node->kind != 0 && *rest == '\0' ? 0 : -EPROTO;
}

int sb_look_pid(struct sb_kernel *kernel, uint32_t pid, struct sb_task *task) {
  if (task == NULL)
    return -EFAULT;
  add_format(request(kernel), "look pid %" PRIu32, pid);
  int error = ask(kernel);
  if (error != 0)
    return error;
  if (strcmp(kernel->answer.bytes, "look none") == 0)
    return -ESRCH;
  char word[16];
  _Static_assert(SB_MOST_NAME == 456, "the width of the format below");
  if (sscanf(kernel->answer.bytes, "look task %455s ppid %" SCNu32 " state %15s", task->name, &task->ppid, word) != 3)
    return -EPROTO;
  for (size_t at = 0; at < sizeof states / sizeof *states; at++)
    if (strcmp(word, states[at].word) == 0) {
      task->state = states[at].state;
      return 0;
    }
  return -EPROTO;
}

int sb_look_fd(struct sb_kernel *kernel, uint32_t pid, uint32_t number, struct sb_descriptor *leads) {
  if (leads == NULL)
    return -EFAULT;
  add_format(request(kernel), "look fd %" PRIu32 " %" PRIu32, pid, number);
  int error = ask(kernel);
  if (error != 0)
    return error;
  const char *answer = kernel->answer.bytes, *rest;
  *leads = (struct sb_descriptor){.object = SB_NOTHING};
  if (strcmp(answer, "look none") == 0)
    return 0;
  if (strcmp(answer, "look console") == 0) {
    leads->object = SB_CONSOLE;
    return 0;
  }
  if ((rest = behind(answer, "look node ")) != NULL) {
    leads->object = SB_NODE;
    return read_node(rest, &leads->node);
  }
  leads->object = SB_FILE;
  return sscanf(answer, "look file %" SCNu32, &leads->file) == 1 ? 0 : -EPROTO;
}

int sb_look_path(struct sb_kernel *kernel, uint32_t pid, int dirfd, const char *path, bool follows, struct sb_node *node) {
  if (path == NULL || node == NULL)
    return -EFAULT;
  add_format(request(kernel), "look path %" PRIu32 " %d", pid, dirfd);
  add_string(&kernel->request, path);
  add_format(&kernel->request, follows ? " follow" : " nofollow");
  int error = ask(kernel);
  if (error != 0)
    return error;
  const char *rest = behind(kernel->answer.bytes, "look error ");
  if (rest != NULL)
    return error_named(rest);
  rest = behind(kernel->answer.bytes, "look node ");
  return rest == NULL ? -EPROTO : read_node(rest, node);
}

int sb_look_listener(struct sb_kernel *kernel) {
  add_format(request(kernel), "look listener");
  int error = ask(kernel);
  if (error != 0)
    return error;
  int in, out;
  if (sscanf(kernel->answer.bytes, "look in=%d out=%d", &in, &out) != 2)
    return -EPROTO;
  return (in ? POLLIN : 0) | (out ? POLLOUT : 0);
}

int sb_close_listener(struct sb_kernel *kernel) {
  add_format(request(kernel), "close");
  return ask(kernel);
}

/* ---- the listener */

static int read_notif(const char *answer, struct seccomp_notif *notif) {
  uint64_t id, ip, args[6];
  uint32_t pid, flags, arch;
  int32_t nr;
  const char *received = strstr(answer, " recv id=");
  if (received == NULL
      || sscanf(received, " recv id=%" SCNu64 " pid=%" SCNu32 " flags=%" SCNu32 " nr=%" SCNd32 " arch=%" SCNu32 " ip=%" SCNu64
                " args=%" SCNu64 ",%" SCNu64 ",%" SCNu64 ",%" SCNu64 ",%" SCNu64 ",%" SCNu64,
                &id, &pid, &flags, &nr, &arch, &ip, &args[0], &args[1], &args[2], &args[3], &args[4], &args[5]) != 12)
    return -EPROTO;
  *notif = (struct seccomp_notif){.id = id, .pid = pid, .flags = flags, .data = {.nr = nr, .arch = arch, .instruction_pointer = ip}};
  for (size_t at = 0; at < 6; at++)
    notif->data.args[at] = args[at];
  return 0;
}

int sb_recv(struct sb_kernel *kernel, unsigned worker, struct seccomp_notif *notif) {
  if (notif == NULL)
    return -EFAULT;
  add_hex(request_of(kernel, worker, "recv-raw "), notif, sizeof *notif);
  int error = ask(kernel);
  if (error != 0)
    return error;
  /* (an error stands in the place of the notification) */
  return strstr(kernel->answer.bytes, " recv id=") == NULL ? error_named(last_word(kernel->answer.bytes)) : read_notif(kernel->answer.bytes, notif);
}

int sb_id_valid(struct sb_kernel *kernel, unsigned worker, uint64_t id) {
  add_format(request_of(kernel, worker, "check "), "%" PRIu64, id);
  return ask_result(kernel);
}

int sb_send(struct sb_kernel *kernel, unsigned worker, const struct seccomp_notif_resp *answer) {
  if (answer == NULL)
    return -EFAULT;
  add_hex(request_of(kernel, worker, "send-raw "), answer, sizeof *answer);
  return ask_result(kernel);
}

int sb_addfd(struct sb_kernel *kernel, unsigned worker, const struct seccomp_notif_addfd *asked) {
  if (asked == NULL)
    return -EFAULT;
  add_hex(request_of(kernel, worker, "addfd-raw "), asked, sizeof *asked);
  return ask_result(kernel);
}

int sb_addfd_result(struct sb_kernel *kernel, unsigned worker) {
  request_of(kernel, worker, "addfd-result");
  int error = ask(kernel);
  if (error != 0)
    return error;
  const char *word = last_word(kernel->answer.bytes);
  if (word[0] == 'E')
    return error_named(word);
  char *end;
  long number = strtol(word, &end, 10);
  return end == word || *end != '\0' || number < 0 || number > INT32_MAX ? -EPROTO : (int)number;
}

int sb_let_go(struct sb_kernel *kernel, unsigned worker) {
  request_of(kernel, worker, "let-go");
  return ask(kernel);
}

/* ---- memory */

int sb_open_mem(struct sb_kernel *kernel, unsigned worker, uint32_t pid) {
  add_format(request_of(kernel, worker, "open-mem "), "%" PRIu32, pid);
  return ask_result(kernel);
}

/* Reads bytes in hexadecimal, `-` for none, and answers how many there are. */
static ssize_t read_hex(const char *digits, unsigned char *buffer, size_t size) {
  if (strcmp(digits, "-") == 0)
    return 0;
  size_t count = 0;
  for (; digits[2 * count] != '\0'; count++) {
    int high = digit_of(digits[2 * count]), low = high < 0 ? -1 : digit_of(digits[2 * count + 1]);
    if (low < 0 || count == size)
      return -EPROTO;
    buffer[count] = (unsigned char)(16 * high + low);
  }
  return (ssize_t)count;
}

ssize_t sb_pread(struct sb_kernel *kernel, unsigned worker, void *buffer, size_t count, uint64_t address) {
  if (buffer == NULL && count > 0)
    return -EFAULT;
  count = count < SB_MOST_READ ? count : SB_MOST_READ;
  add_format(request_of(kernel, worker, "read "), "%" PRIu64 " %zu", address, count);
  int error = ask(kernel);
  if (error != 0)
    return error;
  const char *word = last_word(kernel->answer.bytes), *digits = behind(word, "bytes=");
  return digits == NULL ? error_named(word) : read_hex(digits, buffer, count);
}

int sb_write_sysinfo(struct sb_kernel *kernel, unsigned worker, uint64_t address, const struct sysinfo *info) {
  if (info == NULL)
    return -EFAULT;
  add_format(request_of(kernel, worker, "plant "), "%" PRIu64 " ", address);
  add_hex(&kernel->request, info, sizeof *info);
  return ask_result(kernel);
}

/* ---- what is done in the container's tree */

int sb_open_dir(struct sb_kernel *kernel, unsigned worker, uint32_t pid, int dirfd) {
  add_format(request_of(kernel, worker, "open-base "), "%" PRIu32 " %d", pid, dirfd);
  return ask_result(kernel);
}

int sb_mknodat(struct sb_kernel *kernel, unsigned worker, int dirfd, const char *path, mode_t mode, uint64_t device) {
  if (path == NULL)
    return -EFAULT;
  if (dirfd == AT_FDCWD)
    request_of(kernel, worker, "act mknod");
  else
    add_format(request_of(kernel, worker, "act mknodat "), "%d", dirfd);
  add_string(&kernel->request, path);
  add_format(&kernel->request, " %u %" PRIu64, (unsigned)mode, device);
  return ask_result(kernel);
}

int sb_mount(struct sb_kernel *kernel, unsigned worker, const char *source, const char *target, const char *type, uint64_t flags, const char *data,
             const struct sb_mount_options *options) {
  if (target == NULL)
    return -EFAULT;
  struct text *asked = request_of(kernel, worker, "act mount");
  add_string(asked, source);
  add_string(asked, target);
  add_string(asked, type);
  add_format(asked, " %" PRIu64, flags);
  add_string(asked, data);
  if (options != NULL && options->via != NULL) {
    add_format(asked, " via");
    add_string(asked, options->via);
  }
  if (options != NULL && options->shift)
    add_format(asked, " shift");
  return ask_result(kernel);
}

int sb_setxattr(struct sb_kernel *kernel, unsigned worker, const char *path, const char *name, const void *value, size_t size, int flags) {
  if (path == NULL || name == NULL || (value == NULL && size > 0))
    return -EFAULT;
  struct text *asked = request_of(kernel, worker, "act setxattr");
  add_string(asked, path);
  add_string(asked, name);
  add_quoted(asked, value, size);
  add_format(asked, " %" PRIu32, (uint32_t)flags);
  return ask_result(kernel);
}

_Static_assert(sizeof(struct seccomp_notif) == 80 && sizeof(struct seccomp_notif_resp) == 24 && sizeof(struct seccomp_notif_addfd) == 24,
               "the structures are those of seccomp_unotify(2)");
_Static_assert(sizeof(struct sysinfo) == 112, "the structure is that of sysinfo(2) on x86-64");
