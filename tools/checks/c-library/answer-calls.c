/*
 * Reads calls from standard input, makes each through the library, and writes what it answered to standard output, until the input
 * ends. tools/checks/fuzz-c-library builds it with the address sanitizer, and speaks with it.
 *
 * Each buffer lies at the end of its own pages, with a page behind it that can't be touched. So a byte that is read or written past a
 * buffer ends the program, also by code that no sanitizer looks at. A buffer of 0 bytes is NULL. The calls are made on a thread with
 * little stack.
 */
#include <seccomp_broker.h>

#include <pthread.h>
#include <stdio.h>
#include <stdlib.h>
#include <string.h>
#include <sys/mman.h>
#include <unistd.h>

/* What stands in a buffer before a call, and how much stack the calls have. */
enum { UNTOUCHED = 0xa5, STACK = 256 << 10 };

/* Which function is called. */
enum function { PLAY, STRESS, AUDIT_CHECK, HANDOVER, EXPLORE, JUDGE };

/* A call as it is read, before the bytes of the policy, the script and the report. Of HANDOVER the count is that of the steps after
 * which a worker is replaced; of EXPLORE `from` is the last worker, and the count that of the delays. */
struct call {
  uint64_t function, from, count, policy_length, script_length, report_length, room, out_size, line_size;
};

/* What is written of an answer, before the bytes of both buffers. */
struct answer {
  uint64_t status, out_length, line_length;
};

/* A buffer, with all the pages that it takes. */
struct buffer {
  unsigned char *bytes, *pages;
  size_t size, all;
};

static void die(const char *why) {
  fprintf(stderr, "answer-calls: %s\n", why);
  exit(1);
}

static struct buffer made(size_t size) {
  struct buffer buffer = {NULL, NULL, size, 0};
  if (size == 0)
    return buffer;
  size_t page = (size_t)sysconf(_SC_PAGESIZE), whole = (size + page - 1) / page * page;
  buffer.all = whole + page;
  buffer.pages = mmap(NULL, buffer.all, PROT_READ | PROT_WRITE, MAP_PRIVATE | MAP_ANONYMOUS, -1, 0);
  if (buffer.pages == MAP_FAILED || mprotect(buffer.pages + whole, page, PROT_NONE) != 0)
    die("no memory");
  buffer.bytes = buffer.pages + whole - size;
  memset(buffer.bytes, UNTOUCHED, size);
  return buffer;
}

static void unmade(struct buffer buffer) {
  if (buffer.pages != NULL && munmap(buffer.pages, buffer.all) != 0)
    die("a buffer can't be given back");
}

/* The next bytes of the input, which can be read alone. */
static struct buffer read_bytes(size_t size) {
  struct buffer buffer = made(size);
  if (size == 0)
    return buffer;
  if (fread(buffer.bytes, 1, size, stdin) != size)
    die("the input ended within a call");
  if (mprotect(buffer.pages, buffer.all - (size_t)sysconf(_SC_PAGESIZE), PROT_READ) != 0)
    die("a buffer can't be protected");
  return buffer;
}

/* Sees that nothing but the front of a buffer was written, and writes that front. */
static void write_front(struct buffer buffer, size_t length) {
  size_t front = length < buffer.size ? length : buffer.size;
  for (size_t at = front; at < buffer.size; at++)
    if (buffer.bytes[at] != UNTOUCHED)
      die("a byte behind the text was written");
  if (front > 0)
    fwrite(buffer.bytes, 1, front, stdout);
}

static enum broker_status made_call(struct call call, struct buffer policy, struct buffer script, struct buffer report, struct buffer out,
                                    struct buffer line, size_t *out_length, size_t *line_length) {
  switch (call.function) {
  case PLAY:
    return broker_play(policy.bytes, policy.size, script.bytes, script.size, call.room, out.bytes, out.size, out_length, line.bytes, line.size,
                       line_length);
  case STRESS:
    return broker_stress(call.from, (uint32_t)call.count, call.room, out.bytes, out.size, out_length, line.bytes, line.size, line_length);
  case HANDOVER:
    return broker_handover(policy.bytes, policy.size, script.bytes, script.size, (uint32_t)call.count, call.room, out.bytes, out.size, out_length,
                           line.bytes, line.size, line_length);
  case EXPLORE:
    return broker_explore(policy.bytes, policy.size, script.bytes, script.size, (uint32_t)call.from, (uint32_t)call.count, call.room, out.bytes,
                          out.size, out_length, line.bytes, line.size, line_length);
  case JUDGE:
    return broker_judge(policy.bytes, policy.size, script.bytes, script.size, call.room, out.bytes, out.size, out_length, line.bytes, line.size,
                        line_length);
  default:
    return broker_audit_check(policy.bytes, policy.size, script.bytes, script.size, report.bytes, report.size, call.room, out.bytes, out.size,
                              out_length, line.bytes, line.size, line_length);
  }
}

static void answer(struct call call) {
  struct buffer policy = read_bytes(call.policy_length), script = read_bytes(call.script_length), report = read_bytes(call.report_length);
  struct buffer out = made(call.out_size), line = made(call.line_size);
  size_t out_length = SIZE_MAX, line_length = SIZE_MAX;
  enum broker_status status = made_call(call, policy, script, report, out, line, &out_length, &line_length);
  struct answer told = {status, out_length, line_length};
  fwrite(&told, sizeof told, 1, stdout);
  write_front(out, out_length);
  write_front(line, line_length);
  fflush(stdout);
  unmade(policy);
  unmade(script);
  unmade(report);
  unmade(out);
  unmade(line);
}

static void *answer_all(void *nothing) {
  struct call call;
  while (fread(&call, sizeof call, 1, stdin) == 1)
    answer(call);
  return nothing;
}

int main(void) {
  pthread_attr_t attributes;
  pthread_t thread;
  pthread_attr_init(&attributes);
  if (pthread_attr_setstacksize(&attributes, STACK) != 0 || pthread_create(&thread, &attributes, answer_all, NULL) != 0 || pthread_join(thread, NULL) != 0)
    die("no thread");
  return 0;
}
