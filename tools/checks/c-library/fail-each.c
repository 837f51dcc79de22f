/*
 * Makes one call of the library again and again, each time with another one of its allocations failing, and tells what came of them.
 * It is linked with --wrap for malloc, realloc and free, so that it counts their calls and fails one. tools/checks/every-allocation builds it.
 *
 *     fail-each POLICY SCRIPT       a play of these files
 *     fail-each stress FROM COUNT   generated calls
 *
 * A call is at fault where it answers anything but no memory, with a beginning of the report, or the whole report; and where it
 * leaves a block of memory that wasn't there before.
 */
#include <seccomp_broker.h>

#include <stdbool.h>
#include <stdio.h>
#include <stdlib.h>
#include <string.h>

static unsigned char policy[1 << 20], script[8 << 20], whole[1 << 20], out[1 << 20], line[4096];
static size_t policy_length, script_length, whole_length, out_length, line_length;
static bool is_generated;
static uint64_t from;
static uint32_t count;

static void die(const char *why) {
  fprintf(stderr, "fail-each: %s\n", why);
  exit(1);
}

static size_t read_file(const char *name, unsigned char *into, size_t size) {
  FILE *file = fopen(name, "rb");
  if (file == NULL)
    die("a file can't be opened");
  size_t length = fread(into, 1, size, file);
  fclose(file);
  return length;
}

/* ---- the heap: how many blocks are out, how many were asked for in this call, and which of them fails */

static size_t blocks, asked, failing;

void *__real_malloc(size_t size);
void *__real_realloc(void *block, size_t size);
void __real_free(void *block);
void *__wrap_malloc(size_t size);
void *__wrap_realloc(void *block, size_t size);
void __wrap_free(void *block);

void *__wrap_malloc(size_t size) {
  if (++asked == failing)
    return NULL;
  void *block = __real_malloc(size);
  blocks += block != NULL;
  return block;
}

void *__wrap_realloc(void *block, size_t size) {
  if (++asked == failing)
    return NULL;
  void *moved = __real_realloc(block, size);
  blocks += block == NULL && moved != NULL;
  return moved;
}

void __wrap_free(void *block) {
  blocks -= block != NULL;
  __real_free(block);
}

/* ---- calls */

static enum broker_status call(void) {
  asked = 0;
  if (is_generated)
    return broker_stress(from, count, BROKER_ROOM_LIMIT, out, sizeof out, &out_length, line, sizeof line, &line_length);
  return broker_play(policy, policy_length, script, script_length, BROKER_ROOM_LIMIT, out, sizeof out, &out_length, line, sizeof line, &line_length);
}

static bool line_is(const char *text) { return line_length == strlen(text) && memcmp(line, text, line_length) == 0; }

/* Whether an answer is one of the two that may come. */
static bool is_good(enum broker_status status) {
  if (out_length > sizeof out || memcmp(out, whole, out_length) != 0)
    return false;
  if (status == BROKER_DONE)
    return out_length == whole_length && line_is("");
  return status == BROKER_NO_MEMORY && out_length < whole_length && line_is("no memory\n");
}

int main(int words, char **word) {
  if (words == 4 && strcmp(word[1], "stress") == 0) {
    is_generated = true;
    from = strtoull(word[2], NULL, 10);
    count = (uint32_t)strtoul(word[3], NULL, 10);
  } else if (words == 3) {
    policy_length = read_file(word[1], policy, sizeof policy);
    script_length = read_file(word[2], script, sizeof script);
  } else {
    die("POLICY SCRIPT, or stress FROM COUNT");
  }
  if (call() != BROKER_DONE)
    die("the call gives no report");
  whole_length = out_length;
  memcpy(whole, out, whole_length);
  size_t all = asked, before = blocks, done = 0, refused = 0, faults = 0, left = 0;
  for (failing = 1; failing <= all; failing++) {
    enum broker_status status = call();
    bool good = is_good(status);
    done += good && status == BROKER_DONE;
    refused += good && status == BROKER_NO_MEMORY;
    faults += !good;
    left += blocks - before;
    before = blocks;
    if (!good)
      printf("allocation %zu: status %d, %zu bytes, a line of %zu\n", failing, (int)status, out_length, line_length);
  }
  printf("%zu allocations that fail, each: %zu with status 0, %zu with status 7; %zu at fault; %zu blocks not given back\n", all, done, refused, faults, left);
  return faults > 0 || left > 0;
}
