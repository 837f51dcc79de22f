/*
 * Measures calls of the library on a policy's and a script's files, plays first and then checks of their report: how long one takes,
 * how much of the heap and of a stack it takes, and whether memory grows over many. It is linked with --wrap for malloc, realloc and free, so that their calls are counted.
 *
 *     measure POLICY SCRIPT CALLS
 */
#include <seccomp_broker.h>

#include <malloc.h>
#include <pthread.h>
#include <stdbool.h>
#include <stdio.h>
#include <stdlib.h>
#include <string.h>
#include <sys/mman.h>
#include <sys/resource.h>
#include <time.h>

enum { BATCH = 1000, STACK = 8 << 20, UNTOUCHED = 0xa5 };

static unsigned char policy[1 << 20], script[8 << 20], report[1 << 20], out[1 << 20], line[4096];
static size_t policy_length, script_length, report_length, out_length, line_length;

static void die(const char *why) {
  fprintf(stderr, "measure: %s\n", why);
  exit(1);
}

static size_t read_file(const char *name, unsigned char *into, size_t size) {
  FILE *file = fopen(name, "rb");
  if (file == NULL)
    die("a file can't be opened");
  size_t length = fread(into, 1, size, file);
  fclose(file);
  return length;
}

static void play(void) {
  if (broker_play(policy, policy_length, script, script_length, BROKER_ROOM_LIMIT, report, sizeof report, &report_length, line, sizeof line, &line_length) !=
      BROKER_DONE)
    die("a call gave no report");
}

static void check(void) {
  if (broker_audit_check(policy, policy_length, script, script_length, report, report_length, BROKER_ROOM_LIMIT, out, sizeof out, &out_length, line, sizeof line,
                         &line_length) != BROKER_DONE)
    die("a call took the report of a play for none");
}

/* The call that is measured. */
static void (*call)(void);

/* ---- the heap: how many blocks are out, and how many bytes of them there were at most while they were weighed */

static size_t blocks, bytes, most_bytes, taken;
static bool weighing;

void *__real_malloc(size_t size);
void *__real_realloc(void *block, size_t size);
void __real_free(void *block);
void *__wrap_malloc(size_t size);
void *__wrap_realloc(void *block, size_t size);
void __wrap_free(void *block);

static void *counted(void *block) {
  if (block != NULL) {
    blocks++;
    taken++;
    if (weighing)
      bytes += malloc_usable_size(block);
    if (bytes > most_bytes)
      most_bytes = bytes;
  }
  return block;
}

static void uncounted(void *block) {
  if (block != NULL) {
    blocks--;
    if (weighing)
      bytes -= malloc_usable_size(block);
  }
}

void *__wrap_malloc(size_t size) { return counted(__real_malloc(size)); }

void *__wrap_realloc(void *block, size_t size) {
  uncounted(block);
  return counted(__real_realloc(block, size));
}

void __wrap_free(void *block) {
  uncounted(block);
  __real_free(block);
}

/* ---- time */

/* The microseconds of the processor that one call takes, over a batch. */
static double batch(void) {
  struct timespec begun, ended;
  clock_gettime(CLOCK_PROCESS_CPUTIME_ID, &begun);
  for (int at = 0; at < BATCH; at++)
    call();
  clock_gettime(CLOCK_PROCESS_CPUTIME_ID, &ended);
  return ((double)(ended.tv_sec - begun.tv_sec) * 1e9 + (double)(ended.tv_nsec - begun.tv_nsec)) / 1e3 / BATCH;
}

static long resident(void) {
  struct rusage usage;
  getrusage(RUSAGE_SELF, &usage);
  return usage.ru_maxrss;
}

static int ascending(const void *a, const void *b) {
  double x = *(const double *)a, y = *(const double *)b;
  return (x > y) - (x < y);
}

static void *one_call(void *nothing) {
  call();
  return nothing;
}

/* How many bytes of a thread's stack a call takes, with what the thread itself takes. */
static size_t stack_taken(void) {
  unsigned char *stack = mmap(NULL, STACK, PROT_READ | PROT_WRITE, MAP_PRIVATE | MAP_ANONYMOUS, -1, 0);
  pthread_attr_t attributes;
  pthread_t thread;
  if (stack == MAP_FAILED)
    die("no memory");
  memset(stack, UNTOUCHED, STACK);
  pthread_attr_init(&attributes);
  pthread_attr_setstack(&attributes, stack, STACK);
  if (pthread_create(&thread, &attributes, one_call, NULL) != 0 || pthread_join(thread, NULL) != 0)
    die("no thread");
  size_t untouched = 0;
  while (untouched < STACK && stack[untouched] == UNTOUCHED)
    untouched++;
  munmap(stack, STACK);
  return STACK - untouched;
}

/* Measures calls of one kind, and says whether memory grew. */
static bool measure(void (*measured)(void), const char *name, size_t batches) {
  static double times[1000];
  call = measured;
  batch();
  bytes = most_bytes = 0;
  weighing = true;
  call();
  weighing = false;
  size_t blocks_before = blocks;
  long before = resident();
  taken = 0;
  for (size_t at = 0; at < batches; at++)
    times[at] = batch();
  long after = resident();
  qsort(times, batches, sizeof *times, ascending);
  printf("%s takes %.1f microseconds of the processor at best, %.1f in the middle of %zu batches of %d\n", name, times[0], times[batches / 2], batches, BATCH);
  printf("%s takes %zu blocks of the heap, and %zu bytes of it at most\n", name, taken / (batches * BATCH), most_bytes);
  printf("blocks not given back: %zu before %zu calls, %zu after\n", blocks_before, batches * BATCH, blocks);
  printf("greatest resident memory: %ld kB before, %ld kB after\n", before, after);
  printf("stack of a thread in which %s is made: %zu bytes\n", name, stack_taken());
  return after > before || blocks > blocks_before;
}

int main(int count, char **words) {
  size_t batches = count == 4 ? (size_t)atoi(words[3]) / BATCH : 0;
  if (batches < 1 || batches > 1000)
    die("measure POLICY SCRIPT CALLS, of which there are 1000 to 1,000,000");
  policy_length = read_file(words[1], policy, sizeof policy);
  script_length = read_file(words[2], script, sizeof script);
  play();
  printf("a report of %zu bytes\n", report_length);
  bool grows = measure(play, "a play", batches);
  return measure(check, "a check", batches) || grows;
}
