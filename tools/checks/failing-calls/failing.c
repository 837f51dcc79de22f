/*
 * Stands before a program's own calls of the C library (LD_PRELOAD), and makes one of them fail, or each from one on.
 * tools/checks/every-allocation and tools/checks/failing-threads build it.
 *
 *   FAIL_ALLOC=N   the N-th call of malloc or realloc finds no memory
 *   FAIL_IO=N      the N-th call of open, read or write fails with EIO
 *   SHORT_IO=N     the N-th read or write of several bytes moves one
 *   FAIL_THREAD=N  the N-th call of pthread_create fails with EAGAIN
 *   FAIL_THREADS_FROM=N   the N-th call of pthread_create and all later ones do
 *   COUNTS=FILE    at the end, how many calls of each kind there were is written to this file: four numbers
 *
 * Calls are counted from 1 and by all threads together, from when the loader hands over to the program.
 */
#define _GNU_SOURCE
#include <dlfcn.h>
#include <errno.h>
#include <fcntl.h>
#include <pthread.h>
#include <stdarg.h>
#include <stdbool.h>
#include <stddef.h>
#include <stdio.h>
#include <stdlib.h>
#include <sys/syscall.h>
#include <unistd.h>

void *__libc_malloc(size_t size);
void *__libc_realloc(void *block, size_t size);

static unsigned long allocations, calls, several, threads;
static unsigned long failing_allocation, failing_call, short_call, failing_thread, failing_threads_from;
static bool counts;

static unsigned long number_named(const char *name) {
  const char *text = getenv(name);
  return text == NULL ? 0 : strtoul(text, NULL, 10);
}

__attribute__((constructor)) static void begin(void) {
  failing_allocation = number_named("FAIL_ALLOC");
  failing_call = number_named("FAIL_IO");
  short_call = number_named("SHORT_IO");
  failing_thread = number_named("FAIL_THREAD");
  failing_threads_from = number_named("FAIL_THREADS_FROM");
  counts = true;
}

/* Whether this call, the next one of those counted there, is the one that fails. */
static bool is_next(unsigned long *counted, unsigned long failing) {
  return counts && __atomic_add_fetch(counted, 1, __ATOMIC_RELAXED) == failing;
}

void *malloc(size_t size) {
  if (is_next(&allocations, failing_allocation)) {
    errno = ENOMEM;
    return NULL;
  }
  return __libc_malloc(size);
}

void *realloc(void *block, size_t size) {
  if (is_next(&allocations, failing_allocation)) {
    errno = ENOMEM;
    return NULL;
  }
  return __libc_realloc(block, size);
}

static bool fails(void) {
  if (!is_next(&calls, failing_call))
    return false;
  errno = EIO;
  return true;
}

/* How many of these bytes a call moves. */
static size_t moved(size_t size) {
  return size > 1 && is_next(&several, short_call) ? 1 : size;
}

int open(const char *name, int flags, ...) {
  static int (*next)(const char *, int, ...);
  va_list more;
  va_start(more, flags);
  mode_t mode = flags & O_CREAT ? va_arg(more, mode_t) : 0;
  va_end(more);
  if (next == NULL)
    next = (int (*)(const char *, int, ...))dlsym(RTLD_NEXT, "open");
  return fails() ? -1 : next(name, flags, mode);
}

ssize_t read(int file, void *bytes, size_t size) {
  static ssize_t (*next)(int, void *, size_t);
  if (next == NULL)
    next = (ssize_t(*)(int, void *, size_t))dlsym(RTLD_NEXT, "read");
  return fails() ? -1 : next(file, bytes, moved(size));
}

ssize_t write(int file, const void *bytes, size_t size) {
  static ssize_t (*next)(int, const void *, size_t);
  if (next == NULL)
    next = (ssize_t(*)(int, const void *, size_t))dlsym(RTLD_NEXT, "write");
  return fails() ? -1 : next(file, bytes, moved(size));
}

/* Whether this creation of a thread is one of those that fail. */
static bool is_refused(void) {
  if (!counts)
    return false;
  unsigned long number = __atomic_add_fetch(&threads, 1, __ATOMIC_RELAXED);
  return number == failing_thread || (failing_threads_from != 0 && number >= failing_threads_from);
}

int pthread_create(pthread_t *thread, const pthread_attr_t *attributes, void *(*start)(void *), void *argument) {
  static int (*next)(pthread_t *, const pthread_attr_t *, void *(*)(void *), void *);
  if (next == NULL)
    next = (int (*)(pthread_t *, const pthread_attr_t *, void *(*)(void *), void *))dlsym(RTLD_NEXT, "pthread_create");
  return is_refused() ? EAGAIN : next(thread, attributes, start, argument);
}

__attribute__((destructor)) static void tell(void) {
  const char *name = getenv("COUNTS");
  counts = false;
  FILE *file = name == NULL ? NULL : fopen(name, "w");
  if (file != NULL) {
    fprintf(file, "%lu %lu %lu %lu\n", allocations, calls, several, threads);
    fclose(file);
  }
}

/* A program that may start threads ends by this call, which runs no destructor. */
void _exit(int status) {
  tell();
  syscall(SYS_exit_group, status);
  __builtin_unreachable();
}
