/* memory.c - a task's memory, which is read, and into which a struct sysinfo is written; see answers.h */
#define _GNU_SOURCE
#include "answers.h"
#include "broker.h"
#include "descriptors.h"
#include "places.h"
#include "telling.h"
#include "tree.h"

#include <errno.h>
#include <stdio.h>
#include <string.h>
#include <sys/sysinfo.h>
#include <sys/uio.h>

enum { MOST_PARTS = 1024 };

/* A seat keeps one memory, which is the last one that was opened for its notification. */
static void test_opening(const char *call, const struct handle *handle) {
  if (!is_last_opening(handle->seat, A_MEMORY, handle->opening))
    tell(call, "of another memory than the one that was opened last for the notification");
}

static long read_memory(struct handle *handle, void *to, size_t count, uint64_t address) {
  char part[SB_MOST_READ];
  if (handle->kind != MEMORY || handle->seat == SB_MOST_WORKERS)
    tell("read", handle->kind == MEMORY ? "of a memory whose notification was let go of" : "of a folder");
  test_opening("read", handle);
  connect_once("read");
  ssize_t given = sb_pread(kernel, handle->seat, part, count < sizeof part ? count : sizeof part, address);
  /* (what isn't mapped is EIO to a read of /proc/PID/mem) */
  if (given < 0)
    return given == -EFAULT ? -EIO : result_of((int)given);
  return copy_out(to, part, (size_t)given) != 0 ? -EFAULT : given;
}

/* The parts of a call that reads into several places, or writes from them: how many, or a negated error. */
static long copy_parts(struct iovec parts[MOST_PARTS], const void *given, long count) {
  if (count < 0 || count > MOST_PARTS)
    return -EINVAL;
  return copy_in(parts, given, (size_t)count * sizeof *parts) != 0 ? -EFAULT : count;
}

static long read_parts(struct handle *handle, const struct iovec *parts, long count, bool has_place, uint64_t place) {
  long all = 0;
  for (long at = 0; at < count; at++) {
    if (parts[at].iov_len == 0)
      continue;
    long given = read_memory(handle, parts[at].iov_base, parts[at].iov_len, has_place ? place + (uint64_t)all : handle->offset);
    if (given < 0)
      return all > 0 ? all : given;
    if (!has_place)
      handle->offset += (uint64_t)given;
    all += given;
    if ((size_t)given < parts[at].iov_len)
      break;
  }
  return all;
}

/* The one part of read(2) and write(2), or the parts of readv(2) and its like. */
static long parts_of(struct call *call, struct iovec parts[MOST_PARTS]) {
  bool is_one = call->number == SYS_read || call->number == SYS_pread64 || call->number == SYS_write || call->number == SYS_pwrite64;
  if (!is_one)
    return copy_parts(parts, (void *)call->a[1], call->a[2]);
  parts[0] = (struct iovec){(void *)call->a[1], (size_t)call->a[2]};
  return 1;
}

bool answer_read(struct call *call) {
  struct iovec parts[MOST_PARTS];
  struct handle *handle = handle_of((int)call->a[0]);
  if (handle == NULL) {
    test_descriptor(call->name, (int)call->a[0]);
    return false;
  }
  if (handle->kind != MEMORY)
    test_descriptor(call->name, (int)call->a[0]);
  long count = parts_of(call, parts);
  if (count < 0)
    return give(call, count);
  bool has_place = call->number != SYS_read && call->number != SYS_readv && !(call->number == SYS_preadv2 && call->a[3] == -1);
  if (count == 1 && parts[0].iov_len == 0)
    return give(call, read_memory(handle, parts[0].iov_base, 0, has_place ? (uint64_t)call->a[3] : handle->offset));
  return give(call, read_parts(handle, parts, count, has_place, (uint64_t)call->a[3]));
}

bool answer_write(struct call *call) {
  struct iovec parts[MOST_PARTS];
  struct handle *handle = handle_of((int)call->a[0]);
  if (handle == NULL || handle->kind != MEMORY) {
    test_descriptor(call->name, (int)call->a[0]);
    return false;
  }
  long count = parts_of(call, parts);
  if (count < 0)
    return give(call, count);
  if (call->number == SYS_write || call->number == SYS_writev || (call->number == SYS_pwritev2 && call->a[3] == -1))
    tell(call->name, "to a caller's memory");
  struct sysinfo figures;
  size_t used = 0;
  for (long at = 0; at < count; used += parts[at++].iov_len)
    if (parts[at].iov_len > sizeof figures - used || copy_in((char *)&figures + used, parts[at].iov_base, parts[at].iov_len) != 0)
      tell(call->name, "of anything but a struct sysinfo to a caller's memory");
  if (used != sizeof figures || handle->seat == SB_MOST_WORKERS)
    tell(call->name, "of anything but a struct sysinfo to a caller's memory");
  test_opening(call->name, handle);
  connect_once(call->name);
  int error = sb_write_sysinfo(kernel, handle->seat, (uint64_t)call->a[3], &figures);
  return give(call, error == 0 ? (long)used : error == -EFAULT ? -EIO : result_of(error));
}

bool answer_seek(struct call *call) {
  struct handle *handle = handle_of((int)call->a[0]);
  if (handle == NULL || (handle->kind != MEMORY && handle->kind != THREADS)) {
    test_descriptor(call->name, (int)call->a[0]);
    return false;
  }
  if (call->a[2] != SEEK_SET && call->a[2] != SEEK_CUR)
    tell(call->name, handle->kind == MEMORY ? "to the end of a memory" : "to the end of a folder");
  handle->offset = (call->a[2] == SEEK_CUR ? handle->offset : 0) + (uint64_t)call->a[1];
  return give(call, (long)handle->offset);
}

/* ---- process_vm_readv(2): the memory of whichever task has the PID, which is opened for that */

/* The parts that are read from, and those that are read into, with how much of the first of each is done. */
struct course {
  const struct iovec *from, *end_of_from, *to, *end_of_to;
  size_t read, filled;
};

/* The next bytes that stand together on both sides: how many, 0 at the end. */
static size_t next_piece(struct course *course) {
  while (course->from < course->end_of_from && course->read == course->from->iov_len) {
    course->from++;
    course->read = 0;
  }
  while (course->to < course->end_of_to && course->filled == course->to->iov_len) {
    course->to++;
    course->filled = 0;
  }
  if (course->from == course->end_of_from || course->to == course->end_of_to)
    return 0;
  size_t left = course->from->iov_len - course->read, room = course->to->iov_len - course->filled, most = left < room ? left : room;
  return most < SB_MOST_READ ? most : SB_MOST_READ;
}

static void advance(struct course *course, size_t count) {
  course->read += count;
  course->filled += count;
}

static unsigned count_pieces(struct course course) {
  unsigned count = 0;
  for (size_t piece; (piece = next_piece(&course)) > 0; count++)
    advance(&course, piece);
  return count;
}

/* Reads up to what isn't mapped: how much was read, or a negated error. */
static long read_pieces(struct handle *handle, struct course course) {
  long all = 0;
  for (size_t piece; (piece = next_piece(&course)) > 0;) {
    long given = read_memory(handle, (char *)course.to->iov_base + course.filled, piece, (uint64_t)(uintptr_t)course.from->iov_base + course.read);
    if (given > 0)
      all += given;
    if (given < (long)piece) {
      /* (no more is asked in this turn) */
      hold(0);
      return all > 0 ? all : given == -EIO ? -EFAULT : given;
    }
    advance(&course, piece);
  }
  return all;
}

bool answer_vm_read(struct call *call) {
  struct iovec local[MOST_PARTS], remote[MOST_PARTS];
  uint32_t pid = (uint32_t)call->a[0];
  if (is_own((int)pid))
    return false;
  long locals = copy_parts(local, (void *)call->a[1], call->a[2]), remotes = copy_parts(remote, (void *)call->a[3], call->a[4]);
  if (locals < 0 || remotes < 0 || call->a[5] != 0)
    return give(call, locals < 0 ? locals : remotes < 0 ? remotes : -EINVAL);
  struct course course = {remote, remote + remotes, local, local + locals, 0, 0};
  unsigned pieces = count_pieces(course);
  if (pieces == 0)
    return give(call, 0);
  connect_once(call->name);
  unsigned seat = seat_of_pid(pid, call->name, "/proc/PID/mem");
  hold(1 + pieces);
  int error = sb_open_mem(kernel, seat, pid);
  if (error != 0) {
    hold(0);
    return give(call, error == -ESRCH ? (result_of_opening(seat, error), -ESRCH) : result_of(error));
  }
  struct handle handle = {.kind = MEMORY, .seat = seat, .opening = note_opening(seat, A_MEMORY)};
  return give(call, read_pieces(&handle, course));
}
