/* descriptors.c - see descriptors.h */
#define _GNU_SOURCE
#include "descriptors.h"
#include "gate.h"
#include "telling.h"

#include <errno.h>
#include <fcntl.h>
#include <stdio.h>
#include <stdlib.h>
#include <string.h>
#include <sys/mman.h>
#include <sys/stat.h>
#include <unistd.h>

enum { MOST_HANDLES = 4096, HIGH = 900, MOST_NAMED = 64 };

/* What a memory file has to be called that stands for the listener: proc(5), /proc/PID/fd. */
static const char listener_name[] = "seccomp notify", standin_name[] = "seccomp-broker-standin";

static struct handle handles[MOST_HANDLES];
/* above which no descriptor ever stood for something */
static int highest;
static int gone_file = -1, gone_folder = -1;
static bool has_messages;
static char temporary[PATH_MAX / 2];

/* The script's lines `broker N`: the numbers, and the files that --broker-fd says they are, or NULL. */
static struct {
  unsigned number;
  const char *path;
} named[MOST_NAMED];
static unsigned names;

/* ---- what a descriptor stands for */

long link_of(int fd, char *found, size_t size) {
  char name[64];
  snprintf(name, sizeof name, "/proc/self/fd/%d", fd);
  long length = made(SYS_readlink, name, found, size - 1);
  if (length >= 0)
    found[length] = '\0';
  return length;
}

/* Whether a descriptor is the memory file that stands for the listener. */
static bool has_listener_name(int fd) {
  char target[64], wanted[64];
  snprintf(wanted, sizeof wanted, "/memfd:%s (deleted)", listener_name);
  return link_of(fd, target, sizeof target) > 0 && strcmp(target, wanted) == 0;
}

static void stand_for(int fd, struct handle handle) {
  if (fd >= MOST_HANDLES)
    tell("open", "with so many descriptors");
  if (fd > highest)
    highest = fd;
  handles[fd] = handle;
}

enum kind kind_of(int fd) {
  if (fd < 0 || fd >= MOST_HANDLES)
    return NOTHING;
  if (handles[fd].kind == NOTHING && has_messages && has_listener_name(fd))
    stand_for(fd, (struct handle){.kind = LISTENER});
  return handles[fd].kind;
}

bool is_standin(int fd) { return kind_of(fd) != NOTHING; }

struct handle *handle_of(int fd) { return kind_of(fd) == NOTHING || kind_of(fd) == LISTENER ? NULL : &handles[fd]; }

void note_message(void) { has_messages = true; }

long note_copied(int from, long to) {
  if (to < 0 || to >= MOST_HANDLES || from == to)
    return to;
  if (kind_of(from) != NOTHING)
    stand_for((int)to, handles[from]);
  else if (to <= highest)
    handles[to].kind = NOTHING;
  return to;
}

void note_closed(unsigned first, unsigned last) {
  for (unsigned at = first; at <= last && at <= (unsigned)highest; at++)
    handles[at].kind = NOTHING;
}

void forget_seat(unsigned seat) {
  for (int fd = 0; fd <= highest; fd++)
    if (handles[fd].kind != NOTHING && handles[fd].kind != LISTENER && handles[fd].seat == seat)
      handles[fd].seat = SB_MOST_WORKERS;
}

/* ---- descriptors that are made */

/* A file and a folder that are gone, which are open so that they can't be read or changed. They have high numbers, so that the broker's own are as they would be. */
static void make_gone(void) {
  char place[PATH_MAX], file[PATH_MAX + 8];
  snprintf(place, sizeof place, "%s/%s-%ld", temporary, standin_name, made(SYS_getpid));
  snprintf(file, sizeof file, "%s/file", place);
  made(SYS_mkdir, place, 0700);
  long written = made(SYS_openat, AT_FDCWD, file, O_CREAT | O_RDWR | O_CLOEXEC, 0600);
  long path = made(SYS_openat, AT_FDCWD, file, O_PATH | O_CLOEXEC), at = made(SYS_openat, AT_FDCWD, place, O_PATH | O_DIRECTORY | O_CLOEXEC);
  made(SYS_unlink, file);
  made(SYS_rmdir, place);
  gone_file = (int)made(SYS_fcntl, path, F_DUPFD_CLOEXEC, HIGH);
  gone_folder = (int)made(SYS_fcntl, at, F_DUPFD_CLOEXEC, HIGH);
  for (long made_here[] = {written, path, at}, *fd = made_here; fd < made_here + 3; fd++)
    made(SYS_close, *fd);
  if (gone_file < 0 || gone_folder < 0)
    tell("open", "of a file in TMPDIR, which the library needs");
}

static bool is_folder(const struct handle *handle) {
  return handle->kind == ROOT || handle->kind == DIRECTORY || handle->kind == PROC_FOLDER || handle->kind == THREADS || (handle->kind == NODE && handle->node.kind == S_IFDIR);
}

long handle_for(struct handle handle, int flags) {
  if (gone_file < 0 || kind_of(gone_file) != NOTHING || made(SYS_fcntl, gone_file, F_GETFD) < 0)
    make_gone();
  long fd = made(SYS_fcntl, is_folder(&handle) ? gone_folder : gone_file, (flags & O_CLOEXEC) != 0 ? F_DUPFD_CLOEXEC : F_DUPFD, 0);
  if (fd < 0)
    return fd;
  handle.flags = flags;
  stand_for((int)fd, handle);
  return fd;
}

long make_listener(void) {
  long fd = made(SYS_memfd_create, listener_name, MFD_CLOEXEC);
  if (fd >= 0)
    stand_for((int)fd, (struct handle){.kind = LISTENER});
  return fd;
}

/* What this program has inherited of a broker that started it, by the names of the files. */
static void mark_inherited(void) {
  char target[PATH_MAX];
  for (int fd = 3; fd < 256; fd++)
    if (link_of(fd, target, sizeof target) > 0 && (strstr(target, standin_name) != NULL || has_listener_name(fd)))
      stand_for(fd, (struct handle){.kind = INHERITED});
}

static void place_listener(const char *number) {
  long fd = made(SYS_memfd_create, listener_name, MFD_CLOEXEC), listener = atoi(number);
  if (fd < 0 || (fd != listener && made(SYS_dup2, fd, listener) != listener))
    tell("dup2", "to the listener's number");
  if (fd != listener)
    made(SYS_close, fd);
  stand_for((int)listener, (struct handle){.kind = LISTENER});
}

/* Reads `N` or `N=PATH`, with line ends between. */
static void read_names(char *text) {
  for (char *line = text, *next; line != NULL && *line != '\0' && names < MOST_NAMED; line = next) {
    next = strchr(line, '\n');
    if (next != NULL)
      *next++ = '\0';
    char *path = strchr(line, '=');
    named[names].number = (unsigned)strtoul(line, NULL, 10);
    named[names++].path = path == NULL ? NULL : path + 1;
  }
}

void begin_descriptors(void) {
  const char *number = getenv("SECCOMP_BROKER_LISTENER"), *of_script = getenv("SECCOMP_BROKER_FDS"), *folder = getenv("TMPDIR");
  snprintf(temporary, sizeof temporary, "%s", folder == NULL || *folder == '\0' ? "/tmp" : folder);
  if (getenv("SECCOMP_BROKER_HELPER") != NULL)
    mark_inherited();
  else if (number != NULL)
    place_listener(number);
  if (of_script != NULL)
    read_names(strdup(of_script));
}

/* ---- descriptors of the script */

uint32_t number_in_script(int fd) {
  char target[PATH_MAX];
  if (kind_of(fd) != NOTHING)
    tell("ioctl", "SECCOMP_IOCTL_NOTIF_ADDFD of a descriptor of a container's task");
  if (link_of(fd, target, sizeof target) < 0)
    return (uint32_t)fd;
  for (unsigned at = 0; at < names; at++)
    if (named[at].path != NULL && strcmp(named[at].path, target) == 0)
      return named[at].number;
  for (unsigned at = 0; at < names; at++)
    if (named[at].path == NULL && named[at].number == (unsigned)fd)
      return (uint32_t)fd;
  tell_of("ioctl", "SECCOMP_IOCTL_NOTIF_ADDFD of %d, %s: --broker-fd N=%s says that it is the script's descriptor N", fd, target, target);
}
