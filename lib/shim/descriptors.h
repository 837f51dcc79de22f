/* descriptors.h - what the broker's descriptors stand for: the listener, and what was opened of a container's task */
#ifndef SHIM_DESCRIPTORS_H
#define SHIM_DESCRIPTORS_H

#include "look.h"

#include <stdbool.h>
#include <stdint.h>

enum kind {
  NOTHING,
  LISTENER,
  /* /proc/PID/mem; its root; its working directory, or a folder that it has open */
  MEMORY,
  ROOT,
  DIRECTORY,
  /* /proc/PID itself, its folder of threads, a pidfd, and /proc/PID/ns/mnt */
  PROC_FOLDER,
  THREADS,
  PIDFD,
  NAMESPACE,
  /* what stands in the container's tree */
  NODE,
  /* what a program has inherited from the broker that started it */
  INHERITED,
};

/* What a descriptor stands for. It is an open file of the machine, too, by which nothing can be read or changed. */
struct handle {
  enum kind kind;
  unsigned seat;
  uint32_t pid;
  /* of a memory and a folder: the number of its opening; of a folder the task's descriptor, too; of a process: the key of the task */
  unsigned opening;
  int dirfd;
  uint64_t task;
  /* where the next read begins; and how it was opened */
  uint64_t offset;
  int flags;
  /* of a node */
  struct {
    uint32_t ordinal, kind, major, minor;
  } node;
};

void begin_descriptors(void);

enum kind kind_of(int fd);
/* Whether a descriptor stands for something. */
bool is_standin(int fd);
/* What a descriptor of a task stands for, or NULL of any other one. */
struct handle *handle_of(int fd);
/* A new descriptor that stands for something, or a negated error; `flags` are those of open(2). */
long handle_for(struct handle handle, int flags);
/* The listener gets a number, or that which is named. */
long make_listener(void);
/* Notes that messages were received, in which the listener may be. */
void note_message(void);
/* A copy of a descriptor stands for the same: gives its number. */
long note_copied(int from, long to);
void note_closed(unsigned first, unsigned last);
/* A memory that is open still belongs to nobody: its seat was let go of. */
void forget_seat(unsigned seat);

/* The path that a descriptor is open on, as the machine tells it: its length, or a negated error. */
long link_of(int fd, char *found, size_t size);

/* The number that the script has for a descriptor of the broker; else it is told. */
uint32_t number_in_script(int fd);

#endif
