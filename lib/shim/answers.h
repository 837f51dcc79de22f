/* answers.h - how system calls are answered. Pointers among the arguments are the broker's: what they lead to is copied first. */
#ifndef SHIM_ANSWERS_H
#define SHIM_ANSWERS_H

#include "gate.h"

struct call {
  long number;
  const char *name;
  /* its arguments, which may be changed before it is made */
  long a[6];
  /* the thread's registers and its mask of signals */
  ucontext_t *context;
  /* the stub that it is made by */
  enum stub_kind stub;
  /* its result, where it is answered */
  long result;
};

/* Whether a call has an answer, which is call->result; else it is made, with what its arguments are by then. */
typedef bool answer(struct call *call);

static inline bool give(struct call *call, long result) {
  call->result = result;
  return true;
}

/* The answer of a call of the class OWN; NULL of another one. */
answer *answer_of(long number);

/* Of sockets.c, starting.c, memory.c, tree.c and questions.c. */
answer answer_socket, answer_address, answer_sendto, answer_message, answer_messages, answer_received;
answer answer_exec, answer_clone, answer_clone3, answer_fork, answer_unshare;
answer answer_open, answer_open_at, answer_openat2, answer_read, answer_write, answer_seek, answer_vm_read, answer_mknod, answer_mount, answer_setxattr, answer_stat, answer_fstat, answer_statx, answer_access, answer_readlink, answer_statfs, answer_list, answer_chdir,
    answer_fchdir, answer_chroot, answer_setns, answer_pidfd_open, answer_pidfd_getfd, answer_pidfd_signal, answer_waitid;

/* Looks at a call of the class LOOK: tells it where an argument concerns a task, or changes what isn't the run's. */
void look_at(const struct call *call, const char *arguments);
/* Tells a call that has a descriptor of a task, or the listener. */
void test_descriptor(const char *call, int fd);
/* Tells a call that has the path of a task. */
void test_path(const char *call, int dirfd, const char *path);

#endif
