/* answers.c - the calls of the class OWN that aren't of sockets, programs or a container's tree; see answers.h */
#define _GNU_SOURCE
#include "answers.h"
#include "broker.h"
#include "calls.h"
#include "descriptors.h"
#include "places.h"
#include "telling.h"
#include "tree.h"

#include <errno.h>
#include <fcntl.h>
#include <linux/ioctl.h>
#include <linux/seccomp.h>
#include <poll.h>
#include <signal.h>
#include <string.h>
#include <sys/epoll.h>
#include <sys/ioctl.h>
#include <sys/mman.h>
#include <sys/prctl.h>
#include <sys/resource.h>
#include <sys/select.h>
#include <sys/socket.h>
#include <time.h>

#ifndef PR_SET_SYSCALL_USER_DISPATCH
#define PR_SET_SYSCALL_USER_DISPATCH 59
#endif

/* ---- ioctl(2) */

static long ioctl_of_listener(unsigned long request, void *argument) {
  connect_once("ioctl");
  if (request == SECCOMP_IOCTL_NOTIF_RECV)
    return receive(argument);
  if (request == SECCOMP_IOCTL_NOTIF_ID_VALID)
    return id_valid(argument);
  if (request == SECCOMP_IOCTL_NOTIF_SEND)
    return respond(argument);
  if (request == SECCOMP_IOCTL_NOTIF_ADDFD)
    return put(argument);
  tell("ioctl", "with another request on the listener");
}

/* Requests that ask about a descriptor, or change how it is read: of any file, and of terminals. */
static bool is_harmless(unsigned long request) {
  static const unsigned long known[] = {FIONREAD, FIONBIO, FIOASYNC, FIOCLEX, FIONCLEX, FIOQSIZE, TCGETS, TCSETS, TCSETSW, TCSETSF, TCSBRK, TCXONC, TCFLSH, TIOCGWINSZ, TIOCSWINSZ, TIOCGPGRP, TIOCGSID,
                                        TIOCOUTQ, TIOCGPTN, TIOCSPTLCK, TIOCGPTLCK, 0x80045430 /* TIOCGPTN */};
  for (size_t at = 0; at < sizeof known / sizeof *known; at++)
    if (known[at] == request)
      return true;
  return false;
}

static bool answer_ioctl(struct call *call) {
  int fd = (int)call->a[0];
  unsigned long request = (uint32_t)call->a[1];
  char path[PATH_MAX];
  if (kind_of(fd) == LISTENER)
    return give(call, ioctl_of_listener(request, (void *)call->a[2]));
  test_descriptor(call->name, fd);
  if (is_harmless(request) || link_of(fd, path, sizeof path) < 0)
    return false;
  if (_IOC_TYPE(request) == '!')
    tell_of(call->name, "0x%lx of the listener on %s, which isn't one", request, path);
  tell_of(call->name, "0x%lx on %s", request, path);
}

/* ---- waiting: what else there is is asked first, without waiting. A timeout above 0 counts as none: no time passes in the simulated kernel */

/* Whether a call that was given a time waits at all. */
static bool waits(const struct timespec *given) {
  struct timespec time;
  return given == NULL || copy_in(&time, given, sizeof time) != 0 || time.tv_sec > 0 || time.tv_nsec > 0;
}

enum { MOST_POLLED = 1024 };

/* Whether one of what is polled is the listener, or a task's end. */
static bool has_own(const struct pollfd *fds, unsigned count) {
  for (unsigned at = 0; at < count; at++)
    if (kind_of(fds[at].fd) == LISTENER || kind_of(fds[at].fd) == PIDFD)
      return true;
  return false;
}

/* What a listener or a pidfd has to tell. */
static short events_of(const struct pollfd *polled, bool is_notified) {
  if (kind_of(polled->fd) == PIDFD)
    return has_task_ended("poll", handle_of(polled->fd)) ? POLLIN & polled->events : 0;
  short told = is_notified ? POLLIN : 0;
  if ((polled->events & POLLOUT) != 0 && has_unanswered())
    told |= POLLOUT & (short)look_listener("poll");
  return told & polled->events;
}

static long ask_all(struct pollfd *fds, unsigned count, bool is_notified) {
  struct pollfd others[MOST_POLLED];
  memcpy(others, fds, count * sizeof *fds);
  for (unsigned at = 0; at < count; at++)
    if (is_standin(fds[at].fd))
      others[at].fd = -1;
  long ready = made(SYS_poll, others, count, 0);
  for (unsigned at = 0; at < count && ready >= 0; at++) {
    fds[at].revents = is_standin(fds[at].fd) ? events_of(&fds[at], is_notified) : others[at].revents;
    ready += is_standin(fds[at].fd) && fds[at].revents != 0;
  }
  return ready;
}

static long poll_own(struct pollfd *fds, unsigned count, bool waits) {
  connect_once("poll");
  for (;;) {
    int notified = sb_able(kernel, NULL, 0);
    if (notified < 0)
      return result_of(notified);
    long ready = ask_all(fds, count, notified == 1);
    if (ready != 0 || !waits)
      return ready;
  }
}

/* A mask of signals among the arguments, which must not block SIGSYS: the call gets another one. */
static void change_mask(struct call *call, int at) {
  uint64_t mask;
  if (call->a[at] == 0 || copy_in(&mask, (void *)call->a[at], sizeof mask) != 0 || !has_sigsys(mask))
    return;
  trap_state.changed_mask = without_sigsys(mask);
  call->a[at] = (long)&trap_state.changed_mask;
}

static bool answer_poll(struct call *call) {
  struct pollfd fds[MOST_POLLED];
  unsigned long count = (unsigned long)call->a[1];
  if (count <= MOST_POLLED && copy_in(fds, (void *)call->a[0], count * sizeof *fds) == 0) {
    for (unsigned at = 0; at < count; at++)
      if (kind_of(fds[at].fd) != LISTENER && kind_of(fds[at].fd) != PIDFD)
        test_descriptor(call->name, fds[at].fd);
    if (has_own(fds, (unsigned)count)) {
      long ready = poll_own(fds, (unsigned)count, call->number == SYS_poll ? (int)call->a[2] != 0 : waits((void *)call->a[2]));
      return give(call, ready >= 0 && copy_out((void *)call->a[0], fds, count * sizeof *fds) != 0 ? -EFAULT : ready);
    }
  }
  if (call->number == SYS_ppoll)
    change_mask(call, 3);
  return false;
}

static bool answer_select(struct call *call) {
  fd_set set;
  size_t count = call->a[0] < 0 || call->a[0] > FD_SETSIZE ? FD_SETSIZE : (size_t)call->a[0], size = (count + 63) / 64 * 8;
  for (int part = 1; part <= 3; part++) {
    FD_ZERO(&set);
    if (call->a[part] == 0 || copy_in(&set, (void *)call->a[part], size) != 0)
      continue;
    for (int fd = 0; fd < (int)count; fd++)
      if (FD_ISSET(fd, &set) && is_standin(fd))
        tell(call->name, kind_of(fd) == LISTENER ? "of the listener" : "of a descriptor of a container's task");
  }
  /* (the last argument of pselect leads to the place of the mask) */
  struct {
    uint64_t *mask;
    size_t size;
  } given;
  uint64_t mask;
  if (call->number == SYS_pselect6 && call->a[5] != 0 && copy_in(&given, (void *)call->a[5], sizeof given) == 0 && given.mask != NULL && copy_in(&mask, given.mask, sizeof mask) == 0 && has_sigsys(mask)) {
    mask = without_sigsys(mask);
    (void)copy_out(given.mask, &mask, sizeof mask);
  }
  return false;
}

/* ---- epoll(7) of the listener, which is in one of its sets at most */

static struct {
  int set, fd;
  bool is_there, is_disarmed;
  struct epoll_event event;
} watched;

static long watch(int set, int operation, int fd, const struct epoll_event *event) {
  bool is_known = watched.is_there && watched.set == set && watched.fd == fd;
  if (operation == EPOLL_CTL_ADD ? is_known : !is_known)
    return operation == EPOLL_CTL_ADD ? -EEXIST : -ENOENT;
  if (watched.is_there && !is_known)
    tell("epoll_ctl", "of the listener for the second time");
  watched.is_there = operation != EPOLL_CTL_DEL;
  if (!watched.is_there)
    return 0;
  if ((event->events & EPOLLET) != 0)
    tell("epoll_ctl", "of the listener with EPOLLET");
  if ((event->events & EPOLLOUT) != 0)
    tell("epoll_ctl", "of the listener with EPOLLOUT");
  watched.set = set;
  watched.fd = fd;
  watched.event = *event;
  watched.is_disarmed = false;
  return 0;
}

static bool answer_epoll_ctl(struct call *call) {
  struct epoll_event event = {0};
  int fd = (int)call->a[2];
  struct handle *handle = handle_of(fd);
  /* (a memory and a folder can't be waited for) */
  if (handle != NULL && handle->kind != PIDFD && handle->kind != INHERITED)
    return give(call, (handle->flags & O_PATH) != 0 ? -EBADF : -EPERM);
  if (kind_of(fd) != LISTENER) {
    test_descriptor(call->name, fd);
    return false;
  }
  if (call->a[1] != EPOLL_CTL_DEL && copy_in(&event, (void *)call->a[3], sizeof event) != 0)
    return give(call, -EFAULT);
  return give(call, watch((int)call->a[0], (int)call->a[1], fd, &event));
}

static long epoll_own(struct call *call, bool waits) {
  struct epoll_event *events = (void *)call->a[1];
  int most = (int)call->a[2];
  connect_once("epoll_wait");
  for (;;) {
    long ready = made(SYS_epoll_wait, call->a[0], events, most, 0);
    int notified = sb_able(kernel, NULL, 0);
    if (notified < 0 || ready < 0)
      return notified < 0 ? result_of(notified) : ready;
    if (notified == 1 && ready < most && (watched.event.events & EPOLLIN) != 0) {
      struct epoll_event told = {.events = EPOLLIN, .data = watched.event.data};
      if (copy_out(&events[ready++], &told, sizeof told) != 0)
        return -EFAULT;
      watched.is_disarmed = (watched.event.events & EPOLLONESHOT) != 0;
    }
    if (ready > 0 || !waits)
      return ready;
  }
}

static bool answer_epoll_wait(struct call *call) {
  bool is_two = call->number == SYS_epoll_pwait2;
  if (watched.is_there && watched.set == (int)call->a[0] && !watched.is_disarmed)
    return give(call, epoll_own(call, is_two ? waits((void *)call->a[3]) : (int)call->a[3] != 0));
  if (call->number != SYS_epoll_wait)
    change_mask(call, 4);
  return false;
}

/* ---- the filter */

static bool answer_seccomp(struct call *call) {
  struct seccomp_notif_sizes sizes = {sizeof(struct seccomp_notif), sizeof(struct seccomp_notif_resp), sizeof(struct seccomp_data)};
  if (call->a[0] == SECCOMP_GET_NOTIF_SIZES)
    return give(call, copy_out((void *)call->a[2], &sizes, sizeof sizes));
  if (call->a[0] != SECCOMP_SET_MODE_FILTER || (call->a[1] & SECCOMP_FILTER_FLAG_NEW_LISTENER) == 0 || call->a[2] == 0)
    return false;
  /* (no filter is installed that would ask for it) */
  become_container();
  return give(call, make_listener());
}

/* ---- descriptors. A child of vfork(2) has descriptors of its own, and its parent's memory */

static bool has_own_memory(void) { return trap_state.vfork_parent == 0; }

static bool answer_close(struct call *call) {
  if (is_standin((int)call->a[0]) && has_own_memory())
    note_closed((unsigned)call->a[0], (unsigned)call->a[0]);
  return false;
}

enum { CLOSE_RANGE_FOR_EXEC = 4 };

static bool answer_close_range(struct call *call) {
  if (has_own_memory() && (call->a[2] & CLOSE_RANGE_FOR_EXEC) == 0)
    note_closed((unsigned)call->a[0], (unsigned)call->a[1]);
  return false;
}

static bool answer_dup(struct call *call) {
  if (!has_own_memory())
    return false;
  long given = made(call->number, call->a[0], call->a[1], call->a[2]);
  return give(call, given < 0 ? given : note_copied((int)call->a[0], given));
}

static bool answer_fcntl(struct call *call) {
  struct handle *handle = handle_of((int)call->a[0]);
  struct {
    int type, pid;
  } owner;
  switch (call->a[1]) {
  case F_DUPFD: case F_DUPFD_CLOEXEC: return answer_dup(call);
  case F_SETOWN:
    if (!is_own((int)call->a[2]))
      tell(call->name, "F_SETOWN");
    return false;
  case F_SETOWN_EX:
    if (copy_in(&owner, (void *)call->a[2], sizeof owner) == 0 && !is_own(owner.pid))
      tell(call->name, "F_SETOWN_EX");
    return false;
  case F_GETFL: return handle != NULL ? give(call, handle->flags & ~O_CLOEXEC) : false;
  }
  return false;
}

/* ---- memory */

static bool answer_mmap(struct call *call) {
  if ((call->a[3] & MAP_ANONYMOUS) == 0)
    test_descriptor(call->name, (int)call->a[4]);
  return false;
}

/* The C library of a thread that ends may take away the memory in which the kernel looks whether calls are trapped. It stays. */
static bool answer_munmap(struct call *call) {
  return (uintptr_t)&trap_state - (uintptr_t)call->a[0] < (uintptr_t)call->a[1] ? give(call, 0) : false;
}

/* ---- signals */

/* The form in which the kernel has an action. */
struct kernel_action {
  void *handler;
  unsigned long flags;
  void *restorer;
  uint64_t mask;
};

static bool answer_sigaction(struct call *call) {
  /* what the broker would have for SIGSYS */
  static struct kernel_action of_sigsys, changed;
  if (call->a[3] != sizeof(uint64_t))
    return false;
  if (call->a[0] == SIGSYS) {
    struct kernel_action before = of_sigsys;
    if (call->a[1] != 0 && copy_in(&of_sigsys, (void *)call->a[1], sizeof of_sigsys) != 0)
      return give(call, -EFAULT);
    return give(call, call->a[2] != 0 ? copy_out((void *)call->a[2], &before, sizeof before) : 0);
  }
  struct kernel_action asked;
  if (call->a[1] == 0 || copy_in(&asked, (void *)call->a[1], sizeof asked) != 0 || !has_sigsys(asked.mask))
    return false;
  changed = asked;
  changed.mask = without_sigsys(asked.mask);
  return give(call, made(SYS_rt_sigaction, call->a[0], &changed, call->a[2], call->a[3]));
}

static bool answer_sigprocmask(struct call *call) {
  uint64_t *now = (uint64_t *)&call->context->uc_sigmask, before = *now, asked = 0;
  if (call->a[3] != sizeof(uint64_t))
    return give(call, -EINVAL);
  if (call->a[1] != 0 && copy_in(&asked, (void *)call->a[1], sizeof asked) != 0)
    return give(call, -EFAULT);
  if (call->a[1] != 0 && call->a[0] != SIG_BLOCK && call->a[0] != SIG_UNBLOCK && call->a[0] != SIG_SETMASK)
    return give(call, -EINVAL);
  asked = without_sigsys(asked) & ~(1ul << (SIGKILL - 1) | 1ul << (SIGSTOP - 1));
  if (call->a[1] != 0)
    *now = call->a[0] == SIG_BLOCK ? before | asked : call->a[0] == SIG_UNBLOCK ? before & ~asked : asked;
  return give(call, call->a[2] != 0 ? copy_out((void *)call->a[2], &before, sizeof before) : 0);
}

static bool answer_sigsuspend(struct call *call) {
  change_mask(call, 0);
  return false;
}

static bool answer_kill(struct call *call) {
  if (call->a[0] == -1 || !is_own((int)call->a[0]))
    tell(call->name, "");
  return false;
}

/* ---- identity */

static bool answer_prctl(struct call *call) {
  if (call->a[0] == PR_SET_SYSCALL_USER_DISPATCH)
    tell(call->name, "PR_SET_SYSCALL_USER_DISPATCH");
  return false;
}

static bool answer_setuid(struct call *call) { return is_container() ? give(call, 0) : false; }

/* Of a process; all of a user, or of another group, are told. */
static bool answer_priority(struct call *call) {
  bool is_io = call->number == SYS_ioprio_get || call->number == SYS_ioprio_set;
  long who = call->a[0] - is_io;
  if (who == PRIO_PROCESS || who == PRIO_PGRP)
    test_own(call->name, (int)call->a[1]);
  else
    tell(call->name, "of all processes of a user");
  return false;
}

/* ---- all of them */

static answer *const answers[CALLS] = {
    [SYS_ioctl] = answer_ioctl, [SYS_poll] = answer_poll, [SYS_ppoll] = answer_poll, [SYS_select] = answer_select, [SYS_pselect6] = answer_select, [SYS_epoll_ctl] = answer_epoll_ctl,
    [SYS_epoll_wait] = answer_epoll_wait, [SYS_epoll_pwait] = answer_epoll_wait, [SYS_epoll_pwait2] = answer_epoll_wait, [SYS_seccomp] = answer_seccomp, [SYS_open] = answer_open, [SYS_openat] = answer_open_at,
    [SYS_openat2] = answer_openat2, [SYS_read] = answer_read, [SYS_pread64] = answer_read, [SYS_readv] = answer_read, [SYS_preadv] = answer_read, [SYS_preadv2] = answer_read, [SYS_lseek] = answer_seek,
    [SYS_write] = answer_write, [SYS_pwrite64] = answer_write, [SYS_writev] = answer_write, [SYS_pwritev] = answer_write, [SYS_pwritev2] = answer_write, [SYS_process_vm_readv] = answer_vm_read,
    [SYS_close] = answer_close, [SYS_close_range] = answer_close_range, [SYS_dup] = answer_dup, [SYS_dup2] = answer_dup, [SYS_dup3] = answer_dup, [SYS_fcntl] = answer_fcntl, [SYS_mknod] = answer_mknod,
    [SYS_mknodat] = answer_mknod, [SYS_mount] = answer_mount, [SYS_setxattr] = answer_setxattr, [SYS_stat] = answer_stat, [SYS_lstat] = answer_stat, [SYS_fstat] = answer_fstat, [SYS_newfstatat] = answer_stat,
    [SYS_statx] = answer_statx, [SYS_access] = answer_access, [SYS_faccessat] = answer_access, [SYS_faccessat2] = answer_access, [SYS_readlink] = answer_readlink, [SYS_readlinkat] = answer_readlink, [SYS_statfs] = answer_statfs, [SYS_fstatfs] = answer_statfs, [SYS_getdents64] = answer_list,
    [SYS_chdir] = answer_chdir, [SYS_fchdir] = answer_fchdir, [SYS_chroot] = answer_chroot, [SYS_setns] = answer_setns, [SYS_pidfd_open] = answer_pidfd_open, [SYS_pidfd_getfd] = answer_pidfd_getfd,
    [SYS_pidfd_send_signal] = answer_pidfd_signal, [SYS_waitid] = answer_waitid, [SYS_clone] = answer_clone, [SYS_clone3] = answer_clone3, [SYS_fork] = answer_fork, [SYS_vfork] = answer_fork,
    [SYS_execve] = answer_exec, [SYS_execveat] = answer_exec, [SYS_unshare] = answer_unshare, [SYS_kill] = answer_kill, [SYS_socket] = answer_socket, [SYS_connect] = answer_address, [SYS_bind] = answer_address,
    [SYS_sendto] = answer_sendto, [SYS_sendmsg] = answer_message, [SYS_sendmmsg] = answer_messages, [SYS_recvmsg] = answer_received, [SYS_recvmmsg] = answer_received, [SYS_rt_sigaction] = answer_sigaction,
    [SYS_rt_sigprocmask] = answer_sigprocmask, [SYS_rt_sigsuspend] = answer_sigsuspend, [SYS_mmap] = answer_mmap, [SYS_munmap] = answer_munmap, [SYS_prctl] = answer_prctl, [SYS_setuid] = answer_setuid,
    [SYS_getpriority] = answer_priority, [SYS_setpriority] = answer_priority, [SYS_ioprio_get] = answer_priority, [SYS_ioprio_set] = answer_priority,
};

answer *answer_of(long number) { return answers[number]; }
