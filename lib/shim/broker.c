/* broker.c - see broker.h */
#define _GNU_SOURCE
#include "broker.h"
#include "descriptors.h"
#include "gate.h"
#include "look.h"
#include "telling.h"

#include <dlfcn.h>
#include <errno.h>
#include <pthread.h>
#include <stdio.h>
#include <stdlib.h>
#include <string.h>
#include <sys/mman.h>
#include <unistd.h>

/* What a seat of the simulated kernel has: whether a notification is in hand there, the number of the thread that has done something for it last, whether it is finished, since the broker
 * has answered it or was told that it has gone, and how many memories and folders were opened for it. A seat is reserved while it is received into, or let go of. */
struct hand {
  enum { FREE, RESERVED, HELD } state;
  unsigned thread, opened[KINDS_OPENED];
  bool is_finished;
  struct seccomp_notif notif;
};

/* What the broker's processes have in common. It is looked at with the lock, which isn't held over a call of the kernel. */
static struct {
  pthread_mutex_t lock;
  /* the process that has asked for something first, and how many threads have asked */
  pid_t first;
  unsigned threads;
  struct hand hands[SB_MOST_WORKERS];
} *shared;

/* Each thread has a connection of its own, since a call may wait, and a number in the order in which they were made. */
__thread struct sb_kernel *kernel __attribute__((tls_model("initial-exec")));
static __thread unsigned thread __attribute__((tls_model("initial-exec")));
static pthread_key_t connections;
static bool is_on, is_helper;

static void lock(void) { pthread_mutex_lock(&shared->lock); }
static void unlock(void) { pthread_mutex_unlock(&shared->lock); }

static void disconnect(void *opened) { sb_close(opened); }

void begin_broker(void) {
  shared = mmap(NULL, sizeof *shared, PROT_READ | PROT_WRITE, MAP_SHARED | MAP_ANONYMOUS, -1, 0);
  if (shared == MAP_FAILED)
    tell("mmap", "of what the broker's processes share");
  pthread_mutexattr_t attributes;
  pthread_mutexattr_init(&attributes);
  pthread_mutexattr_setpshared(&attributes, PTHREAD_PROCESS_SHARED);
  pthread_mutex_init(&shared->lock, &attributes);
  pthread_key_create(&connections, disconnect);
  is_helper = getenv("SECCOMP_BROKER_HELPER") != NULL;
  is_on = true;
}

bool has_begun(void) { return is_helper || shared->first != 0; }

/* ---- results */

/* The run is over: the first thread that is told so ends the process, as its own exit(3) would. */
_Noreturn static void leave(void) {
  static int leaving;
  while (__atomic_exchange_n(&leaving, 1, __ATOMIC_ACQ_REL))
    made(SYS_pause);
  if (trap_state.selector == 0) {
    trap_state.selector = 1;
    made(SYS_rt_sigprocmask, SIG_SETMASK, &trap_state.mask, NULL, sizeof trap_state.mask);
  }
  exit(0);
}

long result_of(int given) {
  if (given == -ESHUTDOWN || given == -EPIPE)
    leave();
  if (given == -ECHRNG)
    tell("ioctl", "SECCOMP_IOCTL_NOTIF_RECV: more notifications in hand than there are seats");
  return given;
}

static void finish(unsigned seat) {
  lock();
  shared->hands[seat].is_finished = true;
  unlock();
}

long result_of_opening(unsigned seat, int given) {
  if (given == -ESRCH)
    finish(seat);
  return given == -ESRCH ? -ENOENT : result_of(given);
}

/* ---- threads and their connections */

static struct sb_kernel *connection(void) {
  struct sb_kernel *opened;
  int error = sb_open(&opened, NULL, NULL, NULL);
  if (error == -EPIPE || error == -ESHUTDOWN || error == -EINVAL)
    leave();
  if (error != 0)
    tell_of("connect", "to the simulated kernel: %s", strerror(-error));
  return opened;
}

static void use(struct sb_kernel *opened) {
  kernel = opened;
  pthread_setspecific(connections, opened);
}

/* A thread that isn't the first one asks whether it may begin. */
static void begin_thread(void) {
  int told = sb_able(kernel, NULL, 0);
  if (told < 0)
    (void)result_of(told);
}

void connect_once(const char *call) {
  if (kernel != NULL)
    return;
  if (is_helper)
    tell(call, "in a program that the broker has started");
  lock();
  bool is_first = shared->first == 0;
  if (is_first)
    shared->first = getpid();
  thread = shared->threads++;
  unlock();
  use(connection());
  if (!is_first)
    begin_thread();
}

void begin_copy(void) {
  /* (the connection is its parent's) */
  kernel = NULL;
  pthread_setspecific(connections, NULL);
}

/* A thread that is to be made: it runs a routine, once it has been told to. */
struct beginning {
  void *(*routine)(void *);
  void *argument;
  struct sb_kernel *kernel;
  unsigned thread;
};

static void *run_thread(void *given) {
  struct beginning beginning = *(struct beginning *)given;
  free(given);
  thread = beginning.thread;
  use(beginning.kernel);
  begin_thread();
  return beginning.routine(beginning.argument);
}

/* The thread that makes another one connects for it, so that all threads are known in the order in which they were made. */
__attribute__((visibility("default"))) int pthread_create(pthread_t *created, const pthread_attr_t *attributes, void *(*routine)(void *), void *argument) {
  int (*create)(pthread_t *, const pthread_attr_t *, void *(*)(void *), void *) = (__typeof__(create))dlsym(RTLD_NEXT, "pthread_create");
  if (!is_on || is_helper)
    return create(created, attributes, routine, argument);
  connect_once("pthread_create");
  struct beginning *beginning = malloc(sizeof *beginning);
  if (beginning == NULL)
    return EAGAIN;
  lock();
  *beginning = (struct beginning){.routine = routine, .argument = argument, .thread = shared->threads++};
  unlock();
  beginning->kernel = connection();
  int error = create(created, attributes, run_thread, beginning);
  if (error != 0) {
    sb_close(beginning->kernel);
    free(beginning);
  }
  return error;
}

/* ---- seats */

/* Takes a seat: it is reserved, and no other thread takes it. */
static unsigned taken(unsigned seat) {
  shared->hands[seat].state = RESERVED;
  return seat;
}

/* Lets go of what a thread has finished, or, where no seat is left, of all that is finished. */
static void let_go_of_finished(bool of_all) {
  bool leaving[SB_MOST_WORKERS] = {false};
  lock();
  for (unsigned seat = 0; seat < SB_MOST_WORKERS; seat++) {
    const struct hand *hand = &shared->hands[seat];
    if (hand->state == HELD && hand->is_finished && (of_all || hand->thread == thread))
      leaving[taken(seat)] = true;
  }
  unlock();
  for (unsigned seat = 0; seat < SB_MOST_WORKERS; seat++) {
    if (!leaving[seat])
      continue;
    sb_let_go(kernel, seat);
    lock();
    /* (a memory that is open still belongs to nobody) */
    forget_seat(seat);
    shared->hands[seat].state = FREE;
    unlock();
  }
}

/* Reserves the seat with the thread's number, so that threads that receive at once don't depend on who is first, or else the first one that is free; SB_MOST_WORKERS where none is. */
static unsigned reserved_seat(void) {
  unsigned found = SB_MOST_WORKERS;
  lock();
  if (thread < SB_MOST_WORKERS && shared->hands[thread].state == FREE)
    found = taken(thread);
  for (unsigned seat = 0; found == SB_MOST_WORKERS && seat < SB_MOST_WORKERS; seat++)
    if (shared->hands[seat].state == FREE)
      found = taken(seat);
  unlock();
  return found;
}

static unsigned free_seat(void) {
  let_go_of_finished(false);
  unsigned seat = reserved_seat();
  if (seat < SB_MOST_WORKERS)
    return seat;
  let_go_of_finished(true);
  return reserved_seat();
}

/* The seat whose notification has an id; else the only one that is in hand, which has to be meant, or the first one. From now on it is the thread's. */
static unsigned seat_of_id(uint64_t id) {
  unsigned held = 0, last = 0, found = SB_MOST_WORKERS;
  lock();
  for (unsigned seat = 0; seat < SB_MOST_WORKERS; seat++) {
    if (shared->hands[seat].state != HELD)
      continue;
    if (shared->hands[seat].notif.id == id)
      found = seat;
    held++;
    last = seat;
  }
  if (found < SB_MOST_WORKERS)
    shared->hands[found].thread = thread;
  unlock();
  return found < SB_MOST_WORKERS ? found : held == 1 ? last : 0;
}

/* How well a notification fits that is looked for: 0 is not at all. One that isn't finished comes before one that is, and among those what the thread has in hand. */
static unsigned fit(const struct hand *hand, bool has_pid, uint32_t pid) {
  if (hand->state != HELD || (has_pid && hand->notif.pid != pid))
    return 0;
  return 1 + 2 * !hand->is_finished + (hand->thread == thread);
}

/* Where two notifications fit equally well nobody can tell which is meant. */
static unsigned seat_fitting(bool has_pid, uint32_t pid, const char *call, const char *path) {
  unsigned found = SB_MOST_WORKERS, best = 0;
  bool is_one = true;
  lock();
  for (unsigned seat = 0; seat < SB_MOST_WORKERS; seat++) {
    unsigned now = fit(&shared->hands[seat], has_pid, pid);
    if (now > 0 && now == best)
      is_one = false;
    if (now > best) {
      found = seat;
      best = now;
      is_one = true;
    }
  }
  if (found < SB_MOST_WORKERS)
    shared->hands[found].thread = thread;
  unlock();
  if (found == SB_MOST_WORKERS || (!is_one && best > 2))
    tell(call, path);
  return found;
}

unsigned seat_of_pid(uint32_t pid, const char *call, const char *path) { return seat_fitting(true, pid, call, path); }
unsigned seat_meant(const char *call, const char *path) { return seat_fitting(false, 0, call, path); }

bool is_callers(long pid) {
  for (unsigned seat = 0; seat < SB_MOST_WORKERS; seat++)
    if (shared->hands[seat].state == HELD && shared->hands[seat].notif.pid == (uint32_t)pid)
      return true;
  return false;
}

unsigned note_opening(unsigned seat, enum opened what) { return ++shared->hands[seat].opened[what]; }
bool is_last_opening(unsigned seat, enum opened what, unsigned opening) { return shared->hands[seat].opened[what] == opening; }

bool has_unanswered(void) {
  for (unsigned seat = 0; seat < SB_MOST_WORKERS; seat++)
    if (shared->hands[seat].state == HELD && !shared->hands[seat].is_finished)
      return true;
  return false;
}

/* ---- the listener */

long receive(void *place) {
  static const struct seccomp_notif zeros;
  struct seccomp_notif notif;
  /* (Linux looks at it before it waits) */
  if (copy_in(&notif, place, sizeof notif) != 0)
    return -EFAULT;
  if (memcmp(&notif, &zeros, sizeof notif) != 0)
    return -EINVAL;
  unsigned seat = free_seat();
  int error = sb_recv(kernel, seat, &notif);
  if (seat < SB_MOST_WORKERS) {
    lock();
    shared->hands[seat] = error == 0 ? (struct hand){.state = HELD, .thread = thread, .notif = notif} : (struct hand){.state = FREE};
    unlock();
  }
  if (error == 0)
    return copy_out(place, &notif, sizeof notif);
  return result_of(error);
}

/* Whether a seat has the notification with an id. */
static bool has_id(unsigned seat, uint64_t id) { return shared->hands[seat].state == HELD && shared->hands[seat].notif.id == id; }

long id_valid(const void *place) {
  uint64_t id;
  if (copy_in(&id, place, sizeof id) != 0)
    return -EFAULT;
  unsigned seat = seat_of_id(id);
  int error = sb_id_valid(kernel, seat, id);
  if (error == -ENOENT && has_id(seat, id))
    finish(seat);
  return result_of(error);
}

long respond(const void *place) {
  struct seccomp_notif_resp answer;
  if (copy_in(&answer, place, sizeof answer) != 0)
    return -EFAULT;
  unsigned seat = seat_of_id(answer.id);
  int error = sb_send(kernel, seat, &answer);
  if ((error == 0 || error == -ENOENT) && has_id(seat, answer.id))
    finish(seat);
  return result_of(error);
}

/* The real call waits until the caller has installed the descriptor. */
long put(const void *place) {
  struct seccomp_notif_addfd asked;
  if (copy_in(&asked, place, sizeof asked) != 0)
    return -EFAULT;
  asked.srcfd = number_in_script((int)asked.srcfd);
  unsigned seat = seat_of_id(asked.id);
  int given = sb_addfd(kernel, seat, &asked);
  if (given == 0)
    given = sb_addfd_result(kernel, seat);
  bool is_answer = given >= 0 && (asked.flags & SECCOMP_ADDFD_FLAG_SEND) != 0;
  if ((is_answer || given == -ENOENT) && has_id(seat, asked.id))
    finish(seat);
  return result_of(given == -EBADF ? -EMFILE : given);
}

/* ---- the container */

static pid_t container;

void become_container(void) { container = getpid(); }
bool is_container(void) { return container != 0 && container == getpid(); }

void wait_for_ever(void) {
  for (;;)
    wait_readable(-1);
}
