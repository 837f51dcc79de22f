/* The agent with a thread that receives, and two that serve what it has received. */
#define OWN_MAIN
#include "agent.c"

#include <pthread.h>

enum { SERVERS = 2, MOST_WAITING = 64 };

/* The notifications that are received, and not yet served. */
static struct seccomp_notif waiting[MOST_WAITING];
static size_t begin, end;
static pthread_mutex_t lock = PTHREAD_MUTEX_INITIALIZER;
static pthread_cond_t is_filled = PTHREAD_COND_INITIALIZER;

static void *serve_all(void *nothing) {
  for (;;) {
    pthread_mutex_lock(&lock);
    while (begin == end)
      pthread_cond_wait(&is_filled, &lock);
    struct seccomp_notif notif = waiting[begin++ % MOST_WAITING];
    pthread_mutex_unlock(&lock);
    serve(&notif);
  }
  return nothing;
}

static void put(const struct seccomp_notif *notif) {
  pthread_mutex_lock(&lock);
  waiting[end++ % MOST_WAITING] = *notif;
  pthread_cond_signal(&is_filled);
  pthread_mutex_unlock(&lock);
}

int main(void) {
  const char *named = getenv("SECCOMP_BROKER_LISTENER");
  listener = named == NULL ? -1 : atoi(named);
  pthread_t threads[SERVERS];
  for (size_t at = 0; at < SERVERS; at++)
    if (pthread_create(&threads[at], NULL, serve_all, NULL) != 0)
      return 1;
  for (;;) {
    struct seccomp_notif notif = {0};
    if (ioctl(listener, SECCOMP_IOCTL_NOTIF_RECV, &notif) == 0)
      put(&notif);
    else if (errno != ENOENT && errno != EINTR)
      return 1;
  }
}
