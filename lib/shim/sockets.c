/* sockets.c - sockets, and the messages in which the listener is passed on; see answers.h */
#define _GNU_SOURCE
#include "answers.h"
#include "broker.h"
#include "descriptors.h"
#include "places.h"
#include "sockets.h"
#include "telling.h"

#include <arpa/inet.h>
#include <errno.h>
#include <fcntl.h>
#include <netinet/in.h>
#include <stdio.h>
#include <stdlib.h>
#include <string.h>
#include <sys/mman.h>
#include <sys/socket.h>
#include <sys/un.h>

enum { MOST_BOUND = 256, MOST_CONTROL = 4096, MOST_MESSAGES = 1024 };

/* What the broker's processes have bound on this machine beside paths: abstract names, and ports of its own address. */
struct bound {
  sa_family_t family;
  in_port_t port;
  unsigned length;
  char name[sizeof((struct sockaddr_un *)0)->sun_path];
};
static struct {
  unsigned count;
  struct bound bound[MOST_BOUND];
} *shared;
static char written_kernel[sizeof((struct sockaddr_un *)0)->sun_path];

void begin_sockets(void) {
  const char *path = getenv("SECCOMP_BROKER_KERNEL");
  snprintf(written_kernel, sizeof written_kernel, "%s", path == NULL ? "" : path);
  shared = mmap(NULL, sizeof *shared, PROT_READ | PROT_WRITE, MAP_SHARED | MAP_ANONYMOUS, -1, 0);
  if (shared == MAP_FAILED)
    tell("mmap", "of what the broker's processes share");
}

bool answer_socket(struct call *call) {
  int family = (int)call->a[0], type = (int)call->a[1] & 0xf;
  if ((family != AF_UNIX && family != AF_INET && family != AF_INET6) || type == SOCK_RAW || type == SOCK_PACKET)
    tell_of(call->name, "of the family %d and the type %d", family, type);
  return false;
}

/* ---- addresses */

union address {
  struct sockaddr any;
  struct sockaddr_un local;
  struct sockaddr_in four;
  struct sockaddr_in6 six;
};

static bool is_loopback(const union address *address) {
  return address->any.sa_family == AF_INET ? ntohl(address->four.sin_addr.s_addr) >> 24 == 127 : IN6_IS_ADDR_LOOPBACK(&address->six.sin6_addr);
}

/* What is bound, of an address that is no path. */
static struct bound bound_of(const union address *address, size_t size) {
  struct bound found = {.family = address->any.sa_family};
  if (found.family == AF_UNIX) {
    found.length = (unsigned)(size - offsetof(struct sockaddr_un, sun_path));
    memcpy(found.name, address->local.sun_path, found.length);
  } else
    found.port = found.family == AF_INET ? address->four.sin_port : address->six.sin6_port;
  return found;
}

static bool is_bound(const struct bound *wanted) {
  for (unsigned at = 0; at < shared->count; at++) {
    const struct bound *known = &shared->bound[at];
    if (wanted->family == AF_UNIX ? known->family == AF_UNIX && known->length == wanted->length && memcmp(known->name, wanted->name, wanted->length) == 0
                                  : known->family != AF_UNIX && known->port == wanted->port)
      return true;
  }
  return false;
}

static void note_bound(const char *call, const struct bound *bound) {
  if (is_bound(bound))
    return;
  unsigned at = __atomic_fetch_add(&shared->count, 1, __ATOMIC_ACQ_REL);
  if (at >= MOST_BOUND)
    tell(call, "of so many addresses");
  shared->bound[at] = *bound;
}

static void test_local(const char *call, const union address *address, size_t size, bool is_made) {
  if (size <= offsetof(struct sockaddr_un, sun_path))
    return;
  if (address->local.sun_path[0] == '\0') {
    struct bound bound = bound_of(address, size);
    if (is_made)
      note_bound(call, &bound);
    else if (!is_bound(&bound))
      tell(call, "to an abstract name that the broker hasn't bound");
    return;
  }
  char path[sizeof address->local.sun_path + 1] = "";
  memcpy(path, address->local.sun_path, size - offsetof(struct sockaddr_un, sun_path));
  if (strcmp(path, written_kernel) == 0)
    return;
  struct place place;
  find_place(&place, AT_FDCWD, path);
  if (place.whose != ORDINARY)
    tell(call, path);
  /* (where nothing is, the machine says so) */
  if (is_made || made(SYS_access, place.path, 0) == 0)
    test_writable(call, place.path, is_made ? OF_ENTRY : OF_FILE);
}

/* Binds here, so that the port is known that the machine has chosen. */
static long bind_loopback(struct call *call) {
  long given = made(SYS_bind, call->a[0], call->a[1], call->a[2]);
  union address address = {.any = {0}};
  socklen_t size = sizeof address;
  if (given != 0 || made(SYS_getsockname, call->a[0], &address, &size) != 0)
    return given;
  struct bound bound = bound_of(&address, size);
  note_bound(call->name, &bound);
  return given;
}

static void test_remote(const char *call, const union address *address) {
  struct bound bound = bound_of(address, 0);
  if (!is_loopback(address))
    tell(call, "to another machine");
  if (!is_bound(&bound))
    tell(call, "to a port of this machine that the broker hasn't bound");
}

/* Tests where a call leads. False where the address can't be read, which the machine refuses. */
static bool copy_address(union address *address, const void *given, size_t *size) {
  memset(address, 0, sizeof *address);
  if (*size > sizeof *address)
    *size = sizeof *address;
  return given != NULL && *size >= sizeof(sa_family_t) && copy_in(address, given, *size) == 0;
}

static void test_address(const char *call, const void *given, size_t size) {
  union address address;
  if (!copy_address(&address, given, &size))
    return;
  if (address.any.sa_family == AF_UNIX)
    test_local(call, &address, size, false);
  else if (address.any.sa_family == AF_INET || address.any.sa_family == AF_INET6)
    test_remote(call, &address);
}

bool answer_address(struct call *call) {
  union address address;
  size_t size = (size_t)call->a[2];
  test_descriptor(call->name, (int)call->a[0]);
  if (call->number == SYS_connect) {
    test_address(call->name, (void *)call->a[1], size);
    return false;
  }
  if (!copy_address(&address, (void *)call->a[1], &size))
    return false;
  if (address.any.sa_family == AF_UNIX) {
    test_local(call->name, &address, size, true);
    return false;
  }
  if (!is_loopback(&address))
    tell(call->name, "to an address that other machines reach");
  return give(call, bind_loopback(call));
}

bool answer_sendto(struct call *call) {
  test_descriptor(call->name, (int)call->a[0]);
  test_address(call->name, (void *)call->a[4], (size_t)call->a[5]);
  return false;
}

/* ---- messages */

/* Whether the listener is among the descriptors of a message; other descriptors of a task are told. */
static bool has_listener(const char *call, const struct msghdr *message) {
  union {
    struct cmsghdr aligned;
    char bytes[MOST_CONTROL];
  } control;
  size_t size = message->msg_controllen;
  if (message->msg_control == NULL || size == 0)
    return false;
  if (size > sizeof control)
    tell(call, "with so many descriptors");
  if (copy_in(&control, message->msg_control, size) != 0)
    return false;
  struct msghdr copied = {.msg_control = &control, .msg_controllen = size};
  bool found = false;
  for (struct cmsghdr *part = CMSG_FIRSTHDR(&copied); part != NULL; part = CMSG_NXTHDR(&copied, part)) {
    if (part->cmsg_level != SOL_SOCKET || part->cmsg_type != SCM_RIGHTS)
      continue;
    for (size_t at = 0; CMSG_LEN((at + 1) * sizeof(int)) <= part->cmsg_len; at++) {
      int fd;
      memcpy(&fd, CMSG_DATA(part) + at * sizeof fd, sizeof fd);
      if (kind_of(fd) == LISTENER)
        found = true;
      else
        test_descriptor(call, fd);
    }
  }
  return found;
}

/* Whether a message may be sent, in which the listener is. */
static bool test_message(const char *call, const struct msghdr *message) {
  test_address(call, message->msg_name, message->msg_namelen);
  return has_listener(call, message);
}

bool answer_message(struct call *call) {
  struct msghdr message;
  test_descriptor(call->name, (int)call->a[0]);
  if (copy_in(&message, (void *)call->a[1], sizeof message) != 0 || !test_message(call->name, &message) || !is_container())
    return false;
  long given = made(SYS_sendmsg, call->a[0], call->a[1], call->a[2]);
  if (given >= 0)
    wait_for_ever();
  return give(call, given);
}

bool answer_messages(struct call *call) {
  bool has_one = false;
  test_descriptor(call->name, (int)call->a[0]);
  for (unsigned at = 0; at < (unsigned)call->a[2] && at < MOST_MESSAGES; at++) {
    struct mmsghdr message;
    if (copy_in(&message, (struct mmsghdr *)call->a[1] + at, sizeof message) != 0)
      break;
    has_one |= test_message(call->name, &message.msg_hdr);
  }
  if (has_one && is_container())
    tell(call->name, "of the listener, by the process that would be the container");
  return false;
}

bool answer_received(struct call *call) {
  test_descriptor(call->name, (int)call->a[0]);
  note_message();
  return false;
}
