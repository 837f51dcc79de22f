/*
 * shim.c - lets a broker as it is, which makes its calls of Linux, serve the simulated kernel
 *
 * A library that is preloaded (ld.so(8), LD_PRELOAD); make-shim makes it, and explore-broker --shim uses it. Every system call of the process is trapped inside the process (gate.c), and answered by the
 * kernel that SECCOMP_BROKER_KERNEL names, made as it is, or told: then the broker ends with status 125 and a line with the call's name. call_list.h says of each call which of these it is. What is made as it is
 * concerns the process alone, reads the machine's files, or changes what is the run's: below the folders that SECCOMP_BROKER_WRITABLE names, memory files, pipes and terminals.
 *
 * It guards against accidents of a broker that is under test, and is no sandbox against malice.
 *
 * The listener is the descriptor that SECCOMP_BROKER_LISTENER names, or is passed over a socket as a memory file with the name "seccomp notify" (memfd_create(2)), or comes of seccomp(2).
 *
 * A notification has a seat of the simulated kernel from its receive on, until the thread that did something for it last receives again, and it is answered or was told to have gone. What is opened by a PID
 * belongs to the notification of that PID that is in hand, the thread's own before another one's.
 *
 * Each thread has a connection of its own, since a call may wait. They are numbered in the order in which they were made: the thread that makes another one connects for it, and the new one asks whether it
 * may begin (a second request `able`). So does the first thread of a child that has a copy of the memory. A program that the broker starts is trapped, too, and can ask the simulated kernel for nothing.
 */
#define _GNU_SOURCE
#include "answers.h"
#include "broker.h"
#include "calls.h"
#include "descriptors.h"
#include "places.h"
#include "sockets.h"
#include "starting.h"
#include "telling.h"
#include "tree.h"

#include <linux/audit.h>
#include <stdlib.h>

/* Answers a call, lets it be made, or tells it. */
static bool is_answered(struct call *call, enum call_kind class) {
  switch (class) {
  case PASS: return false;
  case LOOK: look_at(call, call_classes[call->number].arguments); return false;
  case OWN: return answer_of(call->number)(call);
  default: tell(call->name, "");
  }
}

static void on_call(siginfo_t *info, ucontext_t *context) {
  greg_t *registers = context->uc_mcontext.gregs;
  struct call call = {.number = info->si_syscall, .context = context};
  if (info->si_arch != AUDIT_ARCH_X86_64 || call.number < 0 || call.number >= CALLS || call_classes[call.number].class == UNKNOWN)
    tell_of("call", "%ld", call.number);
  call.name = call_classes[call.number].name;
  /* (what comes from the gate, and is trapped there by the filter, is never made) */
  if ((unsigned long)registers[REG_RIP] - GATE < GATE_SIZE)
    tell(call.name, "");
  static const int places[] = {REG_RDI, REG_RSI, REG_RDX, REG_R10, REG_R8, REG_R9};
  for (int at = 0; at < 6; at++)
    call.a[at] = registers[places[at]];
  if (trap_state.is_copied) {
    trap_state.is_copied = 0;
    begin_copy();
  }
  if (is_answered(&call, call_classes[call.number].class)) {
    registers[REG_RAX] = call.result;
    return;
  }
  for (int at = 0; at < 6; at++)
    registers[places[at]] = call.a[at];
  registers[REG_RAX] = call.number;
  registers[REG_RIP] = (greg_t)stub_for((unsigned long)registers[REG_RIP], call.stub);
}

__attribute__((constructor)) static void begin(void) {
  if (getenv("SECCOMP_BROKER_KERNEL") == NULL)
    return;
  bool is_by_filter = getenv("SECCOMP_BROKER_UNGUARDED") != NULL, is_held = getenv("SECCOMP_BROKER_HELD") != NULL;
  setenv("SECCOMP_BROKER_HELD", "1", 1);
  begin_telling();
  begin_places();
  begin_sockets();
  begin_broker();
  begin_descriptors();
  begin_tree();
  begin_starting(!is_by_filter);
  open_gate(is_by_filter, !is_held, on_call);
}
