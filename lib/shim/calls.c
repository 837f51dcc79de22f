/* calls.c - see calls.h */
#define _GNU_SOURCE
#include "calls.h"

const struct call_class call_classes[CALLS] = {
#define GROUP(...)
#define CALL(name, class, arguments, is_held) [SYS_##name] = {#name, class, arguments, is_held},
#include "call_list.h"
};
