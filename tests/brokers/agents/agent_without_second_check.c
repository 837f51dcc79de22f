/* The same without the check behind the read: the call may have been interrupted while its path was read. */
#define NO_SECOND_CHECK
#include "agent.c"
