/* The same with one place for the id of the notification that is served, which its threads have in common: one may answer the call of another. */
#define ONE_ID
#include "agent_threads.c"
