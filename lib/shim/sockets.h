/* sockets.h - what the broker's processes have bound; see answers.h for the calls */
#ifndef SHIM_SOCKETS_H
#define SHIM_SOCKETS_H

void begin_sockets(void);

#endif
