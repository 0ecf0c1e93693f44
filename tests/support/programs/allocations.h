/* The memory that a program and the library in it ask for, which are linked with `--wrap` of the C library's calls. */
#ifndef ALLOCATIONS_H
#define ALLOCATIONS_H

#include <stddef.h>

/* Lets `met` more calls for memory be met, and refuses the `refused` calls behind them. */
void allocations_refuse(long met, long refused);

/* How many calls were refused since the last allocations_refuse. */
long allocations_refused(void);

/* How many calls asked for memory since then, met or refused. One that makes a block shorter asks for none. */
long allocations_asked(void);

/* The blocks that were asked for and not given back. */
long allocations_held(void);

/* The bytes in these blocks. */
long allocations_bytes(void);

#endif
