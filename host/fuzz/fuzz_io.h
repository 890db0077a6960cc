/*
 * What the fuzz target of the programs tells the code that is preloaded into them.
 */
#ifndef FUZZ_IO_H
#define FUZZ_IO_H

#include <stdint.h>

/* The number of the file that orders come from and exit statuses go to. */
enum { FUZZ_CONTROL = 198 };

/* How the reads of standard input, or the writes to standard output, go. */
struct fuzz_limits {
    uint32_t most;  /* the most bytes that one call takes */
    uint32_t until; /* after how many bytes every call fails */
};

/* One run of the program. */
struct fuzz_order {
    struct fuzz_limits input;
    struct fuzz_limits output;
};

#endif
