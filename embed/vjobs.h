/* Batches of VCODE jobs, run inside a program.

   Link with libvjobs.a, which needs the C library alone. The library has no state and starts no thread. */
#ifndef VJOBS_H
#define VJOBS_H

#include <stddef.h>
#include <stdint.h>

#ifdef __cplusplus
extern "C" {
#endif

enum vjobs_answer {
    VJOBS_ALL_RETURNED = 0,  /* every job returned, or there was none; the report is in out */
    VJOBS_SOME_NOT = 1,      /* some job was refused or ended otherwise; the report is in out */
    VJOBS_BATCH_REFUSED = 2, /* the batch was refused as a whole, and no job ran; the report is in out */
    VJOBS_NO_MEMORY = 3,     /* malloc or realloc refused memory; there is no report */
    VJOBS_TOO_SMALL = 4,     /* the report is longer than cap; *needed is its length */
    VJOBS_BAD_REGION = 5     /* region is 0 or above VJOBS_MOST_WORDS; there is no report */
};

/* The most words of a region. */
#define VJOBS_MOST_WORDS 1048576

/* Runs a batch of len bytes over a region of `region` words, and writes its report to the front of out.

   The answer is one of enum vjobs_answer. *needed becomes the length of the report, and 0 if there is none. At 0, 1 and
   2 the first *needed bytes of out are the report, which has no NUL after it. The other bytes of out are as before; at
   3, 4 and 5 all of them are. At 4 call again with at least *needed bytes: the report is a function of the batch and
   the region alone.

   What the caller has to keep, since nothing checks it:
   - None of the pointers is null, even if len or cap is 0. batch has len bytes, out has cap bytes, and len and cap are
     at most PTRDIFF_MAX. needed is aligned.
   - The three don't overlap, and nothing else writes to them or reads out and needed during the call.
   - The thread has VJOBS_STACK bytes of stack left.
   - malloc, realloc and free are those of one allocator, which aligns as C asks.
   - The call isn't made from a signal handler, nor after fork in the child of a process that has threads.

   Any number of threads may call at the same time, each with memory of its own. */
uint32_t vjobs_run(const uint8_t *batch, size_t len, uint32_t region, uint8_t *out, size_t cap, size_t *needed);

#define VJOBS_STACK 131072

#ifdef __cplusplus
}
#endif

#endif
