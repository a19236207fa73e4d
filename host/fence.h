/* The report of a receiver script, for programs in C. docs/HOST.md tells how to link it. */
#ifndef FENCE_H
#define FENCE_H

#include <stddef.h>
#include <stdint.h>

#ifdef __cplusplus
extern "C" {
#endif

/* A script has at most this many bytes. A longer text is refused. */
#define FENCE_MOST_BYTES 8192

/* A buffer of this many bytes has room for the report of every script. */
#define FENCE_ROOM 65536

/* Numbers of this call. All others say why the text is no script; docs/REFUSALS.md has
   all of them. */
#define FENCE_NOT_SETTLED 31      /* 65,535 rounds were not enough */
#define FENCE_BUFFER_TOO_SHORT 40 /* the buffer is shorter than the report */
#define FENCE_NO_MEMORY 90        /* the machine has no memory left */

/* Reads a script and writes its report into the front of a buffer.

   Answers how many bytes the report has. The bytes of the buffer behind them stay as they
   were, and no zero byte is put there. If there is no report, answers the number of the
   refusal, negated, as -5, and the whole buffer stays as it was.

   The text and the buffer must not overlap, and neither pointer may be null, not even
   where its length is 0. The text is only read. Nothing is kept between two calls, so
   several threads may call at the same time, each with a buffer of its own. */
int64_t fence_report(const uint8_t *script, size_t script_length,
                     uint8_t *report, size_t report_length);

#ifdef __cplusplus
}
#endif

#endif
