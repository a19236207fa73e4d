/* Asks for the reports of script files, with the memory functions of memory.c.

   For each file: with a buffer that has room for every report, where it counts what the call
   takes; with one that is just long enough, and one a byte shorter; and with each allocation
   failing in turn. It prints a line for each file, and a line for each call that went wrong.
   It ends with status 1 if one did, and with 2 where a file cannot be read. */
#include "fence.h"
#include "memory.h"
#include "script.h"

#include <inttypes.h>
#include <stdio.h>
#include <string.h>

static struct script script;

/* What the first call wrote. */
static uint8_t report[FENCE_ROOM];

/* What is lent, with a byte behind it at least. */
static uint8_t buffer[FENCE_ROOM + 1];

/* What stands at a place of the buffer before a call. */
static uint8_t mark(size_t place)
{
    return (uint8_t)(7 * place + 3);
}

/* Whether the buffer is as before the call from a place on. */
static bool is_untouched_from(size_t start)
{
    for (size_t place = start; place < sizeof buffer; place++) {
        if (buffer[place] != mark(place)) {
            return false;
        }
    }
    return true;
}

/* Asks for the report with a buffer of some bytes, and with one allocation failing, or none. */
static int64_t ask(size_t room, size_t failing)
{
    for (size_t place = 0; place < sizeof buffer; place++) {
        buffer[place] = mark(place);
    }
    count_anew(failing);
    return fence_report(script.text, script.length, buffer, room);
}

/* Whether a call answered this, left the buffer as it was, and kept no block. */
static bool is_refused(int64_t answer, int64_t wanted)
{
    return answer == wanted && is_untouched_from(0) && memory.blocks == 0;
}

/* Whether a call wrote the report of the first one, left what lies behind it as it was, and
   kept no block. */
static bool is_written(int64_t answer, size_t length)
{
    return answer == (int64_t)length && memcmp(buffer, report, length) == 0
        && is_untouched_from(length) && memory.blocks == 0;
}

/* Tells of a call that went wrong. Answers how many did, 0 or 1. */
static size_t told(bool right, const char *trial, size_t number, int64_t answer)
{
    if (!right) {
        printf("  WRONG: %s %zu: answer %" PRId64 ", %zu blocks kept\n", trial, number, answer,
               memory.blocks);
    }
    return right ? 0 : 1;
}

/* Asks with buffers on both sides of the report's length. Answers how many calls went wrong. */
static size_t try_buffers(size_t length)
{
    int64_t answer = ask(length, 0);
    size_t wrong = told(is_written(answer, length), "buffer of", length, answer);
    answer = ask(length - 1, 0);
    return wrong
        + told(is_refused(answer, -FENCE_BUFFER_TOO_SHORT), "buffer of", length - 1, answer);
}

/* Asks with each allocation failing in turn. Answers how many calls went wrong. */
static size_t try_failing(size_t allocations)
{
    size_t wrong = 0;
    for (size_t failing = 1; failing <= allocations; failing++) {
        int64_t answer = ask(FENCE_ROOM, failing);
        wrong += told(is_refused(answer, -FENCE_NO_MEMORY), "failing allocation", failing,
                      answer);
    }
    return wrong;
}

/* Makes all calls for a script. Answers how many went wrong. */
static size_t try_script(const char *name)
{
    int64_t answer = ask(FENCE_ROOM, 0);
    size_t allocations = memory.allocations;
    printf("%s: answer %" PRId64 ", %zu allocations, at most %zu bytes and %zu blocks at a time,"
           " an area of %zu bytes\n",
           name, answer, allocations, memory.most_bytes, memory.most_blocks, memory.area);
    if (answer < 0) {
        return told(is_refused(answer, answer), "buffer of", FENCE_ROOM, answer)
            + try_failing(allocations);
    }
    size_t length = (size_t)answer;
    memcpy(report, buffer, length);
    return told(is_written(answer, length), "buffer of", FENCE_ROOM, answer)
        + try_buffers(length) + try_failing(allocations);
}

int main(int argc, char **argv)
{
    if (argc < 2) {
        fputs("give the names of scripts\n", stderr);
        return 2;
    }
    size_t wrong = 0;
    for (int number = 1; number < argc; number++) {
        if (!read_script(argv[number], &script)) {
            return 2;
        }
        wrong += try_script(argv[number]);
    }
    printf("%zu calls went wrong\n", wrong);
    return wrong == 0 ? 0 : 1;
}
