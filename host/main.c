/* Prints the report of a script file, or the number of its refusal with exit status 1. */
#include "fence.h"
#include "script.h"

#include <stdio.h>

static struct script script;

static uint8_t report[FENCE_ROOM];

/* Sees to it that what was printed is out. Answers the exit status. */
static int finish(bool printed, int status)
{
    if (!printed || fflush(stdout) != 0) {
        perror("standard output");
        return 2;
    }
    return status;
}

int main(int argc, char **argv)
{
    if (argc != 2) {
        fputs("give the name of one script\n", stderr);
        return 2;
    }
    if (!read_script(argv[1], &script)) {
        return 2;
    }
    int64_t answer = fence_report(script.text, script.length, report, sizeof report);
    if (answer < 0) {
        return finish(printf("refused %d\n", (int)-answer) > 0, 1);
    }
    size_t length = (size_t)answer;
    return finish(fwrite(report, 1, length, stdout) == length, 0);
}
