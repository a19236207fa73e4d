/* A script file, read for a call of fence_report. */
#ifndef SCRIPT_H
#define SCRIPT_H

#include "fence.h"

#include <stdbool.h>

/* The front of a file. One byte past the limit tells that a script is too long, so no more of
   it is read. */
struct script {
    size_t length;
    uint8_t text[FENCE_MOST_BYTES + 1];
};

/* Reads the front of a file. Answers whether it could; if not, it says why on standard
   error. */
bool read_script(const char *name, struct script *script);

#endif
