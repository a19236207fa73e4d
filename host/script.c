/* Reads a script file. */
#include "script.h"

#include <stdio.h>

bool read_script(const char *name, struct script *script)
{
    FILE *file = fopen(name, "rb");
    if (file == NULL) {
        perror(name);
        return false;
    }
    script->length = fread(script->text, 1, sizeof script->text, file);
    bool whole = !ferror(file);
    if (!whole) {
        perror(name);
    }
    fclose(file);
    return whole;
}
