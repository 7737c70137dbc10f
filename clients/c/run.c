/* Answers a script from standard input: `run [--library] [--lines] [--explain] < SCRIPT`. The exit status is that of the script. */
#include "stratbench.h"
#include <stdio.h>
#include <stdlib.h>
#include <string.h>

/* Returns all bytes of a file and sets their number, or returns NULL if there is no memory for them. */
static uint8_t *read_all(FILE *file, size_t *length) {
    size_t room = 1 << 16;
    uint8_t *bytes = malloc(room);
    *length = 0;
    while (bytes != NULL) {
        *length += fread(bytes + *length, 1, room - *length, file);
        if (*length < room)
            return bytes;
        uint8_t *more = realloc(bytes, room *= 2);
        if (more == NULL)
            free(bytes);
        bytes = more;
    }
    return NULL;
}

/* Prints what a call copies, and returns whether there was memory for it. */
static int print(size_t (*copy)(stratbench_session *, uint8_t *, size_t), stratbench_session *handle, FILE *to) {
    uint8_t nothing;
    size_t length = copy(handle, &nothing, 0);
    uint8_t *text = malloc(length + 1);
    if (text == NULL)
        return 0;
    copy(handle, text, length);
    fwrite(text, 1, length, to);
    free(text);
    return 1;
}

static int has_option(int argc, char **argv, const char *option) {
    for (int i = 1; i < argc; i++)
        if (strcmp(argv[i], option) == 0)
            return 1;
    return 0;
}

int main(int argc, char **argv) {
    size_t length;
    uint8_t *script = read_all(stdin, &length);
    stratbench_session *handle = malloc(stratbench_size());
    if (script == NULL || handle == NULL)
        return STRATBENCH_NO_MEMORY;
    stratbench_new(handle);
    stratbench_explain(handle, has_option(argc, argv, "--explain"));
    uint32_t status = STRATBENCH_ACCEPTED;
    if (has_option(argc, argv, "--library"))
        status = stratbench_library(handle);
    if (status == STRATBENCH_ACCEPTED) {
        int by_lines = has_option(argc, argv, "--lines");
        status = (by_lines ? stratbench_lines : stratbench_run)(handle, script, length, 100000);
    }
    if (!print(stratbench_copy, handle, stdout) || !print(stratbench_hints, handle, stderr))
        status = STRATBENCH_NO_MEMORY;
    stratbench_drop(handle);
    free(handle);
    free(script);
    return (int)status;
}
