/* Answers a task on a net by the library: embed WORDS < NET, as embed "bounds --rows 500" < net.pnml. */
#include "pnmlstruct.h"

#include <stdio.h>
#include <stdlib.h>
#include <string.h>

/* Standard input in one block, and its size; an allocation has a byte at least, so that it isn't null. */
static uint8_t *read_input(size_t *size)
{
    size_t room = 1 << 16;
    uint8_t *bytes = malloc(room);
    *size = 0;
    while (bytes != NULL) {
        *size += fread(bytes + *size, 1, room - *size, stdin);
        if (*size < room)
            return bytes;
        room *= 2;
        uint8_t *more = realloc(bytes, room);
        if (more == NULL)
            free(bytes);
        bytes = more;
    }
    return NULL;
}

/* Runs with buffers of this size, and again with larger ones for as long as the text is cut. */
static int answer(const char *words, const uint8_t *input, size_t input_size, size_t size)
{
    static uint8_t line[16384];
    for (;;) {
        struct pnmlstruct_written written;
        uint8_t *text = malloc(size);
        if (text == NULL)
            return PNMLSTRUCT_NO_MEMORY;
        uint8_t status = pnmlstruct_run((const uint8_t *)words, strlen(words), input, input_size,
                                        text, size, line, sizeof line, &written);
        if (status != PNMLSTRUCT_TEXT_CUT) {
            fwrite(text, 1, written.out, stdout);
            fwrite(line, 1, written.err, stderr);
            free(text);
            return status;
        }
        free(text);
        size *= 16;
    }
}

int main(int count, char **arguments)
{
    size_t size;
    uint8_t *input = read_input(&size);
    if (input == NULL)
        return PNMLSTRUCT_NO_MEMORY;
    int status = answer(count == 2 ? arguments[1] : "", input, size, 16);
    free(input);
    return status;
}
