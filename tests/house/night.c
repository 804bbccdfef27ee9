/* The bench program over the library: reads a night from standard input and writes its lines to standard output. */
#include "vundrelt.h"

#include <stdio.h>
#include <stdlib.h>

/* All of standard input; its length. */
static uint8_t *read_all(size_t *length)
{
    size_t room = 1 << 16, have = 0, got;
    uint8_t *bytes = malloc(room);

    while (bytes && (got = fread(bytes + have, 1, room - have, stdin)) > 0) {
        have += got;
        if (have == room) {
            uint8_t *more = realloc(bytes, room *= 2);
            if (!more)
                free(bytes);
            bytes = more;
        }
    }
    *length = have;
    return bytes;
}

int main(void)
{
    size_t length, room, written;
    uint8_t *input = read_all(&length), *output;

    if (!input)
        return 2;
    room = vundrelt_night_length(input, length);
    output = malloc(room ? room : 1);
    if (!output || vundrelt_night(input, length, output, room, &written) != VUNDRELT_DONE)
        return 2;
    if (fwrite(output, 1, written, stdout) != written)
        return 2;
    free(output);
    free(input);
    return 0;
}
