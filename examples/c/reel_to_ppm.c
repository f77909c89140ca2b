/* reel_to_ppm REEL FOLDER: decodes a reel of Format 3 files and writes each picture as FOLDER/NNNN.ppm.
 *
 * A reel has, for each picture in coded order, a 4-byte big-endian length and a file. A line is printed for each picture. */
#include <stdbool.h>
#include <stdint.h>
#include <stdio.h>
#include <stdlib.h>

#include "decoder.h"
#include "show.h"

enum { LENGTH_BYTES = 4 };

static size_t big_endian(const uint8_t length[LENGTH_BYTES])
{
    return (size_t)length[0] << 24 | (size_t)length[1] << 16 | (size_t)length[2] << 8 | length[3];
}

/* Decodes all pictures of the reel. Returns whether all were accepted and written. */
static bool show_reel(struct decoder *decoder, struct bytes reel, const char *folder)
{
    bool all = true;
    size_t offset = 0;
    for (int number = 1; offset < reel.length; number++) {
        size_t left = reel.length - offset;
        size_t length = left < LENGTH_BYTES ? 0 : big_endian(reel.data + offset);
        if (left < LENGTH_BYTES || left - LENGTH_BYTES < length) {
            printf("cut %zu\n", offset);
            return false;
        }
        bool shown = show_picture(decoder, number, reel.data + offset + LENGTH_BYTES, length, folder);
        all = all && shown;
        offset += LENGTH_BYTES + length;
    }
    return all;
}

int main(int argument_count, char **arguments)
{
    static struct decoder decoder;
    struct bytes reel = {NULL, 0};
    if (argument_count != 3) {
        fprintf(stderr, "usage: reel_to_ppm REEL FOLDER\n");
        return 2;
    }
    if (!is_right_library())
        return 2;
    start_decoder(&decoder);
    bool shown = read_file(arguments[1], &reel) && show_reel(&decoder, reel, arguments[2]);
    free(reel.data);
    return shown ? 0 : 1;
}
