/* Shows pictures: what the C examples share. */
#ifndef SHOW_H
#define SHOW_H

#include <stdbool.h>
#include <stddef.h>
#include <stdint.h>

#include "decoder.h"

struct bytes {
    uint8_t *data;
    size_t length;
};

/* Reads a file; the caller frees the bytes. Returns whether all were read; if not, a message says why. */
bool read_file(const char *path, struct bytes *bytes);

/* Whether the library has the interface that this program was compiled for; if not, a message says so. */
bool is_right_library(void);

/* Decodes a Format 3 file and prints a line: the number, the picture's letter, answer, place, made, and the sums of Y, Cb and
 * Cr (`-` each if refused; a message then says why). Writes an accepted picture as FOLDER/NNNN.ppm, and keeps it if it is a
 * reference. Returns whether the picture was accepted and written.
 *
 * The pictures are colour PPM, not PGM of the luma alone, so that wrong chroma shows too. The proofs cover the bytes of the
 * planes, whose sums are printed; the colours are computed here, only to look at. */
bool show_picture(struct decoder *decoder, int number, const uint8_t *file, size_t length, const char *folder);

#endif
