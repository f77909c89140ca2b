/* Splits an MPEG-1 video stream (ISO/IEC 11172-2, 2.4.2) into its pictures, in coded order, as Format 3 files. It parses the
 * headers of sequences, groups and pictures; the library turns the slices into records. */
#ifndef STREAM_H
#define STREAM_H

#include <stdbool.h>
#include <stddef.h>
#include <stdint.h>

#include "format3.h"

/* Version, header, matrices, and each macroblock in its own slice. */
enum {
    MAX_FILE_BYTES = 1 + 10 + 2 * 68
        + FORMAT3_MAX_MACROBLOCKS * (FORMAT3_SLICE_RECORD_BYTES + FORMAT3_MAX_MACROBLOCK_RECORD_BYTES)
};

/* A matrix that a sequence header loads. */
struct matrix {
    bool loaded;
    uint8_t weights[64];
};

/* What a sequence header says about the pictures after it: width and height in macroblocks, intra and non-intra matrix. */
struct sequence {
    uint32_t width;
    uint32_t height;
    struct matrix matrices[2];
};

struct stream {
    const uint8_t *bytes;
    size_t length;
    /* The offset of the next start code, or the length at the stream's end. */
    size_t at;
    /* All 0 before the first sequence header. */
    struct sequence sequence;
    /* Why the stream is refused, and where; NULL if it isn't. */
    const char *problem;
    size_t problem_at;
    /* The answer for a slice, if the problem is a refused slice. */
    uint32_t number;
    struct format3_slice_result result;
};

/* Room for the longest Format 3 file that is accepted. */
struct file {
    uint8_t bytes[MAX_FILE_BYTES];
    size_t length;
};

/* Opens a stream at its first start code. */
void open_stream(struct stream *stream, const uint8_t *bytes, size_t length);

/* Gives the next picture. Returns false if there is none: at the stream's end, or if stream->problem says why. */
bool next_picture(struct stream *stream, struct file *file);

#endif
