/* Decodes Format 3 files one after another and keeps their references: a P picture is predicted from the last accepted I or P
 * picture, a B picture from the last two, the newer one as backward. */
#ifndef DECODER_H
#define DECODER_H

#include <stddef.h>
#include <stdint.h>

#include "format3.h"

enum { MAX_PICTURE_BYTES = FORMAT3_MACROBLOCK_BYTES * FORMAT3_MAX_MACROBLOCKS };

struct picture {
    uint8_t bytes[MAX_PICTURE_BYTES];
    size_t length;
};

/* Three pictures that take turns: the last two references, and the one being decoded. */
struct decoder {
    struct picture pictures[3];
    struct picture *older;
    struct picture *newer;
    struct picture *output;
};

/* The answer to a file. Its header is all 0 if that is refused. */
struct answer {
    uint32_t number;
    struct format3_picture_result result;
    struct format3_header header;
};

/* Starts without any references. */
void start_decoder(struct decoder *decoder);

/* Decodes a file into decoder->output. The picture stays there until the next one is decoded or it is kept. */
struct answer decode(struct decoder *decoder, const uint8_t *file, size_t length);

/* Makes the decoded picture the newer reference, and frees the buffer of the older one. */
void keep_reference(struct decoder *decoder);

#endif
