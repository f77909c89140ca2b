/* Decodes Format 3 files and keeps the reference pictures. */
#include "decoder.h"

#include <stdbool.h>

struct reference {
    const uint8_t *bytes;
    size_t length;
};

void start_decoder(struct decoder *decoder)
{
    decoder->older = &decoder->pictures[0];
    decoder->newer = &decoder->pictures[1];
    decoder->output = &decoder->pictures[2];
    decoder->older->length = decoder->newer->length = 0;
}

/* A picture as a reference; an unused one is empty. */
static struct reference lent(bool used, const struct picture *picture)
{
    if (!used)
        return (struct reference){NULL, 0};
    return (struct reference){picture->bytes, picture->length};
}

/* An accepted header never asks for more than MAX_PICTURE_BYTES. A refused one is all 0, so nothing is lent; format3_reconstruct
 * then gives the same answer, and the place. */
struct answer decode(struct decoder *decoder, const uint8_t *file, size_t length)
{
    struct answer answer;
    answer.number = format3_read_header(file, length, &answer.header);
    uint32_t type = answer.header.coding_type;
    bool both = type == FORMAT3_B_PICTURE;
    struct reference forward = lent(both || type == FORMAT3_P_PICTURE, both ? decoder->older : decoder->newer);
    struct reference backward = lent(both, decoder->newer);
    decoder->output->length = (size_t)FORMAT3_MACROBLOCK_BYTES * answer.header.width * answer.header.height;
    answer.number = format3_reconstruct(
        file, length, forward.bytes, forward.length, backward.bytes, backward.length,
        decoder->output->bytes, decoder->output->length, &answer.result);
    return answer;
}

void keep_reference(struct decoder *decoder)
{
    struct picture *free_picture = decoder->older;
    decoder->older = decoder->newer;
    decoder->newer = decoder->output;
    decoder->output = free_picture;
}
