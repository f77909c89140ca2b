/* Prints a picture's line and writes its PPM. */
#include "show.h"

#include <errno.h>
#include <stdio.h>
#include <stdlib.h>
#include <string.h>

static unsigned long sum_of(const uint8_t *plane, size_t length)
{
    unsigned long sum = 0;
    for (size_t k = 0; k < length; k++)
        sum += plane[k];
    return sum;
}

/* A header's coding type is 1 to 3, and 0 if it was refused: such a picture has no letter. */
static void print_line(int number, const struct answer *answer, const struct picture *picture)
{
    const struct format3_header *header = &answer->header;
    printf("%d %c %u %zu %zu",
        number, "?IPB"[header->coding_type], answer->number, answer->result.place, answer->result.made);
    if (answer->number != FORMAT3_ACCEPTED) {
        printf(" - - -\n");
        fprintf(stderr, "picture %d, byte %zu: %s\n", number, answer->result.place, format3_answer_text(answer->number));
        return;
    }
    size_t luma = (size_t)256 * header->width * header->height, chroma = luma / 4;
    const uint8_t *y = picture->bytes, *cb = y + luma, *cr = cb + chroma;
    printf(" %lu %lu %lu\n", sum_of(y, luma), sum_of(cb, chroma), sum_of(cr, chroma));
}

/* A colour from 256 times its value, rounded and limited. */
static uint8_t limited(int scaled)
{
    int rounded = (scaled + 128) / 256;
    if (scaled < 0)
        return 0;
    return rounded > 255 ? 255 : (uint8_t)rounded;
}

/* Red, green and blue by ITU-R BT.601, as usual for MPEG-1 video, with Y from 16 to 235. */
static void colour_of(int y, int cb, int cr, uint8_t colour[3])
{
    int luma = 298 * (y - 16);
    colour[0] = limited(luma + 409 * (cr - 128));
    colour[1] = limited(luma - 100 * (cb - 128) - 208 * (cr - 128));
    colour[2] = limited(luma + 516 * (cb - 128));
}

static bool write_pels(FILE *file, size_t width, size_t height, const struct picture *picture)
{
    const uint8_t *luma = picture->bytes;
    const uint8_t *cb = luma + width * height, *cr = cb + width * height / 4;
    uint8_t row[3 * 16 * FORMAT3_MAX_WIDTH];
    for (size_t j = 0; j < height; j++) {
        for (size_t i = 0; i < width; i++) {
            size_t chroma = j / 2 * (width / 2) + i / 2;
            colour_of(luma[j * width + i], cb[chroma], cr[chroma], row + 3 * i);
        }
        if (fwrite(row, 3, width, file) != width)
            return false;
    }
    return true;
}

static bool write_ppm(const char *folder, int number, const struct format3_header *header, const struct picture *picture)
{
    size_t width = (size_t)16 * header->width, height = (size_t)16 * header->height;
    char path[4096];
    int length = snprintf(path, sizeof path, "%s/%04d.ppm", folder, number);
    if (length < 0 || (size_t)length >= sizeof path) {
        fprintf(stderr, "%s: the path is too long\n", folder);
        return false;
    }
    FILE *file = fopen(path, "wb");
    if (file == NULL) {
        fprintf(stderr, "%s: %s\n", path, strerror(errno));
        return false;
    }
    bool written = fprintf(file, "P6\n%zu %zu\n255\n", width, height) > 0 && write_pels(file, width, height, picture);
    bool closed = fclose(file) == 0;
    if (!written || !closed)
        fprintf(stderr, "%s: not written whole\n", path);
    return written && closed;
}

bool is_right_library(void)
{
    if (format3_api_version() == FORMAT3_API_VERSION)
        return true;
    fprintf(stderr, "the format3 library has interface %u, not %d\n", format3_api_version(), FORMAT3_API_VERSION);
    return false;
}

bool show_picture(struct decoder *decoder, int number, const uint8_t *file, size_t length, const char *folder)
{
    struct answer answer = decode(decoder, file, length);
    print_line(number, &answer, decoder->output);
    if (answer.number != FORMAT3_ACCEPTED)
        return false;
    bool written = write_ppm(folder, number, &answer.header, decoder->output);
    if (answer.header.coding_type != FORMAT3_B_PICTURE)
        keep_reference(decoder);
    return written;
}

/* Reads an open file; the caller frees the bytes. Returns whether all were read. */
static bool read_bytes(FILE *file, struct bytes *bytes)
{
    if (fseek(file, 0, SEEK_END) != 0)
        return false;
    long length = ftell(file);
    if (length < 0 || fseek(file, 0, SEEK_SET) != 0)
        return false;
    bytes->length = (size_t)length;
    bytes->data = malloc(bytes->length + 1);
    return bytes->data != NULL && fread(bytes->data, 1, bytes->length, file) == bytes->length;
}

bool read_file(const char *path, struct bytes *bytes)
{
    FILE *file = fopen(path, "rb");
    if (file == NULL) {
        fprintf(stderr, "%s: %s\n", path, strerror(errno));
        return false;
    }
    bool whole = read_bytes(file, bytes);
    fclose(file);
    if (!whole)
        fprintf(stderr, "%s: not read whole\n", path);
    return whole;
}
