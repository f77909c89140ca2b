/* Parses an MPEG-1 video stream into Format 3 files. */
#include "stream.h"

#include <string.h>

enum {
    PICTURE_CODE = 0x00,
    LAST_SLICE_CODE = 0xaf,
    USER_DATA_CODE = 0xb2,
    SEQUENCE_CODE = 0xb3,
    EXTENSION_CODE = 0xb5,
    SEQUENCE_END_CODE = 0xb7,
    GROUP_CODE = 0xb8
};

enum { D_PICTURE = 4 };
enum { START_CODE_BYTES = 4 };

/* The bytes from one start code to the next, and how many of their bits are read. Bits past the end are 0. */
struct part {
    const uint8_t *bytes;
    size_t length;
    size_t at;
};

/* The numbers that a picture's slices are read with, and its full-pel flags. */
struct picture_header {
    struct format3_picture_parameters parameters;
    uint32_t full_pel_forward;
    uint32_t full_pel_backward;
};

static bool refuse(struct stream *stream, const char *problem)
{
    stream->problem = problem;
    stream->problem_at = stream->at;
    return false;
}

/* ---- start codes */

/* The offset of the next 00 00 01 with a byte after it, from an offset on, or the length if there is none. */
static size_t find_start_code(const uint8_t *bytes, size_t length, size_t from)
{
    for (size_t at = from + 2; at + 1 < length; at++) {
        const uint8_t *one = memchr(bytes + at, 1, length - 1 - at);
        if (one == NULL)
            return length;
        at = (size_t)(one - bytes);
        if (bytes[at - 1] == 0 && bytes[at - 2] == 0)
            return at - 2;
    }
    return length;
}

static struct part part_at(const struct stream *stream)
{
    size_t end = find_start_code(stream->bytes, stream->length, stream->at + START_CODE_BYTES);
    return (struct part){stream->bytes + stream->at, end - stream->at, 8 * START_CODE_BYTES};
}

static uint8_t code_of(struct part part)
{
    return part.bytes[START_CODE_BYTES - 1];
}

static bool is_slice(uint8_t code)
{
    return code > PICTURE_CODE && code <= LAST_SLICE_CODE;
}

void open_stream(struct stream *stream, const uint8_t *bytes, size_t length)
{
    memset(stream, 0, sizeof *stream);
    stream->bytes = bytes;
    stream->length = length;
    stream->at = find_start_code(bytes, length, 0);
    if (stream->at == length)
        refuse(stream, "no start code");
}

/* ---- headers */

static uint32_t bits(struct part *part, int count)
{
    uint32_t number = 0;
    for (int k = 0; k < count; k++, part->at++) {
        size_t byte = part->at / 8;
        uint32_t bit = byte < part->length ? part->bytes[byte] >> (7 - part->at % 8) & 1 : 0;
        number = 2 * number + bit;
    }
    return number;
}

static bool is_cut(const struct part *part)
{
    return part->at > 8 * part->length;
}

static void read_matrix(struct part *part, struct matrix *matrix)
{
    matrix->loaded = bits(part, 1) == 1;
    for (int k = 0; matrix->loaded && k < 64; k++)
        matrix->weights[k] = (uint8_t)bits(part, 8);
}

/* horizontal_size, vertical_size, fields for display and buffering, and the matrices. */
static bool read_sequence(struct stream *stream, struct part part)
{
    struct sequence *sequence = &stream->sequence;
    sequence->width = (bits(&part, 12) + 15) / 16;
    sequence->height = (bits(&part, 12) + 15) / 16;
    part.at += 4 + 4 + 18 + 1 + 10 + 1;
    read_matrix(&part, &sequence->matrices[0]);
    read_matrix(&part, &sequence->matrices[1]);
    if (is_cut(&part))
        return refuse(stream, "a sequence header is cut");
    if (sequence->width == 0 || sequence->height == 0)
        return refuse(stream, "pictures without a pel");
    if (sequence->width > FORMAT3_MAX_WIDTH || sequence->height > FORMAT3_MAX_HEIGHT
        || sequence->width * sequence->height > FORMAT3_MAX_MACROBLOCKS)
        return refuse(stream, "pictures that are too large: at most 48 macroblocks wide, 36 high and 396 in all are decoded");
    return true;
}

/* temporal_reference, picture_coding_type, vbv_delay, and a full-pel flag and an f_code for each direction. */
static bool read_picture_header(struct stream *stream, struct part part, struct picture_header *header)
{
    struct format3_picture_parameters *parameters = &header->parameters;
    memset(header, 0, sizeof *header);
    parameters->width = stream->sequence.width;
    parameters->height = stream->sequence.height;
    part.at += 10;
    parameters->coding_type = bits(&part, 3);
    part.at += 16;
    if (parameters->coding_type == D_PICTURE)
        return refuse(stream, "a D-picture: only I, P and B are decoded");
    if (parameters->coding_type < FORMAT3_I_PICTURE || parameters->coding_type > FORMAT3_B_PICTURE)
        return refuse(stream, "a picture of no known type");
    if (parameters->coding_type != FORMAT3_I_PICTURE) {
        header->full_pel_forward = bits(&part, 1);
        parameters->forward_f_code = bits(&part, 3);
    }
    if (parameters->coding_type == FORMAT3_B_PICTURE) {
        header->full_pel_backward = bits(&part, 1);
        parameters->backward_f_code = bits(&part, 3);
    }
    return is_cut(&part) ? refuse(stream, "a picture header is cut") : true;
}

/* ---- Format 3 files */

static void put(struct file *file, size_t byte)
{
    file->bytes[file->length++] = (uint8_t)byte;
}

/* A record's length counts its kind and body. */
static void put_record_start(struct file *file, size_t body_length, int kind)
{
    put(file, (body_length + 1) >> 8);
    put(file, body_length + 1);
    put(file, (size_t)kind);
}

static void put_matrix(struct file *file, size_t which, const struct matrix *matrix)
{
    if (!matrix->loaded)
        return;
    put_record_start(file, 65, FORMAT3_KIND_MATRIX);
    put(file, which);
    for (int k = 0; k < 64; k++)
        put(file, matrix->weights[k]);
}

/* Writes the file up to its slices. */
static void start_file(struct file *file, const struct sequence *sequence, const struct picture_header *header)
{
    file->length = 0;
    put(file, 3);
    put_record_start(file, 7, FORMAT3_KIND_HEADER);
    put(file, header->parameters.width);
    put(file, header->parameters.height);
    put(file, header->parameters.coding_type);
    put(file, header->full_pel_forward);
    put(file, header->parameters.forward_f_code);
    put(file, header->full_pel_backward);
    put(file, header->parameters.backward_f_code);
    put_matrix(file, 0, &sequence->matrices[0]);
    put_matrix(file, 1, &sequence->matrices[1]);
}

/* Appends the records of a slice to the file. */
static bool put_slice(
    struct stream *stream, struct part slice, const struct format3_picture_parameters *parameters, struct file *file)
{
    stream->number = format3_read_slice(
        slice.bytes, slice.length, parameters, file->bytes + file->length, MAX_FILE_BYTES - file->length, &stream->result);
    file->length += stream->result.written;
    return stream->number == FORMAT3_ACCEPTED ? true : refuse(stream, "a slice is refused");
}

/* Reads a picture: its header, then its slices, up to the next part that is neither a slice nor user data. */
static bool read_picture(struct stream *stream, struct part part, struct file *file)
{
    struct picture_header header;
    if (stream->sequence.width == 0)
        return refuse(stream, "a picture before any sequence header");
    if (!read_picture_header(stream, part, &header))
        return false;
    start_file(file, &stream->sequence, &header);
    stream->at += part.length;
    while (stream->at < stream->length) {
        part = part_at(stream);
        if (!is_slice(code_of(part)) && code_of(part) != USER_DATA_CODE)
            return true;
        if (is_slice(code_of(part)) && !put_slice(stream, part, &header.parameters, file))
            return false;
        stream->at += part.length;
    }
    return true;
}

/* Reads a part that is not a picture: keeps what it says, or skips it. */
static bool read_other(struct stream *stream, struct part part)
{
    uint8_t code = code_of(part);
    if (code == SEQUENCE_CODE)
        return read_sequence(stream, part);
    if (code == EXTENSION_CODE)
        return refuse(stream, "an extension, as MPEG-2 video has it: only MPEG-1 video is decoded");
    if (is_slice(code))
        return refuse(stream, "a slice outside any picture");
    if (code != GROUP_CODE && code != USER_DATA_CODE && code != SEQUENCE_END_CODE)
        return refuse(stream, "a start code that a video stream does not have");
    return true;
}

bool next_picture(struct stream *stream, struct file *file)
{
    while (stream->problem == NULL && stream->at < stream->length) {
        struct part part = part_at(stream);
        if (code_of(part) == PICTURE_CODE)
            return read_picture(stream, part, file);
        if (!read_other(stream, part))
            return false;
        stream->at += part.length;
    }
    return false;
}
