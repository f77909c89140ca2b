/* play STREAM FOLDER: decodes an MPEG-1 video stream and writes each picture as FOLDER/NNNN.ppm, numbered in coded order. It
 * prints a line for each picture.
 *
 * If it cannot decode the stream to its end, it stops there with a message that says why and at which byte; the pictures
 * before that are written. */
#include <stdbool.h>
#include <stdio.h>
#include <stdlib.h>

#include "decoder.h"
#include "show.h"
#include "stream.h"

/* A slice is refused at a place in it, unless its parameters or the buffer are to blame. */
static bool has_place(uint32_t number)
{
    return number == FORMAT3_REFUSED_SLICE_CODE || number == FORMAT3_REFUSED_SLICE_CUT;
}

static void print_problem(const char *path, const struct stream *stream)
{
    fprintf(stderr, "%s: at byte %zu: %s", path, stream->problem_at, stream->problem);
    if (has_place(stream->number))
        fprintf(stderr, " at its byte %zu, bit %zu", stream->result.byte, stream->result.bit);
    if (stream->number != FORMAT3_ACCEPTED)
        fprintf(stderr, ": %s", format3_answer_text(stream->number));
    fprintf(stderr, "\n");
}

/* Plays all pictures of the stream. Returns whether there was at least one, and all were accepted and written. */
static bool show_stream(struct decoder *decoder, const char *path, struct bytes bytes, const char *folder)
{
    static struct file file;
    struct stream stream;
    bool all = true;
    int count = 0;
    open_stream(&stream, bytes.data, bytes.length);
    while (next_picture(&stream, &file)) {
        bool shown = show_picture(decoder, ++count, file.bytes, file.length, folder);
        all = all && shown;
    }
    if (stream.problem != NULL)
        print_problem(path, &stream);
    else if (count == 0)
        fprintf(stderr, "%s: no picture\n", path);
    return all && count > 0 && stream.problem == NULL;
}

int main(int argument_count, char **arguments)
{
    static struct decoder decoder;
    struct bytes bytes = {NULL, 0};
    if (argument_count != 3) {
        fprintf(stderr, "usage: play STREAM FOLDER\n");
        return 2;
    }
    if (!is_right_library())
        return 2;
    start_decoder(&decoder);
    bool shown = read_file(arguments[1], &bytes) && show_stream(&decoder, arguments[1], bytes, arguments[2]);
    free(bytes.data);
    return shown ? 0 : 1;
}
