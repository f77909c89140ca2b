/* Plays MPEG-1 video streams end to end: start codes and headers by examples/c/stream.c, slices by format3_read_slice,
 * pictures by format3_reconstruct. bench/run compiles it a second time with the plain C versions of these two; a file's
 * header is always read by format3_read_header.
 *
 *   play compare STREAM REEL   checks that the stream's pictures are those of the reel, byte for byte
 *   play time STREAM..         pictures a second, repeated until stable, and how the time is spent
 *   play all STREAM            plays it once, inside measured(), for an instruction counter or a clock; prints the count
 *   play slices STREAM         the same without pictures: only from slices to records
 *   play codes STREAM          counts the codes in its slices
 *   play rows STREAM           the rows that its pictures' transforms worked, as the answers have them
 *   play works STREAM          counts its coded blocks by what their transform has to work (plain.h)
 *
 * bench/run runs all of these. */
#include <stdbool.h>
#include <stdint.h>
#include <stdio.h>
#include <stdlib.h>
#include <string.h>
#include <time.h>

#include "decoder.h"
#include "job.h"
#include "plain.h"
#include "show.h"
#include "stream.h"

/* Whether to turn slices into records only, or also to make the pictures. */
enum extent { SLICES_ALONE, WHOLE };

static struct decoder decoder;
static struct file file;

_Noreturn static void fail(const char *what, const char *why)
{
    fprintf(stderr, "play: %s: %s\n", what, why);
    exit(2);
}

static struct bytes read_stream(const char *path)
{
    struct bytes bytes = {NULL, 0};
    if (!read_file(path, &bytes))
        exit(2);
    return bytes;
}

/* Decodes the current file, and adds the rows that its answer has. The picture is in decoder.output or, if it is a reference, in
 * decoder.newer. */
static const struct picture *make_picture(size_t *rows)
{
    struct answer answer = decode(&decoder, file.bytes, file.length);
    if (answer.number != FORMAT3_ACCEPTED)
        fail("a picture", format3_answer_text(answer.number));
    *rows += answer.result.rows;
    const struct picture *picture = decoder.output;
    if (answer.header.coding_type != FORMAT3_B_PICTURE)
        keep_reference(&decoder);
    return picture;
}

static void require_end(const struct stream *stream)
{
    if (stream->problem != NULL)
        fail("the stream", stream->problem);
}

/* What a stream has: its pictures and, if they are made, the rows of their answers. */
struct played {
    int pictures;
    size_t rows;
};

/* Plays a stream from its start. */
static struct played play(struct bytes bytes, enum extent extent)
{
    struct stream stream;
    struct played played = {0, 0};
    open_stream(&stream, bytes.data, bytes.length);
    start_decoder(&decoder);
    for (; next_picture(&stream, &file); played.pictures++)
        if (extent == WHOLE)
            make_picture(&played.rows);
    require_end(&stream);
    return played;
}

/* ---- comparing */

static int compare(const char *path, const char *reel)
{
    struct bytes bytes = read_stream(path);
    struct jobs jobs = jobs_of_reel(reel);
    struct stream stream;
    int count = 0;
    open_stream(&stream, bytes.data, bytes.length);
    start_decoder(&decoder);
    for (; count < jobs.count && next_picture(&stream, &file); count++) {
        size_t rows = 0;
        const struct picture *picture = make_picture(&rows);
        const struct job *job = &jobs.job[count];
        if (picture->length != job->picture_length || memcmp(picture->bytes, job->picture, job->picture_length) != 0)
            fail(path, "not the reel's pictures");
        if (rows != job->result.rows)
            fail(path, "not the rows of the reel's pictures");
    }
    if (count < jobs.count || next_picture(&stream, &file))
        fail(path, "not as many pictures as the reel");
    require_end(&stream);
    printf("%s: %d pictures, equal to the reel's\n", path, count);
    return 0;
}

/* ---- timing */

enum { FEWEST_ROUNDS = 20, MAX_ROUNDS = 400 };

/* The CPU time of this process alone. */
static double now(void)
{
    struct timespec time;
    clock_gettime(CLOCK_PROCESS_CPUTIME_ID, &time);
    return (double)time.tv_sec + 1e-9 * (double)time.tv_nsec;
}

/* The seconds of the best round, once no round has improved by more than 1 % for a while. */
static double best_round(struct bytes bytes, enum extent extent)
{
    double best = 1e9;
    for (int k = 0, since_better = 0; k < MAX_ROUNDS && since_better < FEWEST_ROUNDS; k++) {
        double start = now();
        play(bytes, extent);
        double seconds = now() - start;
        since_better = seconds < 0.99 * best ? 0 : since_better + 1;
        best = seconds < best ? seconds : best;
    }
    return best;
}

static int time_streams(char **paths, int count)
{
    for (int k = 0; k < count; k++) {
        struct bytes bytes = read_stream(paths[k]);
        int pictures = play(bytes, WHOLE).pictures;
        double whole = best_round(bytes, WHOLE), slices = best_round(bytes, SLICES_ALONE);
        printf("%s: %d pictures, %zu bytes each\n", paths[k], pictures, bytes.length / (size_t)pictures);
        printf("  %8.0f pictures/s from the stream's bytes to pels; %.0f%% of the time for slices\n",
            pictures / whole, 100 * slices / whole);
        free(bytes.data);
    }
    return 0;
}

/* ---- run once */

__attribute__((noinline))
static struct played measured(struct bytes bytes, enum extent extent)
{
    return play(bytes, extent);
}

static struct played once(const char *path, enum extent extent)
{
    struct bytes bytes = read_stream(path);
    struct played played = measured(bytes, extent);
    free(bytes.data);
    return played;
}

static int print_pictures(struct played played)
{
    printf("%d\n", played.pictures);
    return 0;
}

static int print_rows(struct played played)
{
    printf("%zu\n", played.rows);
    return 0;
}

/* ---- counting what a stream has: each code and each block once, also where plain C reads a part of a slice twice */

static void take_census(const char *path, enum extent extent)
{
#ifdef PLAIN_CENSUS
    memset(&plain_census, 0, sizeof plain_census);
    once(path, extent);
#else
    (void)extent;
    fail(path, "not compiled with PLAIN_CENSUS");
#endif
}

static int codes(const char *path)
{
    take_census(path, SLICES_ALONE);
    printf("%lu\n", plain_census.codes);
    return 0;
}

static int works(const char *path)
{
    take_census(path, WHOLE);
    for (int k = 0; k < WORKS; k++)
        printf("%lu%c", plain_census.works[k], k == WORKS - 1 ? '\n' : ' ');
    return 0;
}

int main(int count, char **argument)
{
    const char *command = count > 1 ? argument[1] : "";
    require_version();
    if (strcmp(command, "compare") == 0 && count == 4)
        return compare(argument[2], argument[3]);
    if (strcmp(command, "time") == 0)
        return time_streams(argument + 2, count - 2);
    if (strcmp(command, "all") == 0 && count == 3)
        return print_pictures(once(argument[2], WHOLE));
    if (strcmp(command, "slices") == 0 && count == 3)
        return print_pictures(once(argument[2], SLICES_ALONE));
    if (strcmp(command, "codes") == 0 && count == 3)
        return codes(argument[2]);
    if (strcmp(command, "rows") == 0 && count == 3)
        return print_rows(once(argument[2], WHOLE));
    if (strcmp(command, "works") == 0 && count == 3)
        return works(argument[2]);
    fprintf(stderr, "play: see the head of play.c for its arguments\n");
    return 2;
}
