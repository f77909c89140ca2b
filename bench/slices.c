/* slices STREAM..: the time that format3_read_slice takes for a slice, from its bytes to records.
 *
 * examples/c/stream.c finds the slices of a stream; bench/run compiles it to call noted_read_slice, which keeps what each
 * call was given. Then each slice is read again many times. A line for each stream: the slices whose records fit the
 * reader's room, and those whose records don't, of which a part is read twice. */
#include <stdint.h>
#include <stdio.h>
#include <stdlib.h>
#include <time.h>

#include "format3.h"
#include "show.h"
#include "stream.h"

enum {
    ROOM_BYTES = 8192, /* crates/mpeg1_reader/src/entry.rt */
    MAX_SLICES = 4096,
    ROUNDS = 30,
    CALLS = 6 /* in a round, for each slice */
};

struct slice {
    const uint8_t *bytes;
    size_t length;
    struct format3_picture_parameters parameters;
    size_t written;
    /* The nanoseconds of a call, in the best round. */
    double best;
};

static struct slice slices[MAX_SLICES];
static size_t count;
static struct file file;

static uint32_t read_slice(const struct slice *slice, size_t *written)
{
    struct format3_slice_result result;
    uint32_t answer = format3_read_slice(
        slice->bytes, slice->length, &slice->parameters, file.bytes, MAX_FILE_BYTES, &result);
    *written = result.written;
    return answer;
}

uint32_t noted_read_slice(
    const uint8_t *bytes, size_t length, const struct format3_picture_parameters *parameters,
    uint8_t *FORMAT3_RESTRICT records, size_t records_length, struct format3_slice_result *FORMAT3_RESTRICT result);

uint32_t noted_read_slice(
    const uint8_t *bytes, size_t length, const struct format3_picture_parameters *parameters,
    uint8_t *FORMAT3_RESTRICT records, size_t records_length, struct format3_slice_result *FORMAT3_RESTRICT result)
{
    uint32_t answer = format3_read_slice(bytes, length, parameters, records, records_length, result);
    if (count < MAX_SLICES)
        slices[count++] = (struct slice){bytes, length, *parameters, result->written, 1e18};
    return answer;
}

/* The CPU time of this process alone, in nanoseconds. */
static double now(void)
{
    struct timespec time;
    clock_gettime(CLOCK_PROCESS_CPUTIME_ID, &time);
    return 1e9 * (double)time.tv_sec + (double)time.tv_nsec;
}

static void time_slice(struct slice *slice)
{
    size_t written;
    double start = now();
    for (int k = 0; k < CALLS; k++)
        if (read_slice(slice, &written) != FORMAT3_ACCEPTED || written != slice->written)
            exit(2);
    double taken = (now() - start) / CALLS;
    if (taken < slice->best)
        slice->best = taken;
}

/* Prints the count and the mean time of the slices whose records have more than `above` bytes and at most `most`. */
static void print_mean(const char *what, size_t above, size_t most)
{
    double sum = 0;
    size_t found = 0;
    for (size_t k = 0; k < count; k++) {
        if (slices[k].written <= above || slices[k].written > most)
            continue;
        sum += slices[k].best;
        found++;
    }
    if (found == 0)
        printf("  %s: none", what);
    else
        printf("  %s: %zu, %.1f us each", what, found, sum / (double)found / 1000);
}

static void time_stream(const char *path)
{
    struct bytes bytes;
    struct stream stream;
    if (!read_file(path, &bytes))
        exit(2);
    count = 0;
    open_stream(&stream, bytes.data, bytes.length);
    while (next_picture(&stream, &file)) { }
    for (int round = 0; round < ROUNDS; round++)
        for (size_t k = 0; k < count; k++)
            time_slice(&slices[k]);
    printf("%s:", path);
    print_mean("records that fit the room", 0, ROOM_BYTES);
    print_mean("longer", ROOM_BYTES, SIZE_MAX);
    printf("\n");
    free(bytes.data);
}

int main(int argument_count, char **arguments)
{
    if (!is_right_library())
        return 2;
    for (int k = 1; k < argument_count; k++)
        time_stream(arguments[k]);
    return 0;
}
