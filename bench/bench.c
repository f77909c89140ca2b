/* Benchmarks the exported library against plain C that follows the same rules, and that C against itself with a second pass
 * over each block.
 *
 *   bench compare REEL..                checks that all give the same answers and the same bytes, refusals included
 *   bench time REEL..                   pictures and macroblocks a second, repeated until stable
 *   bench reel WHO NUMBER REEL          decodes one picture of a reel once, inside measured(), for an instruction counter
 *   bench reel WHO all REEL             the same for every picture of a reel
 *   bench made WHO KIND BLOCKS PAIRS    the same for a synthetic picture
 *   bench rows WHO END BLOCKS KEPT      the same for one whose blocks keep only some of their coefficients, see job.h
 *   bench transform WHO                 the same for the transform of one block
 *   bench reel-census NUMBER REEL       counts what a picture of a reel consists of
 *   bench made-census KIND BLOCKS PAIRS counts what a synthetic picture consists of
 *
 * WHO is library, plain, second-pass or skipping-pass, and for a transform library or plain; KIND is intra, whole, half or
 * mixed; END is whole or refused. bench/run runs all of these. */
#include <stdbool.h>
#include <stdint.h>
#include <stdio.h>
#include <stdlib.h>
#include <string.h>
#include <time.h>

#include "format3.h"
#include "job.h"
#include "plain.h"

struct decoder {
    /* WHO on the command line. */
    const char *word;
    /* As it is printed. */
    const char *name;
    reconstruct_function *reconstruct;
};

enum { LIBRARY, PLAIN, SECOND_PASS, SKIPPING_PASS, DECODERS };

static const struct decoder DECODER[DECODERS] = {
    [LIBRARY] = {"library", "library", format3_reconstruct},
    [PLAIN] = {"plain", "plain C", plain_reconstruct},
    [SECOND_PASS] = {"second-pass", "plain C, second pass", second_pass_reconstruct},
    [SKIPPING_PASS] = {"skipping-pass", "the same, skips zeros", skipping_pass_reconstruct},
};

struct answer {
    uint32_t number;
    struct format3_picture_result result;
};

enum { MAX_PICTURE_BYTES = FORMAT3_MACROBLOCK_BYTES * FORMAT3_MAX_MACROBLOCKS };

/* memset takes a few instructions more or fewer by the alignment of what it fills. Each caller of a measured function has a
 * local of this alignment, so the stack below is aligned alike, whatever the arguments and the environment of the process are. */
enum { STACK_ALIGNMENT = 64 };

static struct answer run(reconstruct_function *reconstruct, const struct job *job, uint8_t *output)
{
    struct answer answer __attribute__((aligned(STACK_ALIGNMENT)));
    answer.number = reconstruct(
        job->file, job->file_length, job->forward, job->forward_length, job->backward, job->backward_length,
        output, job->picture_length, &answer.result);
    return answer;
}

/* ---- comparing */

/* Runs a decoder whose output starts as the same bytes every time. */
static struct answer run_afresh(int who, const struct job *job, uint8_t *output)
{
    memset(output, 0x5a, job->picture_length);
    return run(DECODER[who].reconstruct, job, output);
}

static bool same_answer(struct answer one, struct answer other)
{
    return one.number == other.number && one.result.place == other.result.place && one.result.made == other.result.made
        && one.result.rows == other.result.rows;
}

/* Whether all decoders give the library's answer and bytes; if not, tells which does not. */
static bool same(const struct job *job)
{
    static uint8_t ours[MAX_PICTURE_BYTES], theirs[MAX_PICTURE_BYTES];
    struct answer answer = run_afresh(LIBRARY, job, ours);
    for (int who = LIBRARY + 1; who < DECODERS; who++) {
        struct answer other = run_afresh(who, job, theirs);
        if (same_answer(answer, other) && memcmp(ours, theirs, job->picture_length) == 0)
            continue;
        printf("library and %s differ\n", DECODER[who].word);
        return false;
    }
    return true;
}

/* Compares all on the file with one byte changed, at offsets spread over it. */
static bool same_when_damaged(const struct job *job, size_t times)
{
    for (size_t k = 0; k < times; k++) {
        uint8_t *byte = job->file + job->file_length * k / times;
        uint8_t kept = *byte;
        *byte = (uint8_t)(kept ^ 1 << k % 8);
        bool equal = same(job);
        *byte = kept;
        if (!equal)
            return false;
    }
    return true;
}

static int compare(char **reels, int count)
{
    for (int k = 0; k < count; k++) {
        struct jobs jobs = jobs_of_reel(reels[k]);
        for (int number = 0; number < jobs.count; number++) {
            if (!same(&jobs.job[number]) || !same_when_damaged(&jobs.job[number], 40)) {
                printf("%s: picture %d differs\n", reels[k], number + 1);
                return 1;
            }
        }
        printf("%s: %d pictures, and each damaged 40 times: equal\n", reels[k], jobs.count);
    }
    return 0;
}

/* ---- timing */

enum { FEWEST_ROUNDS = 20, MAX_ROUNDS = 400 };

static double now(void)
{
    struct timespec time;
    clock_gettime(CLOCK_MONOTONIC, &time);
    return (double)time.tv_sec + 1e-9 * (double)time.tv_nsec;
}

/* The seconds for all pictures of a reel. */
static double round_of(reconstruct_function *reconstruct, struct jobs jobs)
{
    static uint8_t output[MAX_PICTURE_BYTES];
    double start = now();
    for (int k = 0; k < jobs.count; k++)
        run(reconstruct, &jobs.job[k], output);
    return now() - start;
}

/* Keeps the better time, and says whether it improved by more than 1 %. */
static bool improves(double *best, double seconds)
{
    bool better = seconds < 0.99 * *best;
    if (seconds < *best)
        *best = seconds;
    return better;
}

/* Times all in turn and keeps the best round of each, until none improves for a while: other load only makes a round slower. */
static void best_rounds(struct jobs jobs, double best[DECODERS])
{
    int since_better = 0;
    for (int who = 0; who < DECODERS; who++)
        best[who] = 1e9;
    for (int k = 0; k < MAX_ROUNDS && since_better < FEWEST_ROUNDS; k++) {
        since_better++;
        for (int who = 0; who < DECODERS; who++)
            if (improves(&best[who], round_of(DECODER[who].reconstruct, jobs)))
                since_better = 0;
    }
}

static void print_speed(const char *name, struct jobs jobs, double seconds)
{
    int macroblocks = 0;
    for (int k = 0; k < jobs.count; k++)
        macroblocks += jobs.job[k].macroblocks;
    printf("  %-22s %8.0f pictures/s %10.0f macroblocks/s\n", name, jobs.count / seconds, macroblocks / seconds);
}

static int time_reels(char **reels, int count)
{
    for (int k = 0; k < count; k++) {
        double best[DECODERS];
        struct jobs jobs = jobs_of_reel(reels[k]);
        best_rounds(jobs, best);
        printf("%s: %d pictures of %d macroblocks\n", reels[k], jobs.count, jobs.job[0].macroblocks);
        for (int who = 0; who < DECODERS; who++)
            print_speed(DECODER[who].name, jobs, best[who]);
        printf("  the library takes %.2f times as long as plain C\n", best[LIBRARY] / best[PLAIN]);
        printf("  with a second pass plain C takes %.2f times as long, with one that skips zeros %.2f times\n",
            best[SECOND_PASS] / best[PLAIN], best[SKIPPING_PASS] / best[PLAIN]);
    }
    return 0;
}

/* ---- run once, for an instruction counter that counts only inside these functions */

__attribute__((noinline))
static struct answer measured(reconstruct_function *reconstruct, const struct job *job, uint8_t *output)
{
    return run(reconstruct, job, output);
}

__attribute__((noinline))
static size_t measured_transform(bool library, const int16_t coefficients[64], int16_t residues[64])
{
    size_t rows;
    if (!library)
        return (size_t)plain_transform(coefficients, residues);
    return format3_transform(coefficients, residues, &rows) == FORMAT3_ACCEPTED ? rows : 0;
}

/* Decodes a picture once and checks that answer and picture are those that the library gave before. */
static int once(reconstruct_function *reconstruct, const struct job *job)
{
    static uint8_t output[MAX_PICTURE_BYTES];
    struct answer expected = {job->number, job->result};
    struct answer answer = measured(reconstruct, job, output);
    if (same_answer(answer, expected) && memcmp(output, job->picture, job->picture_length) == 0)
        return 0;
    fprintf(stderr, "bench: not the picture\n");
    return 1;
}

/* Whether a word is the first of two. Exits if it is neither. */
static bool is_first(const char *word, const char *first, const char *second)
{
    if (strcmp(word, first) != 0 && strcmp(word, second) != 0) {
        fprintf(stderr, "bench: %s or %s, not %s\n", first, second, word);
        exit(2);
    }
    return strcmp(word, first) == 0;
}

static reconstruct_function *who_is(const char *word)
{
    for (int who = 0; who < DECODERS; who++)
        if (strcmp(word, DECODER[who].word) == 0)
            return DECODER[who].reconstruct;
    fprintf(stderr, "bench: no decoder %s\n", word);
    exit(2);
}

static const struct job *picture_of(const char *number, const char *reel)
{
    struct jobs jobs = jobs_of_reel(reel);
    int k = atoi(number);
    if (k < 1 || k > jobs.count) {
        fprintf(stderr, "bench: %s has no picture %s\n", reel, number);
        exit(2);
    }
    return &jobs.job[k - 1];
}

static int whole_reel(reconstruct_function *reconstruct, const char *reel)
{
    struct jobs jobs = jobs_of_reel(reel);
    for (int k = 0; k < jobs.count; k++)
        if (once(reconstruct, &jobs.job[k]) != 0)
            return 1;
    return 0;
}

static int reel(const char *who, const char *number, const char *path)
{
    reconstruct_function *reconstruct = who_is(who);
    return strcmp(number, "all") == 0 ? whole_reel(reconstruct, path) : once(reconstruct, picture_of(number, path));
}

static enum made_kind kind_of(const char *kind)
{
    static const char *const names[] = {"intra", "whole", "half", "mixed"};
    for (int k = MADE_INTRA; k <= MADE_MIXED; k++)
        if (strcmp(kind, names[k]) == 0)
            return (enum made_kind)k;
    fprintf(stderr, "bench: no kind %s\n", kind);
    exit(2);
}

static struct job made_of(char **argument)
{
    return made_job(kind_of(argument[0]), atoi(argument[1]), atoi(argument[2]));
}

static struct job rows_of(char **argument)
{
    bool refused = is_first(argument[0], "refused", "whole");
    return rows_job(atoi(argument[1]), (unsigned)strtoul(argument[2], NULL, 0), refused);
}

static int made(const char *who, struct job job)
{
    return once(who_is(who), &job);
}

static int transform(const char *who)
{
    int16_t coefficients[64] __attribute__((aligned(STACK_ALIGNMENT))), residues[64];
    for (int k = 0; k < 64; k++)
        coefficients[k] = (int16_t)((37 * k % 61 - 30) * 5);
    return measured_transform(is_first(who, "library", "plain"), coefficients, residues) == 8 ? 0 : 1;
}

static int census(struct job job)
{
#ifdef PLAIN_CENSUS
    memset(&plain_census, 0, sizeof plain_census);
    int failed = once(plain_reconstruct, &job);
    printf("%c %d %lu %lu %lu %lu %lu %lu\n", job.letter, job.macroblocks, plain_census.pairs, plain_census.transforms,
        plain_census.whole_pel_fetches, plain_census.half_pel_fetches, plain_census.means_of_both, plain_census.stores);
    return failed;
#else
    (void)job;
    fprintf(stderr, "bench: not compiled with PLAIN_CENSUS\n");
    return 2;
#endif
}

int main(int count, char **argument)
{
    const char *command = count > 1 ? argument[1] : "";
    require_version();
    if (strcmp(command, "compare") == 0)
        return compare(argument + 2, count - 2);
    if (strcmp(command, "time") == 0)
        return time_reels(argument + 2, count - 2);
    if (strcmp(command, "reel") == 0 && count == 5)
        return reel(argument[2], argument[3], argument[4]);
    if (strcmp(command, "made") == 0 && count == 6)
        return made(argument[2], made_of(argument + 3));
    if (strcmp(command, "rows") == 0 && count == 6)
        return made(argument[2], rows_of(argument + 3));
    if (strcmp(command, "transform") == 0 && count == 3)
        return transform(argument[2]);
    if (strcmp(command, "reel-census") == 0 && count == 4)
        return census(*picture_of(argument[2], argument[3]));
    if (strcmp(command, "made-census") == 0 && count == 5)
        return census(made_of(argument + 2));
    fprintf(stderr, "bench: see the head of bench.c for its arguments\n");
    return 2;
}
