/* Holds the library against the plain reader over random cases: sessions cut
 * at random, by steps and by runs, handles, indexes, times of sides, images restored
 * and moved, and records, true and damaged.
 *
 *   compare [SEED [ROUNDS]]    a round's seed is SEED plus its place
 *   compare --replay FILE      runs a case that was written on a difference
 */
#define _POSIX_C_SOURCE 200809L

#include "cases.h"
#include "met.h"

#include <errno.h>
#include <signal.h>
#include <stdio.h>
#include <stdlib.h>
#include <string.h>
#include <unistd.h>

/* A round takes some hundredths of a second, even emulated. Within 300 rounds
 * the rarest answer came four times or more, from each of thirteen seeds. */
enum { DEFAULT_SEED = 1, DEFAULT_ROUNDS = 3000, ROUND_SECONDS = 120, ROUNDS_FOR_ALL = 300 };

static struct pair pair;
static struct script script, spare;
static struct tally tally;
static uint64_t round_seed;

/* The library broke off in the middle of a call, or never came back. */
static void broke_off(int number)
{
    fprintf(stderr, "compare: seed %llu: %s: broke off by signal %d; compare %llu 1 does it again\n",
            (unsigned long long)round_seed, operation_name(pair.doing), number,
            (unsigned long long)round_seed);
    _Exit(1);
}

/* Makes the case small, writes it and says what differs. */
static void report(void)
{
    char path[64], remark[320];
    alarm(0);
    script_shrink(&script, &spare, &pair);
    snprintf(path, sizeof path, "compare-%llu.case", (unsigned long long)round_seed);
    snprintf(remark, sizeof remark, "seed %llu: %s", (unsigned long long)round_seed,
             pair.difference);
    if (script_write(&script, path, remark))
        fprintf(stderr, "compare: %s (written to %s: calls %zu, bytes %zu)\n", remark,
                path, script.calls_n, script.input_n);
    else
        fprintf(stderr, "compare: %s (%s cannot be written: %s)\n", remark, path,
                strerror(errno));
}

typedef void case_maker(struct dice *, bool, struct script *, struct tally *);

static bool run_cases(struct dice *d, case_maker *make, bool damaged, unsigned times)
{
    for (unsigned i = 0; i < times; i++) {
        make(d, damaged, &script, &tally);
        if (!script_run(&script, &pair)) {
            report();
            return false;
        }
    }
    return true;
}

/* One round: 56 damaged inputs and about a thousand packets. */
static bool run_round(uint64_t seed)
{
    struct dice d = dice_seeded(seed);
    round_seed = seed;
    alarm(ROUND_SECONDS);
    return run_cases(&d, make_session_case, false, 2) &&
           run_cases(&d, make_session_case, true, 6) &&
           run_cases(&d, make_handle_case, false, 4) &&
           run_cases(&d, make_handle_case, true, 8) &&
           run_cases(&d, make_image_case, false, 1) &&
           run_cases(&d, make_image_case, true, 5) &&
           run_cases(&d, make_move_case, false, 2) &&
           run_cases(&d, make_move_case, true, 5) &&
           run_cases(&d, make_record_case, false, 1) &&
           run_cases(&d, make_record_case, true, 1) &&
           run_cases(&d, make_quote_case, false, 3) &&
           run_cases(&d, make_quote_case, true, 1) &&
           run_cases(&d, make_time_case, false, 4) &&
           run_cases(&d, make_time_case, true, 3) &&
           run_cases(&d, make_index_case, false, 2) &&
           run_cases(&d, make_index_case, true, 8) &&
           run_cases(&d, make_run_case, false, 1) &&
           run_cases(&d, make_run_case, true, 4);
}

static int run_rounds(uint64_t seed, uint64_t rounds)
{
    for (uint64_t i = 0; i < rounds; i++)
        if (!run_round(seed + i))
            return 1;
    printf("compare: seed %llu, %llu rounds: %lu packets, %lu damaged inputs, %lu calls, "
           "%lu sessions, %lu handles, %lu images, %lu records: no difference\n",
           (unsigned long long)seed, (unsigned long long)rounds, pair.packets,
           tally.damaged, pair.calls, tally.sessions, tally.handles, tally.images,
           tally.records);
    if (rounds < ROUNDS_FOR_ALL)
        printf("compare: fewer than %d rounds: not everything need be met\n", ROUNDS_FOR_ALL);
    return met_report(&pair.met, rounds >= ROUNDS_FOR_ALL) && fflush(stdout) == 0 ? 0 : 1;
}

static int replay(const char *path)
{
    long line = script_read(&script, path);
    if (line < 0)
        fprintf(stderr, "compare: %s: %s\n", path, strerror(errno));
    else if (line > 0)
        fprintf(stderr, "compare: %s: line %ld is no part of a case\n", path, line);
    if (line != 0)
        return 2;
    if (script_run(&script, &pair)) {
        printf("compare: %s: no difference\n", path);
        return 0;
    }
    fprintf(stderr, "compare: %s: %s\n", path, pair.difference);
    return 1;
}

/* A number in decimal, and nothing else. */
static bool number(const char *text, uint64_t *out)
{
    char *end;
    errno = 0;
    *out = strtoull(text, &end, 10);
    return text[0] >= '0' && text[0] <= '9' && *end == 0 && errno == 0;
}

int main(int argc, char **argv)
{
    uint64_t seed = DEFAULT_SEED, rounds = DEFAULT_ROUNDS;
    signal(SIGSEGV, broke_off);
    signal(SIGBUS, broke_off);
    signal(SIGILL, broke_off);
    signal(SIGFPE, broke_off);
    signal(SIGALRM, broke_off);
    if (argc == 3 && strcmp(argv[1], "--replay") == 0)
        return replay(argv[2]);
    if (argc > 3 || (argc > 1 && !number(argv[1], &seed)) ||
        (argc > 2 && !number(argv[2], &rounds))) {
        fprintf(stderr, "usage: compare [SEED [ROUNDS]] | compare --replay FILE\n");
        return 2;
    }
    if (!pair_sizes(&pair)) {
        fprintf(stderr, "compare: %s\n", pair.difference);
        return 1;
    }
    return run_rounds(seed, rounds);
}
