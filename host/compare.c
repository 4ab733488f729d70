/*
 * Compares the archive with the reference, call by call, up to the first difference.
 *
 *   compare COUNT SEED..       so many calls of the list of each seed; then what they reached, and long lengths
 *   compare case SEED INDEX    prints one of them, with both outcomes
 */
#include "long.h"
#include "reference.h"
#include "trial.h"

#include <errno.h>
#include <inttypes.h>
#include <sanitizer/common_interface_defs.h>
#include <stdlib.h>
#include <string.h>

/* The call at hand, for the last words. */
static struct {
    uint64_t seed, index;
    const char *kind;
} at_hand;

/* AddressSanitizer asks for these when the program starts. Where memory came from and how it was filled takes time,
   and the last words say which call it was. */
const char *__asan_default_options(void);
const char *__asan_default_options(void)
{
    return "quarantine_size_mb=4:malloc_context_size=0:max_malloc_fill_size=0:detect_leaks=0:handle_abort=1:"
           "handle_sigill=1";
}

static void say_last_words(void)
{
    if (at_hand.kind)
        fprintf(stderr, "seed %" PRIu64 ", call %" PRIu64 ", %s: ended here\n", at_hand.seed, at_hand.index,
                at_hand.kind);
}

/* How memory is placed for a call: by its seed and index (splitmix64). */
static uint64_t salt_of(uint64_t seed, uint64_t index)
{
    uint64_t mixed = (seed << 32 ^ index) * 0x9E3779B97F4A7C15;
    mixed = (mixed ^ mixed >> 30) * 0xBF58476D1CE4E5B9;
    mixed = (mixed ^ mixed >> 27) * 0x94D049BB133111EB;
    return mixed ^ mixed >> 31;
}

static void step(struct reference *reference, uint64_t seed, uint64_t index, struct host_case *c)
{
    reference_next(reference, c);
    at_hand.seed = seed;
    at_hand.index = index;
    at_hand.kind = kind_names[c->kind];
}

static bool list_agrees(struct reference *reference, uint64_t count, uint64_t seed)
{
    reference_begin(reference, seed);
    for (uint64_t index = 0; index < count; index++) {
        struct host_case c;
        step(reference, seed, index, &c);
        if (!agrees(&c, salt_of(seed, index), stdout)) {
            printf("seed %" PRIu64 ", call %" PRIu64 ": the archive differs\n", seed, index);
            return false;
        }
        reference_count(reference);
    }
    at_hand.kind = NULL;
    printf("seed %" PRIu64 ": %" PRIu64 " calls of the archive, no difference\n", seed, count);
    fflush(stdout);
    return true;
}

static bool lists_agree(struct reference *reference, uint64_t count, int seeds, uint64_t *seed)
{
    for (int i = 0; i < seeds; i++)
        if (!list_agrees(reference, count, seed[i]))
            return false;
    return true;
}

static void print_case(struct reference *reference, uint64_t seed, uint64_t index)
{
    struct host_case c;
    reference_begin(reference, seed);
    for (uint64_t i = 0; i <= index; i++)
        step(reference, seed, i, &c);
    printf("seed %" PRIu64 ", call %" PRIu64 "\n", seed, index);
    print_trial(&c, salt_of(seed, index), stdout);
}

static bool read_number(const char *word, uint64_t *number)
{
    char *end;
    errno = 0;
    *number = strtoull(word, &end, 10);
    return *word >= '0' && *word <= '9' && *end == '\0' && errno == 0;
}

static int run(int words, char **word)
{
    enum { SEEDS = 64 };
    uint64_t number[SEEDS + 1];
    bool is_case = words == 3 && !strcmp(word[0], "case");
    int from = is_case ? 1 : 0;
    bool is_good = words >= 2 && words - from <= SEEDS + 1;
    for (int i = from; is_good && i < words; i++)
        is_good = read_number(word[i], &number[i - from]);
    if (!is_good) {
        fprintf(stderr, "usage: host/run COUNT SEED.. | host/run case SEED INDEX\n");
        return 2;
    }
    struct reference *reference = reference_open(1);
    bool agreed = true;
    if (is_case) {
        print_case(reference, number[0], number[1]);
    } else {
        agreed = lists_agree(reference, number[0], words - 1, number + 1);
        if (agreed) {
            printf("places reached:\n");
            fflush(stdout);
            agreed = reference_report(reference);
            reference_begin(reference, number[1]);
            agreed = long_lengths_agree(reference, stdout) && agreed;
        }
    }
    reference_close(reference);
    return agreed ? 0 : 1;
}

int main(int count, char **words)
{
    __sanitizer_set_death_callback(say_last_words);
    return run(count - 1, words + 1);
}
