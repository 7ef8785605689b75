/*
 * The driver of bench/stores, which runs it under valgrind's lackey and finds the stores of each call in the trace: single takes, each
 * followed by the giving back of a random taken position, on maps of three kinds at n = 2 to 5. Before the first call it prints where
 * things are, and the lines to come. The rest is told by stores alone, which stand in the trace in order: those to `mark`, and those
 * to `copy`, which after each call is put right where a word has changed.
 * With the argument `check`, and no valgrind, it does the same and checks that every map is true, before the first call and after each.
 */
#include <asogeren.h>
#include <stdio.h>
#include <stdlib.h>
#include <string.h>

enum { ROUNDS = 100 }; /* of a take and a give-back each */
static int checks;

/* A store to one of these says what begins there, or is over. */
enum { TAKE, GIVE_BACK, OVER, LINE_OVER };
static const char *const marks[] = {"take", "give-back", "over", "line-over"};
static volatile char mark[4];

static uint16_t words[ASOGEREN_BITALLOC1M_WORDS], copy[ASOGEREN_BITALLOC1M_WORDS];

/* Numbers that look random: xorshift, as in maps.rs. */
static uint64_t state;

static uint64_t any(void)
{
    state ^= state << 13;
    state ^= state >> 7;
    state ^= state << 17;
    return state * 0x2545f4914f6cdd1d >> 16;
}

/*
 * The leaf words of a map, in rising order. Half full: each position is free with a chance of one half. Nearly full and nearly empty: in
 * each stretch of 200 positions a random one is free, or is taken.
 */
enum kind { HALF_FULL, NEARLY_FULL, NEARLY_EMPTY };
static const char *const kinds[] = {"half full", "nearly full", "nearly empty"};
static size_t start, stretch, single; /* where the next leaf word and the next stretch start, and the one position to come */

static uint16_t leaf(enum kind kind)
{
    uint16_t singles = 0;

    if (kind == HALF_FULL)
        return (uint16_t)any();
    for (; single < start + 16; single = stretch + any() % 200, stretch += 200)
        singles |= (uint16_t)(1 << (single - start));
    start += 16;
    return kind == NEARLY_FULL ? singles : (uint16_t)~singles;
}

/* Makes the map of count words that starts at own. A summary bit is set exactly where the child's own word is not 0. */
static void make(uint16_t *own, size_t count, enum kind kind)
{
    const size_t child = (count - 1) / 16;
    size_t i;

    if (count == 1) {
        *own = leaf(kind);
        return;
    }
    *own = 0;
    for (i = 0; i < 16; i++) {
        make(own + 1 + i * child, child, kind);
        if (own[1 + i * child] != 0)
            *own |= (uint16_t)(1 << i);
    }
}

/* The maps are such that no call is refused: a refused one would make the figures mean something else. */
static uint64_t given(struct asogeren_answer answer, const char *call)
{
    if (answer.refusal != ASOGEREN_GIVEN) {
        fprintf(stderr, "stores: %s: %s\n", call, asogeren_refusal_text(answer.refusal));
        exit(2);
    }
    return answer.value;
}

static void check(size_t count)
{
    if (checks && given(asogeren_check(words, count), "a check") != 1) {
        fprintf(stderr, "stores: a map of %zu words is not true\n", count);
        exit(2);
    }
}

/* Puts the copy right. It is compared a piece at a time by memcmp, since the trace has a line for each instruction. */
static void put_right(size_t count)
{
    enum { PIECE = 256 };
    size_t from, i;

    for (from = 0; from < count; from += PIECE) {
        const size_t size = count - from < PIECE ? count - from : PIECE;

        if (memcmp(words + from, copy + from, size * sizeof words[0]) != 0)
            for (i = from; i < from + size; i++)
                if (words[i] != copy[i])
                    *(volatile uint16_t *)&copy[i] = words[i];
    }
    check(count);
}

static void run(enum kind kind, size_t n, size_t cap, size_t count)
{
    struct asogeren_answer answer;
    size_t round, at;

    state = 0x9e3779b97f4a7c15 ^ (uint64_t)n << 7;
    start = 0;
    stretch = 200;
    single = any() % 200;
    make(words, count, kind);
    memcpy(copy, words, count * sizeof words[0]);
    check(count);
    for (round = 0; round < ROUNDS; round++) {
        mark[TAKE] = 1;
        answer = asogeren_alloc(words, count);
        mark[OVER] = 1;
        put_right(count);
        given(answer, "a take");

        do
            at = any() % cap;
        while (given(asogeren_test(words, count, at), "a test") != 0);
        mark[GIVE_BACK] = 1;
        answer = asogeren_dealloc(words, count, at);
        mark[OVER] = 1;
        put_right(count);
        given(answer, "a give-back");
    }
    mark[LINE_OVER] = 1;
}

int main(int argc, char **argv)
{
    static const struct { size_t cap, count; } sizes[] = {
        {ASOGEREN_BITALLOC256_CAP, ASOGEREN_BITALLOC256_WORDS}, {ASOGEREN_BITALLOC4K_CAP, ASOGEREN_BITALLOC4K_WORDS},
        {ASOGEREN_BITALLOC64K_CAP, ASOGEREN_BITALLOC64K_WORDS}, {ASOGEREN_BITALLOC1M_CAP, ASOGEREN_BITALLOC1M_WORDS}};
    int kind;
    size_t i;

    checks = argc == 2 && strcmp(argv[1], "check") == 0;
    /* as lackey prints an address */
    for (i = 0; i < sizeof mark; i++)
        printf("mark %08lx %s\n", (unsigned long)&mark[i], marks[i]);
    printf("words %08lx\ncopy %08lx\nrounds %d\n", (unsigned long)words, (unsigned long)copy, ROUNDS);
    for (kind = HALF_FULL; kind <= NEARLY_EMPTY; kind++)
        for (i = 0; i < 4; i++)
            printf("line %zu %zu %s\n", i + 2, sizes[i].count, kinds[kind]);
    fflush(stdout);
    for (kind = HALF_FULL; kind <= NEARLY_EMPTY; kind++)
        for (i = 0; i < 4; i++)
            run((enum kind)kind, i + 2, sizes[i].cap, sizes[i].count);
    return 0;
}
