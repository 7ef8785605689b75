/* Every call and every refusal from C. Prints each answer that is not as it should be, and last `N passed, M failed`. */
#include <asogeren.h>
#include <inttypes.h>
#include <stdio.h>
#include <stdlib.h>
#include <string.h>

static unsigned long passed, failed;

static void hold(int line, const char *what, int holds)
{
    if (holds) {
        passed++;
    } else {
        failed++;
        printf("line %d: %s does not hold\n", line, what);
    }
}

static void answers(int line, const char *call, struct asogeren_answer got, uint64_t refusal, uint64_t value)
{
    if (got.refusal == refusal && got.value == value) {
        passed++;
    } else {
        failed++;
        printf("line %d: %s: refusal %" PRIu64 ", value %" PRIu64 ", and not refusal %" PRIu64 ", value %" PRIu64 "\n", line, call,
               got.refusal, got.value, refusal, value);
    }
}

#define HOLDS(fact) hold(__LINE__, #fact, (fact) != 0)
#define GIVES(call, value) answers(__LINE__, #call, call, ASOGEREN_GIVEN, value)
#define REFUSES(call, refusal) answers(__LINE__, #call, call, refusal, 0)

/* A map of 256 positions, and what it was before the calls that change nothing. */
static uint16_t map[ASOGEREN_BITALLOC256_WORDS], kept[ASOGEREN_BITALLOC256_WORDS];
#define MAP map, ASOGEREN_BITALLOC256_WORDS

static void keep(void) { memcpy(kept, map, sizeof map); }
static int same(void) { return memcmp(kept, map, sizeof map) == 0; }

static void the_calls(void)
{
    memset(map, 0, sizeof map);
    GIVES(asogeren_is_empty(MAP), 1);
    GIVES(asogeren_check(MAP), 1);
    GIVES(asogeren_insert(MAP, 0, 16), 0);
    HOLDS(map[0] == 0x0001 && map[1] == 0xffff && map[2] == 0);
    GIVES(asogeren_remove(MAP, 2, 8), 0);
    HOLDS(map[1] == 0xff03);
    GIVES(asogeren_is_empty(MAP), 0);
    GIVES(asogeren_test(MAP, 1), 1);
    GIVES(asogeren_test(MAP, 2), 0);
    GIVES(asogeren_next(MAP, 2), 8);
    GIVES(asogeren_alloc(MAP), 0);
    GIVES(asogeren_alloc(MAP), 1);
    GIVES(asogeren_alloc(MAP), 8);
    HOLDS(map[1] == 0xfe00);
    GIVES(asogeren_dealloc(MAP, 8), 0);
    GIVES(asogeren_next(MAP, 0), 8);
    GIVES(asogeren_alloc_contiguous_at(MAP, 8, 8, 3), 8);
    GIVES(asogeren_is_empty(MAP), 1);
    GIVES(asogeren_dealloc_contiguous(MAP, 14, 6), 0);
    HOLDS(map[0] == 0x0003 && map[1] == 0xc000 && map[2] == 0x000f);
    GIVES(asogeren_alloc_contiguous(MAP, 6, 1), 14);
    HOLDS(map[0] == 0 && map[1] == 0 && map[2] == 0);
    GIVES(asogeren_check(MAP), 1);
}

static void the_refusals_of_takes(void)
{
    memset(map, 0, sizeof map);
    keep();
    REFUSES(asogeren_alloc(MAP), ASOGEREN_NONE_FREE);
    REFUSES(asogeren_alloc_contiguous(MAP, 1, 0), ASOGEREN_NONE_FREE);
    REFUSES(asogeren_next(MAP, 0), ASOGEREN_NONE_FREE);
    HOLDS(same());

    GIVES(asogeren_insert(MAP, 0, 256), 0);
    keep();
    REFUSES(asogeren_next(MAP, 256), ASOGEREN_NONE_FREE);
    REFUSES(asogeren_next(MAP, SIZE_MAX), ASOGEREN_NONE_FREE);
    REFUSES(asogeren_alloc_contiguous(MAP, 0, 64), ASOGEREN_ALIGNMENT);
    REFUSES(asogeren_alloc_contiguous(MAP, 0, 9), ASOGEREN_ALIGNMENT);
    REFUSES(asogeren_alloc_contiguous(MAP, 0, 8), ASOGEREN_NO_SIZE);
    REFUSES(asogeren_alloc_contiguous(MAP, 257, 0), ASOGEREN_NONE_FREE);
    REFUSES(asogeren_alloc_contiguous(MAP, SIZE_MAX, 0), ASOGEREN_NONE_FREE);
    REFUSES(asogeren_alloc_contiguous_at(MAP, 18, 0, 2), ASOGEREN_ALIGNMENT);
    REFUSES(asogeren_alloc_contiguous_at(MAP, 0, 1, SIZE_MAX), ASOGEREN_ALIGNMENT);
    REFUSES(asogeren_alloc_contiguous_at(MAP, 1000, 0, 0), ASOGEREN_NO_SIZE);
    REFUSES(asogeren_alloc_contiguous_at(MAP, 254, 4, 0), ASOGEREN_PAST_END);
    REFUSES(asogeren_alloc_contiguous_at(MAP, 2, SIZE_MAX, 1), ASOGEREN_PAST_END);
    HOLDS(same());
    GIVES(asogeren_remove(MAP, 20, 21), 0);
    keep();
    REFUSES(asogeren_alloc_contiguous_at(MAP, 16, 8, 3), ASOGEREN_NONE_FREE);
    HOLDS(same());
}

static void the_refusals_of_changes(void)
{
    memset(map, 0, sizeof map);
    GIVES(asogeren_insert(MAP, 20, 21), 0);
    keep();
    REFUSES(asogeren_dealloc(MAP, 256), ASOGEREN_PAST_END);
    REFUSES(asogeren_dealloc(MAP, SIZE_MAX), ASOGEREN_PAST_END);
    REFUSES(asogeren_dealloc(MAP, 20), ASOGEREN_ALREADY_FREE);
    REFUSES(asogeren_insert(MAP, 9, 8), ASOGEREN_PAST_END);
    REFUSES(asogeren_insert(MAP, 0, 257), ASOGEREN_PAST_END);
    REFUSES(asogeren_insert(MAP, 0, 0), ASOGEREN_NO_SIZE);
    REFUSES(asogeren_remove(MAP, SIZE_MAX, 8), ASOGEREN_PAST_END);
    REFUSES(asogeren_remove(MAP, 0, 257), ASOGEREN_PAST_END);
    REFUSES(asogeren_remove(MAP, 256, 256), ASOGEREN_NO_SIZE);
    REFUSES(asogeren_test(MAP, 256), ASOGEREN_PAST_END);
    HOLDS(same());
}

/* What both run give-backs do alike. */
static void a_run_given_back(struct asogeren_answer (*give)(uint16_t *, size_t, size_t, size_t))
{
    memset(map, 0, sizeof map);
    GIVES(give(MAP, 14, 6), 0);
    HOLDS(map[0] == 0x0003 && map[1] == 0xc000 && map[2] == 0x000f);
    keep();
    REFUSES(give(MAP, 257, 0), ASOGEREN_PAST_END);
    REFUSES(give(MAP, 255, 2), ASOGEREN_PAST_END);
    REFUSES(give(MAP, 19, 238), ASOGEREN_PAST_END); /* before 6: position 19 is free */
    REFUSES(give(MAP, 1, SIZE_MAX), ASOGEREN_PAST_END);
    REFUSES(give(MAP, 256, 0), ASOGEREN_NO_SIZE);
    REFUSES(give(MAP, 14, 0), ASOGEREN_NO_SIZE);
    REFUSES(give(MAP, 15, 1), ASOGEREN_ALREADY_FREE);
    REFUSES(give(MAP, 8, 248), ASOGEREN_ALREADY_FREE);
    HOLDS(same());

    /* on a map that is not true a success makes the words that insert makes: no bit outside the run is mended */
    memset(map, 0, sizeof map);
    map[0] = 0x8002;
    map[3] = 0x0001;
    keep();
    GIVES(asogeren_insert(kept, ASOGEREN_BITALLOC256_WORDS, 14, 20), 0);
    GIVES(give(MAP, 14, 6), 0);
    HOLDS(same());
    HOLDS(map[0] == 0x8003 && map[1] == 0xc000 && map[2] == 0x000f && map[3] == 0x0001);
}

/* A run whose second leaf word has a free position: by default no word changes, and the crate's way has freed the first. */
static void a_run_partly_free(void)
{
    keep();
    REFUSES(asogeren_dealloc_contiguous(MAP, 0, 32), ASOGEREN_ALREADY_FREE);
    HOLDS(same());
    REFUSES(asogeren_dealloc_contiguous_old(MAP, 0, 32), ASOGEREN_ALREADY_FREE);
    HOLDS(map[0] == 0x0003 && map[1] == 0xffff && map[2] == 0x0010);
}

static void run_give_backs(void)
{
    a_run_given_back(asogeren_dealloc_contiguous);
    a_run_given_back(asogeren_dealloc_contiguous_old);

    memset(map, 0, sizeof map);
    GIVES(asogeren_insert(MAP, 20, 21), 0);
    HOLDS(map[0] == 0x0002 && map[1] == 0x0000 && map[2] == 0x0010);
    a_run_partly_free();

    /* the leaf bit decides, also where the map is not true and its own word says nothing of it */
    memset(map, 0, sizeof map);
    map[2] = 0x0010;
    a_run_partly_free();
}

static void a_map_that_is_not_true(void)
{
    memset(map, 0, sizeof map);
    map[0] = 0x0001;
    keep();
    GIVES(asogeren_check(MAP), 0);
    REFUSES(asogeren_alloc(MAP), ASOGEREN_UNTRUE);
    REFUSES(asogeren_next(MAP, 0), ASOGEREN_NONE_FREE);
    HOLDS(same());
}

static void images(void)
{
    static const uint8_t start[] = {1, 0, 0, 0, 3, 0, 16, 0, 0, 0, 0, 0xc0, 0x0f, 0};
    uint8_t bytes[44], wrong[42];
    uint16_t target[20], before[20];
    size_t i;

    memset(map, 0, sizeof map);
    GIVES(asogeren_insert(MAP, 14, 20), 0);
    keep();
    memset(bytes, 0xaa, sizeof bytes);
    REFUSES(asogeren_image_write(MAP, bytes, 41), ASOGEREN_TOO_SHORT);
    REFUSES(asogeren_image_write(MAP, NULL, 0), ASOGEREN_TOO_SHORT);
    HOLDS(bytes[0] == 0xaa && bytes[40] == 0xaa);
    GIVES(asogeren_image_write(MAP, bytes, sizeof bytes), 42);
    HOLDS(memcmp(bytes, start, sizeof start) == 0);
    for (i = sizeof start; i < 42; i++)
        HOLDS(bytes[i] == 0);
    HOLDS(bytes[42] == 0xaa && bytes[43] == 0xaa);
    HOLDS(same());

    memset(target, 0xbb, sizeof target);
    memcpy(before, target, sizeof target);
    REFUSES(asogeren_image_read(bytes, 44, target, 20), ASOGEREN_BAD_IMAGE);
    REFUSES(asogeren_image_read(NULL, 0, NULL, 0), ASOGEREN_BAD_IMAGE);
    REFUSES(asogeren_image_read(bytes, 42, target, 16), ASOGEREN_TOO_SHORT);
    REFUSES(asogeren_image_read(bytes, 42, NULL, 0), ASOGEREN_TOO_SHORT);
    memcpy(wrong, bytes, sizeof wrong);
    wrong[9] = 1; /* the count of the second section */
    REFUSES(asogeren_image_read(wrong, 42, target, 16), ASOGEREN_BAD_IMAGE);
    memcpy(wrong, bytes, sizeof wrong);
    wrong[4] = 1; /* the own word: a child that is not empty goes unsaid */
    REFUSES(asogeren_image_read(wrong, 42, target, 16), ASOGEREN_TOO_SHORT);
    REFUSES(asogeren_image_read(wrong, 42, target, 20), ASOGEREN_UNTRUE);
    HOLDS(memcmp(before, target, sizeof target) == 0);
    GIVES(asogeren_image_read(bytes, 42, target, 20), 2);
    HOLDS(memcmp(target, map, sizeof map) == 0);
    HOLDS(target[17] == 0xbbbb && target[19] == 0xbbbb);

    memset(map, 0, sizeof map);
    map[0] = 0x0001;
    REFUSES(asogeren_image_write(MAP, NULL, 0), ASOGEREN_UNTRUE);
}

/* Refusal 1 comes before every other; with a count of 0 the pointer may be NULL, or any other. */
static void every_call_refuses(uint16_t *store, size_t count)
{
    REFUSES(asogeren_alloc(store, count), ASOGEREN_WORD_COUNT);
    REFUSES(asogeren_alloc_contiguous(store, count, 0, 64), ASOGEREN_WORD_COUNT);
    REFUSES(asogeren_alloc_contiguous_at(store, count, 1, 0, 64), ASOGEREN_WORD_COUNT);
    REFUSES(asogeren_next(store, count, SIZE_MAX), ASOGEREN_WORD_COUNT);
    REFUSES(asogeren_dealloc(store, count, SIZE_MAX), ASOGEREN_WORD_COUNT);
    REFUSES(asogeren_dealloc_contiguous(store, count, SIZE_MAX, SIZE_MAX), ASOGEREN_WORD_COUNT);
    REFUSES(asogeren_dealloc_contiguous_old(store, count, SIZE_MAX, SIZE_MAX), ASOGEREN_WORD_COUNT);
    REFUSES(asogeren_insert(store, count, 1, 0), ASOGEREN_WORD_COUNT);
    REFUSES(asogeren_remove(store, count, 0, 0), ASOGEREN_WORD_COUNT);
    REFUSES(asogeren_is_empty(store, count), ASOGEREN_WORD_COUNT);
    REFUSES(asogeren_test(store, count, SIZE_MAX), ASOGEREN_WORD_COUNT);
    REFUSES(asogeren_check(store, count), ASOGEREN_WORD_COUNT);
    REFUSES(asogeren_image_write(store, count, NULL, 0), ASOGEREN_WORD_COUNT);
}

static void word_counts(void)
{
    static const size_t none[] = {2, 15, 16};
    size_t i;

    every_call_refuses(NULL, 0);
    memset(map, 0xff, sizeof map);
    keep();
    every_call_refuses(map + 1, 0);
    for (i = 0; i < sizeof none / sizeof none[0]; i++)
        every_call_refuses(map, none[i]);
    HOLDS(same());
}

/* Each size, from its last position down, with its image. */
static void the_sizes(void)
{
#define SIZE(name) {ASOGEREN_BITALLOC##name##_CAP, ASOGEREN_BITALLOC##name##_WORDS, ASOGEREN_BITALLOC##name##_IMAGE_BYTES}
    static const struct { size_t cap, words, bytes; } sizes[] = {SIZE(16), SIZE(256), SIZE(4K), SIZE(64K), SIZE(1M), SIZE(16M), SIZE(256M)};
    size_t i;

    for (i = 0; i < sizeof sizes / sizeof sizes[0]; i++) {
        const size_t cap = sizes[i].cap, count = sizes[i].words, length = sizes[i].bytes;
        uint16_t *store = calloc(count, sizeof *store);
        uint8_t *image = malloc(length);

        HOLDS(store != NULL && image != NULL);
        if (store == NULL || image == NULL)
            return;
        GIVES(asogeren_dealloc(store, count, cap - 1), 0);
        GIVES(asogeren_test(store, count, cap - 1), 1);
        REFUSES(asogeren_test(store, count, cap), ASOGEREN_PAST_END);
        GIVES(asogeren_next(store, count, 0), cap - 1);
        GIVES(asogeren_check(store, count), 1);
        REFUSES(asogeren_image_write(store, count, image, length - 1), ASOGEREN_TOO_SHORT);
        GIVES(asogeren_image_write(store, count, image, length), length);
        GIVES(asogeren_insert(store, count, 0, cap), 0);
        GIVES(asogeren_image_read(image, length, store, count), i + 1);
        GIVES(asogeren_next(store, count, 0), cap - 1);
        GIVES(asogeren_insert(store, count, 0, cap), 0);
        GIVES(asogeren_alloc_contiguous(store, count, cap, 4 * (i + 1)), 0);
        GIVES(asogeren_is_empty(store, count), 1);
        free(image);
        free(store);
    }
}

int main(void)
{
    the_calls();
    the_refusals_of_takes();
    the_refusals_of_changes();
    run_give_backs();
    a_map_that_is_not_true();
    images();
    word_counts();
    the_sizes();
    printf("%lu passed, %lu failed\n", passed, failed);
    return failed != 0;
}
