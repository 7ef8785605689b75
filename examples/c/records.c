/*
 * A small controller's table of 256 records, with a map of those that are free: records taken and given back, a run of them for a
 * trend, a give-back that is refused and put right, and the map saved and read back after a restart. Run: it prints what happens.
 * Build (after ./install PREFIX): cc records.c $(PKG_CONFIG_PATH=PREFIX/lib/pkgconfig pkg-config --cflags --libs asogeren)
 */
#include <asogeren.h>
#include <inttypes.h>
#include <stdio.h>
#include <string.h>

#define MAP map, ASOGEREN_BITALLOC256_WORDS

static uint16_t map[ASOGEREN_BITALLOC256_WORDS];        /* all 0: every record is taken */
static uint8_t flash[ASOGEREN_BITALLOC256_IMAGE_BYTES]; /* what lasts over a restart */

/* Prints an answer's value, or why there is none. */
static void told(const char *what, struct asogeren_answer answer)
{
    if (answer.refusal == ASOGEREN_GIVEN)
        printf("%s: %" PRIu64 "\n", what, answer.value);
    else
        printf("%s: %s (refusal %" PRIu64 ")\n", what, asogeren_refusal_text(answer.refusal), answer.refusal);
}

/* The same of a change, where it is enough that it was made. */
static void done(const char *what, struct asogeren_answer answer)
{
    if (answer.refusal == ASOGEREN_GIVEN)
        printf("%s: done\n", what);
    else
        told(what, answer);
}

int main(void)
{
    struct asogeren_answer trend, back;

    /* records 0 to 7 are the controller's own */
    done("records 8 to 255 are free", asogeren_insert(MAP, 8, ASOGEREN_BITALLOC256_CAP));

    told("blower 1 takes record", asogeren_alloc(MAP));
    told("blower 2 takes record", asogeren_alloc(MAP));
    told("blower 3 takes record", asogeren_alloc(MAP));
    trend = asogeren_alloc_contiguous(MAP, 16, 4);
    told("a trend takes 16 at a multiple of 16, from record", trend);
    done("blower 2 gives record 9 back", asogeren_dealloc(MAP, 9));
    done("and once more", asogeren_dealloc(MAP, 9));

    /* One too many: record 32 is free. Nothing was given back, so what was taken still can be. */
    back = asogeren_dealloc_contiguous(MAP, trend.value, 17);
    done("the trend gives 17 back", back);
    if (back.refusal == ASOGEREN_ALREADY_FREE)
        done("the trend gives 16 back", asogeren_dealloc_contiguous(MAP, trend.value, 16));

    told("saved, bytes", asogeren_image_write(MAP, flash, sizeof flash));
    memset(map, 0xff, sizeof map); /* the restart: memory holds anything */
    done("read back", asogeren_image_read(flash, sizeof flash, MAP));
    told("blower 4 takes record", asogeren_alloc(MAP));

    /* A damaged image is refused, and the map stays as it is. */
    flash[4] ^= 1;
    done("read back, damaged", asogeren_image_read(flash, sizeof flash, MAP));
    told("blower 5 takes record", asogeren_alloc(MAP));
    return 0;
}
