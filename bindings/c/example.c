/*
 * Pages of a small memory, handed out by a map of 4,096 positions. Run: it prints what is handed out.
 * Build (after ./install PREFIX): cc example.c $(PKG_CONFIG_PATH=PREFIX/lib/pkgconfig pkg-config --cflags --libs asogeren)
 */
#include <asogeren.h>
#include <inttypes.h>
#include <stdio.h>

static uint16_t pages[ASOGEREN_BITALLOC4K_WORDS]; /* all 0: every page taken */

/* Prints an answer, and says whether it is no refusal. */
static int told(const char *what, struct asogeren_answer answer)
{
    if (answer.refusal != ASOGEREN_GIVEN) {
        printf("%s: refusal %" PRIu64 "\n", what, answer.refusal);
        return 0;
    }
    printf("%s: %" PRIu64 "\n", what, answer.value);
    return 1;
}

int main(void)
{
    const size_t count = ASOGEREN_BITALLOC4K_WORDS;

    /* the first 1,000 pages are there to be handed out */
    told("insert 0 to 1000", asogeren_insert(pages, count, 0, 1000));

    told("a page", asogeren_alloc(pages, count));
    told("a page", asogeren_alloc(pages, count));
    told("64 pages at a multiple of 64", asogeren_alloc_contiguous(pages, count, 64, 6));
    told("16 pages at 512", asogeren_alloc_contiguous_at(pages, count, 512, 16, 4));

    told("page 1 back", asogeren_dealloc(pages, count, 1));
    if (!told("page 1 back once more", asogeren_dealloc(pages, count, 1)))
        puts("(it was free already)");
    told("64 pages back", asogeren_dealloc_contiguous(pages, count, 64, 64));

    /* page 528 is free already: by default nothing is given back, and the old way pages 512 to 527 are */
    told("17 pages from 512 on back", asogeren_dealloc_contiguous(pages, count, 512, 17));
    told("the first free page from 512 on", asogeren_next(pages, count, 512));
    told("17 pages from 512 on back, the old way", asogeren_dealloc_contiguous_old(pages, count, 512, 17));
    told("the first free page from 512 on", asogeren_next(pages, count, 512));
    told("1,000 pages", asogeren_alloc_contiguous(pages, count, 1000, 0));
    return 0;
}
