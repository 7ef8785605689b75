/*
 * asogeren: a bitmap allocator over words that the caller lends.
 *
 * The map. A map has n levels, 1 to 7, and 16^n positions, each free or taken. It is an array of 16-bit words, the store: its own
 * word, then its 16 children one after the other, each laid out in the same way. A leaf word has 16 positions, lowest bit first; 1
 * is free. A summary word has a bit for each child, which is set exactly where the child's own word is not 0. A map whose summary
 * bits all say so is true, and every call leaves a true map true. All words 0 is a true map with every position taken; to start,
 * insert what is free. How many words there are decides n (the constants below).
 *
 * In this text a position is free where its leaf bit and each summary bit above it are set. In a true map that is the leaf bit.
 * On a map that is not true a call does the same steps on the words as they stand.
 *
 * Answers. Each call returns by value two numbers: refusal 0 and the call's value, or the refusal's number and value 0. A refusal
 * leaves every word and byte as lent, save ASOGEREN_ALREADY_FREE from asogeren_dealloc_contiguous_old. Where more than one refusal
 * fits, the first in the order given with the call is returned. Every call is total: any count and any numbers are answered, and
 * which answer and which words afterwards is proved (crates/asogeren), for every input.
 *
 * What the caller has to keep, since nothing can test it:
 *   - A pointer with its count stands for that many elements, each of which was written before, in one object, readable for the
 *     time of the call and, where it is not const, writable. A uint16_t pointer is aligned to 2 bytes. Counts are of elements.
 *   - A count of 0 needs no object: the pointer may then be NULL, or anything else.
 *   - The arrays of one call do not overlap.
 *   - No other thread, interrupt or signal handler writes to them during a call, nor reads what the call may write.
 * No call keeps a pointer, allocates, calls another function, waits or takes a lock. Nothing is kept between calls but the words.
 */
#ifndef ASOGEREN_H
#define ASOGEREN_H

#include <stddef.h>
#include <stdint.h>

#if SIZE_MAX != UINT64_MAX
#error "asogeren is for targets with 64-bit sizes"
#endif

#ifdef __cplusplus
extern "C" {
#endif

/* The version of this header, and of the library that is installed with it. CHANGELOG.md says what each version changed. */
#define ASOGEREN_VERSION_MAJOR 0
#define ASOGEREN_VERSION_MINOR 4
#define ASOGEREN_VERSION_PATCH 0
#define ASOGEREN_VERSION "0.4.0"

/* The seven sizes: how many positions a map has, how many words, and how many bytes its image has. */
#define ASOGEREN_BITALLOC16_CAP 16
#define ASOGEREN_BITALLOC16_WORDS 1
#define ASOGEREN_BITALLOC16_IMAGE_BYTES 6
#define ASOGEREN_BITALLOC256_CAP 256
#define ASOGEREN_BITALLOC256_WORDS 17
#define ASOGEREN_BITALLOC256_IMAGE_BYTES 42
#define ASOGEREN_BITALLOC4K_CAP 4096
#define ASOGEREN_BITALLOC4K_WORDS 273
#define ASOGEREN_BITALLOC4K_IMAGE_BYTES 558
#define ASOGEREN_BITALLOC64K_CAP 65536
#define ASOGEREN_BITALLOC64K_WORDS 4369
#define ASOGEREN_BITALLOC64K_IMAGE_BYTES 8754
#define ASOGEREN_BITALLOC1M_CAP 1048576
#define ASOGEREN_BITALLOC1M_WORDS 69905
#define ASOGEREN_BITALLOC1M_IMAGE_BYTES 139830
#define ASOGEREN_BITALLOC16M_CAP 16777216
#define ASOGEREN_BITALLOC16M_WORDS 1118481
#define ASOGEREN_BITALLOC16M_IMAGE_BYTES 2236986
#define ASOGEREN_BITALLOC256M_CAP 268435456
#define ASOGEREN_BITALLOC256M_WORDS 17895697
#define ASOGEREN_BITALLOC256M_IMAGE_BYTES 35791422

/* What an answer's refusal is: 0, or why the call was refused. Later versions may give more numbers. */
enum asogeren_refusal {
    ASOGEREN_GIVEN = 0,
    ASOGEREN_WORD_COUNT = 1,   /* the count of words is not one of the seven */
    ASOGEREN_PAST_END = 2,     /* a position, or the end of a range, is past the map; or a range ends before it starts */
    ASOGEREN_NO_SIZE = 3,      /* a size of 0, or an empty range */
    ASOGEREN_ALIGNMENT = 4,    /* the alignment is larger than the map, or the base no multiple of it */
    ASOGEREN_NONE_FREE = 5,    /* no fitting position is free */
    ASOGEREN_ALREADY_FREE = 6, /* a position that is given back is free already */
    ASOGEREN_UNTRUE = 7,       /* the map's summary bits are not true */
    ASOGEREN_BAD_IMAGE = 8,    /* an image has a wrong length or a wrong section count */
    ASOGEREN_TOO_SHORT = 9     /* the target is too short */
};

/* The same as a sentence, for a log or a screen. It is never NULL, whatever the number. */
static inline const char *asogeren_refusal_text(uint64_t refusal)
{
    switch (refusal) {
    case ASOGEREN_GIVEN: return "the call was not refused";
    case ASOGEREN_WORD_COUNT: return "the count of words is not one of the seven";
    case ASOGEREN_PAST_END: return "a position is past the end of the map, or a range ends before it starts";
    case ASOGEREN_NO_SIZE: return "the size is 0, or the range is empty";
    case ASOGEREN_ALIGNMENT: return "the alignment is larger than the map, or the base is no multiple of it";
    case ASOGEREN_NONE_FREE: return "no fitting position is free";
    case ASOGEREN_ALREADY_FREE: return "a position that is given back is free already";
    case ASOGEREN_UNTRUE: return "the map's summary bits are not true";
    case ASOGEREN_BAD_IMAGE: return "the image has a wrong length or a wrong section count";
    case ASOGEREN_TOO_SHORT: return "the target is too short";
    default: return "no call gives this number";
    }
}

/* What every call returns. */
struct asogeren_answer {
    uint64_t refusal;
    uint64_t value;
};

/*
 * Takes the lowest free position. Value: the position. From the leaf word up, a word is stored only where one of its bits is cleared:
 * the position's in the leaf word, and a word's own bit in the word above it where that word became 0. Above the first word that did
 * not become 0, nothing is stored.
 * Refusals: ASOGEREN_WORD_COUNT; ASOGEREN_NONE_FREE where the first word is 0; ASOGEREN_UNTRUE where the lowest set bits lead to a
 * word that is 0.
 */
struct asogeren_answer asogeren_alloc(uint16_t *store, size_t store_count);

/*
 * Takes size positions in a row, all free, from the lowest base that is a multiple of 2^align_log2. Value: the base.
 * Refusals: ASOGEREN_WORD_COUNT; ASOGEREN_ALIGNMENT where align_log2 is 64 or more or 2^align_log2 is more than the positions;
 * ASOGEREN_NO_SIZE where size is 0; ASOGEREN_NONE_FREE where there is no such base.
 */
struct asogeren_answer asogeren_alloc_contiguous(uint16_t *store, size_t store_count, size_t size, size_t align_log2);

/*
 * Takes the size positions from base on. Value: the base.
 * Refusals: ASOGEREN_WORD_COUNT; ASOGEREN_ALIGNMENT as above, or where base is no multiple of 2^align_log2; ASOGEREN_NO_SIZE where
 * size is 0; ASOGEREN_PAST_END where base + size, taken exactly, is more than the positions; ASOGEREN_NONE_FREE where one of them
 * is not free.
 */
struct asogeren_answer asogeren_alloc_contiguous_at(uint16_t *store, size_t store_count, size_t base, size_t size, size_t align_log2);

/*
 * The lowest free position that is key or more; it stays free. Value: the position.
 * Refusals: ASOGEREN_WORD_COUNT; ASOGEREN_NONE_FREE where there is none, as where key is past the end.
 */
struct asogeren_answer asogeren_next(const uint16_t *store, size_t store_count, size_t key);

/*
 * Gives the position key back. Value: 0. Its leaf bit is set, and then, from the leaf word up, a word's bit in the word above it where
 * that word was 0 and is not now. Above the first word that did not go so, nothing is stored: in a map whose summary bits are not true,
 * the bits there stay as they are.
 * Refusals: ASOGEREN_WORD_COUNT; ASOGEREN_PAST_END where key is not below the positions; ASOGEREN_ALREADY_FREE where its leaf bit
 * is set.
 */
struct asogeren_answer asogeren_dealloc(uint16_t *store, size_t store_count, size_t key);

/*
 * Gives the size positions from base on back: all of them, or none. Value: 0.
 * Refusals: ASOGEREN_WORD_COUNT; ASOGEREN_PAST_END where base + size, taken exactly, is more than the positions; ASOGEREN_NO_SIZE
 * where size is 0; ASOGEREN_ALREADY_FREE where the leaf bit of one of them is set.
 */
struct asogeren_answer asogeren_dealloc_contiguous(uint16_t *store, size_t store_count, size_t base, size_t size);

/*
 * Gives the size positions from base on back, the Rust crate's way. Value: 0.
 * Refusals: as asogeren_dealloc_contiguous. ASOGEREN_ALREADY_FREE may change words here: leaf words are visited in rising order,
 * and in the first that has some of the run free already, and in all later ones, nothing is freed; the earlier ones have been
 * freed. The summary bits of the run are recomputed.
 */
struct asogeren_answer asogeren_dealloc_contiguous_old(uint16_t *store, size_t store_count, size_t base, size_t size);

/*
 * Makes the positions start to end - 1 free; some or all may be so already. Value: 0.
 * Refusals: ASOGEREN_WORD_COUNT; ASOGEREN_PAST_END where start is more than end, or end more than the positions; ASOGEREN_NO_SIZE
 * where start is end.
 */
struct asogeren_answer asogeren_insert(uint16_t *store, size_t store_count, size_t start, size_t end);

/*
 * Makes the positions start to end - 1 taken; some or all may be so already. Value: 0.
 * Refusals: as asogeren_insert.
 */
struct asogeren_answer asogeren_remove(uint16_t *store, size_t store_count, size_t start, size_t end);

/*
 * Value: 1 where the first word is 0, which in a true map says that no position is free; 0 where it is not.
 * Refusal: ASOGEREN_WORD_COUNT.
 */
struct asogeren_answer asogeren_is_empty(const uint16_t *store, size_t store_count);

/*
 * Value: 1 where the leaf bit of the position key is set, which in a true map says that it is free; 0 where it is not.
 * Refusals: ASOGEREN_WORD_COUNT; ASOGEREN_PAST_END where key is not below the positions.
 */
struct asogeren_answer asogeren_test(const uint16_t *store, size_t store_count, size_t key);

/*
 * Value: 1 where the map is true; 0 where it is not.
 * Refusal: ASOGEREN_WORD_COUNT.
 */
struct asogeren_answer asogeren_check(const uint16_t *store, size_t store_count);

/*
 * Writes the image of a true map to the first bytes of the target; the bytes behind them stay. Value: how many bytes were written.
 * An image has a section for each level, from the single top word down to the leaves: the count of its words as 4 bytes, lowest
 * byte first, then the words in rising order of position, 2 bytes each, lowest byte first. Its length is the size's _IMAGE_BYTES.
 * Refusals: ASOGEREN_WORD_COUNT; ASOGEREN_UNTRUE where the map is not true; ASOGEREN_TOO_SHORT where the target is shorter than the
 * image.
 */
struct asogeren_answer asogeren_image_write(const uint16_t *store, size_t store_count, uint8_t *target, size_t target_count);

/*
 * Reads an image into the first words of the target, which then are the map; the words behind them stay. Value: n, the levels.
 * The target is no map yet, so it may have any count of words.
 * Refusals: ASOGEREN_BAD_IMAGE where the bytes have not the length of an image, or a section has not its count;
 * ASOGEREN_TOO_SHORT where the target has fewer words than the map; ASOGEREN_UNTRUE where the map is not true.
 */
struct asogeren_answer asogeren_image_read(const uint8_t *bytes, size_t bytes_count, uint16_t *target, size_t target_count);

#ifdef __cplusplus
}
#endif

#endif
