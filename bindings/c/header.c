/*
 * What the header has besides the calls: how an answer is laid out, the version, and a sentence for each refusal. It is built as C and
 * as C++, and ends with status 0, or at the first line that does not hold.
 */
#include <asogeren.h>
#include <stdio.h>
#include <string.h>

#define HOLD(fact)                                                                                                                     \
    do {                                                                                                                               \
        if (!(fact)) {                                                                                                                 \
            printf("header.c, line %d: %s does not hold\n", __LINE__, #fact);                                                          \
            return 1;                                                                                                                  \
        }                                                                                                                              \
    } while (0)

static int says(uint64_t refusal, const char *text) { return strcmp(asogeren_refusal_text(refusal), text) == 0; }

int main(void)
{
    const char *none = "no call gives this number";
    char numbers[40];
    uint64_t i, j;

    HOLD(sizeof(struct asogeren_answer) == 16);
    HOLD(offsetof(struct asogeren_answer, refusal) == 0);
    HOLD(offsetof(struct asogeren_answer, value) == 8);

    snprintf(numbers, sizeof numbers, "%d.%d.%d", ASOGEREN_VERSION_MAJOR, ASOGEREN_VERSION_MINOR, ASOGEREN_VERSION_PATCH);
    HOLD(strcmp(numbers, ASOGEREN_VERSION) == 0);

    /* no two sentences alike; 10 is of the line program alone, and 11 to 18 are still to come */
    for (i = ASOGEREN_GIVEN; i <= ASOGEREN_TOO_SHORT; i++) {
        HOLD(!says(i, "") && !says(i, none));
        for (j = 0; j < i; j++)
            HOLD(!says(i, asogeren_refusal_text(j)));
    }
    for (i = ASOGEREN_TOO_SHORT + 1; i <= 20; i++)
        HOLD(says(i, none));
    HOLD(says(UINT64_MAX, none));
    HOLD(says(ASOGEREN_ALREADY_FREE, "a position that is given back is free already"));
    return 0;
}
