/*
 * The day program again, by the library: reads at most 65,536 bytes of events
 * from standard input, hands them to the gate in one call and lists the answers
 * in the header's words.
 *
 *     cc -std=c11 -Wall -Wextra -Werror -I include examples/c/listing.c \
 *        target/staticlib/libguvontsira.a -o target/c-listing && target/c-listing < day.bin
 */
#include <stdio.h>
#include <stdlib.h>

#include "guvontsira.h"

enum { CUSTOMERS = 8, SECURITIES = 16, MOST_BYTES = 65536 };

static uint32_t words[GUVONTSIRA_WORD_COUNT(CUSTOMERS, SECURITIES)];
static uint8_t events[MOST_BYTES];
/* Every event but the last takes two bytes or more. */
static uint32_t answers[MOST_BYTES / 2];

#define COUNT(array) (sizeof(array) / sizeof(array)[0])

/* How many bytes the event takes; 0 where its kind is unknown, which ends a run. */
static size_t length_of(uint8_t kind)
{
    switch (kind) {
    case GUVONTSIRA_KIND_CLOCK: return GUVONTSIRA_CLOCK_LENGTH;
    case GUVONTSIRA_KIND_SESSION: return GUVONTSIRA_SESSION_LENGTH;
    case GUVONTSIRA_KIND_SETUP: return GUVONTSIRA_SETUP_LENGTH;
    case GUVONTSIRA_KIND_PRICES: return GUVONTSIRA_PRICES_LENGTH;
    case GUVONTSIRA_KIND_ORDER: return GUVONTSIRA_ORDER_LENGTH;
    case GUVONTSIRA_KIND_CANCEL: return GUVONTSIRA_CANCEL_LENGTH;
    case GUVONTSIRA_KIND_MATCH: return GUVONTSIRA_MATCH_LENGTH;
    case GUVONTSIRA_KIND_REST: return GUVONTSIRA_REST_LENGTH;
    case GUVONTSIRA_KIND_FIGURES: return GUVONTSIRA_FIGURES_LENGTH;
    default: return 0;
    }
}

int main(void)
{
    if (guvontsira_version() != GUVONTSIRA_VERSION
        || guvontsira_make(words, COUNT(words), CUSTOMERS, SECURITIES) != GUVONTSIRA_OK) {
        return EXIT_FAILURE;
    }
    const size_t length = fread(events, 1, sizeof events, stdin);
    const size_t handled =
        guvontsira_run(words, COUNT(words), events, length, answers, COUNT(answers));
    printf("screen %d %d\n", CUSTOMERS, SECURITIES);
    const uint8_t *event = events;
    for (size_t i = 0; i < handled; i++) {
        printf("%zu %u %s\n", i, (unsigned)*event, guvontsira_answer_text(answers[i]));
        event += length_of(*event);
    }
    return EXIT_SUCCESS;
}
