/*
 * Hands the paper's example events to the gate and lists the answers. Valid in
 * C++ too.
 *
 *     cc -std=c11 -Wall -Wextra -Werror -I include examples/c/day.c \
 *        target/staticlib/libguvontsira.a -o target/c-day && target/c-day
 */
#include <stdio.h>
#include <stdlib.h>

#include "guvontsira.h"

enum { CUSTOMERS = 8, SECURITIES = 16 };

static uint32_t words[GUVONTSIRA_WORD_COUNT(CUSTOMERS, SECURITIES)];
static const size_t word_count = sizeof words / sizeof words[0];

static uint8_t event[GUVONTSIRA_MAX_LENGTH];

static void hand_in(size_t length)
{
    static unsigned index = 0;
    const uint32_t answer = guvontsira_handle(words, word_count, event, length);
    printf("%u %u %s\n", index++, (unsigned)event[0], guvontsira_answer_text(answer));
}

/* An online limit order of customer 0 for security 0, main board. */
static void limit_order(uint32_t number, enum guvontsira_side side, uint32_t price, uint32_t volume)
{
    hand_in(guvontsira_order_event(event, 0, number, 0, GUVONTSIRA_BOARD_MAIN, side,
                                   GUVONTSIRA_TYPE_LIMIT, GUVONTSIRA_CHANNEL_ONLINE, price,
                                   volume));
}

int main(void)
{
    if (guvontsira_version() != GUVONTSIRA_VERSION) {
        fputs("guvontsira.h and libguvontsira.a are of two releases\n", stderr);
        return EXIT_FAILURE;
    }
    if (guvontsira_make(words, word_count, CUSTOMERS, SECURITIES) != GUVONTSIRA_OK) {
        return EXIT_FAILURE;
    }
    printf("screen %d %d\n", CUSTOMERS, SECURITIES);
    hand_in(guvontsira_session_event(event, GUVONTSIRA_SESSION_OPEN));
    hand_in(guvontsira_prices_event(event, 0, GUVONTSIRA_BOARD_MAIN, 0, 5000, 4975, 5025));
    limit_order(1, GUVONTSIRA_SIDE_BUY, 5000, 100);
    limit_order(2, GUVONTSIRA_SIDE_SELL, 5000, 100);
    hand_in(guvontsira_cancel_event(event, 0, 1));
    hand_in(guvontsira_cancel_event(event, 0, 1));
    return EXIT_SUCCESS;
}
