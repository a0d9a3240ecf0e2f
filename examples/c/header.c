/*
 * Holds the numbers of guvontsira.h to the library: events are built by the
 * header's places and codes, and again by its builders; words are read by its
 * places, and each answer is compared with its name. What agrees is listed with
 * its number; those in header.expected are the numbers of papers 01 and 02.
 *
 *     cc -std=c11 -Wall -Wextra -Werror -I include examples/c/header.c \
 *        target/staticlib/libguvontsira.a -o target/header && target/header
 */
#include <stdio.h>
#include <stdlib.h>
#include <string.h>
#include <ucontext.h>

#include "guvontsira.h"

enum { CUSTOMERS = 3, SECURITIES = 5, NOON = 43200000 };

static uint32_t words[GUVONTSIRA_WORD_COUNT(CUSTOMERS, SECURITIES)];
static uint32_t most_words[GUVONTSIRA_WORD_COUNT(GUVONTSIRA_MAX_CUSTOMERS,
                                                 GUVONTSIRA_MAX_SECURITIES)];
/* One customer and one security more than there may be. */
static uint32_t more_words[GUVONTSIRA_WORD_COUNT(GUVONTSIRA_MAX_CUSTOMERS + 1,
                                                 GUVONTSIRA_MAX_SECURITIES + 1)];

#define COUNT(array) (sizeof(array) / sizeof(array)[0])

static int status = EXIT_SUCCESS;

static void same(const char *name, size_t number, size_t expected, size_t found)
{
    if (expected == found) {
        printf("%s %zu\n", name, number);
    } else {
        printf("%s %zu: expected %zu, found %zu\n", name, number, expected, found);
        status = EXIT_FAILURE;
    }
}

/* The library's answer is the one of this name. */
#define ANSWERS(name, answer) same(#name, GUVONTSIRA_##name, GUVONTSIRA_##name, answer)

/* What an event set, or the library counted, stands at the word of this name. */
#define STANDS(name, start, expected) \
    same(#name, GUVONTSIRA_##name, expected, words[(start) + GUVONTSIRA_##name])

/* What is expected if the library means the same by this name's number. */
#define MEANS(name, expected, found) same(#name, GUVONTSIRA_##name, expected, found)

static void put(uint8_t *place, uint32_t value, int width)
{
    for (int byte = 0; byte < width; byte++) {
        place[byte] = (uint8_t)(value >> 8 * byte);
    }
}

static uint32_t hand_in(const uint8_t *event, size_t length)
{
    return guvontsira_handle(words, COUNT(words), event, length);
}

/* What a builder wrote here, to be the same as an event made by places. */
static uint8_t built[GUVONTSIRA_MAX_LENGTH];

static uint32_t hand_in_both(const uint8_t *event, size_t length, size_t built_length)
{
    if (built_length != length || memcmp(built, event, length) != 0) {
        same("built event of kind", event[0], 1, 0);
    }
    return hand_in(built, built_length);
}

static uint32_t clock_event(uint32_t time)
{
    uint8_t event[GUVONTSIRA_CLOCK_LENGTH] = {GUVONTSIRA_KIND_CLOCK};
    put(event + GUVONTSIRA_CLOCK_TIME_BYTE, time, 4);
    return hand_in_both(event, sizeof event, guvontsira_clock_event(built, time));
}

static uint32_t session(uint8_t code)
{
    uint8_t event[GUVONTSIRA_SESSION_LENGTH] = {GUVONTSIRA_KIND_SESSION};
    event[GUVONTSIRA_SESSION_CODE_BYTE] = code;
    return hand_in_both(event, sizeof event, guvontsira_session_event(built, code));
}

struct setup {
    uint16_t security;
    uint8_t lot, free, first_day;
    uint32_t prior_close, ipo;
};

static uint32_t setup(struct setup fields)
{
    uint8_t event[GUVONTSIRA_SETUP_LENGTH] = {GUVONTSIRA_KIND_SETUP};
    put(event + GUVONTSIRA_SETUP_SECURITY_BYTE, fields.security, 2);
    event[GUVONTSIRA_SETUP_LOT_BYTE] = fields.lot;
    event[GUVONTSIRA_SETUP_FREE_BYTE] = fields.free;
    event[GUVONTSIRA_SETUP_FIRST_DAY_BYTE] = fields.first_day;
    put(event + GUVONTSIRA_SETUP_PRIOR_CLOSE_BYTE, fields.prior_close, 4);
    put(event + GUVONTSIRA_SETUP_IPO_BYTE, fields.ipo, 4);
    return hand_in_both(event, sizeof event,
                        guvontsira_setup_event(built, fields.security, fields.lot, fields.free,
                                               fields.first_day, fields.prior_close, fields.ipo));
}

struct prices {
    uint16_t security;
    uint8_t board;
    uint32_t projected, last, bid, offer;
};

static uint32_t prices(struct prices fields)
{
    uint8_t event[GUVONTSIRA_PRICES_LENGTH] = {GUVONTSIRA_KIND_PRICES};
    put(event + GUVONTSIRA_PRICES_SECURITY_BYTE, fields.security, 2);
    event[GUVONTSIRA_PRICES_BOARD_BYTE] = fields.board;
    put(event + GUVONTSIRA_PRICES_PROJECTED_BYTE, fields.projected, 4);
    put(event + GUVONTSIRA_PRICES_LAST_BYTE, fields.last, 4);
    put(event + GUVONTSIRA_PRICES_BID_BYTE, fields.bid, 4);
    put(event + GUVONTSIRA_PRICES_OFFER_BYTE, fields.offer, 4);
    return hand_in_both(event, sizeof event,
                        guvontsira_prices_event(built, fields.security, fields.board,
                                                fields.projected, fields.last, fields.bid,
                                                fields.offer));
}

struct order {
    uint16_t customer;
    uint32_t number;
    uint16_t security;
    uint8_t board, side, type, channel;
    uint32_t price, volume;
};

static uint32_t order(struct order fields)
{
    uint8_t event[GUVONTSIRA_ORDER_LENGTH] = {GUVONTSIRA_KIND_ORDER};
    put(event + GUVONTSIRA_ORDER_CUSTOMER_BYTE, fields.customer, 2);
    put(event + GUVONTSIRA_ORDER_NUMBER_BYTE, fields.number, 4);
    put(event + GUVONTSIRA_ORDER_SECURITY_BYTE, fields.security, 2);
    event[GUVONTSIRA_ORDER_BOARD_BYTE] = fields.board;
    event[GUVONTSIRA_ORDER_SIDE_BYTE] = fields.side;
    event[GUVONTSIRA_ORDER_TYPE_BYTE] = fields.type;
    event[GUVONTSIRA_ORDER_CHANNEL_BYTE] = fields.channel;
    put(event + GUVONTSIRA_ORDER_PRICE_BYTE, fields.price, 4);
    put(event + GUVONTSIRA_ORDER_VOLUME_BYTE, fields.volume, 4);
    return hand_in_both(event, sizeof event,
                        guvontsira_order_event(built, fields.customer, fields.number,
                                               fields.security, fields.board, fields.side,
                                               fields.type, fields.channel, fields.price,
                                               fields.volume));
}

static uint32_t cancel(uint16_t customer, uint32_t number)
{
    uint8_t event[GUVONTSIRA_CANCEL_LENGTH] = {GUVONTSIRA_KIND_CANCEL};
    put(event + GUVONTSIRA_CANCEL_CUSTOMER_BYTE, customer, 2);
    put(event + GUVONTSIRA_CANCEL_NUMBER_BYTE, number, 4);
    return hand_in_both(event, sizeof event, guvontsira_cancel_event(built, customer, number));
}

static uint32_t match(uint16_t customer, uint32_t number, uint32_t volume)
{
    uint8_t event[GUVONTSIRA_MATCH_LENGTH] = {GUVONTSIRA_KIND_MATCH};
    put(event + GUVONTSIRA_MATCH_CUSTOMER_BYTE, customer, 2);
    put(event + GUVONTSIRA_MATCH_NUMBER_BYTE, number, 4);
    put(event + GUVONTSIRA_MATCH_VOLUME_BYTE, volume, 4);
    return hand_in_both(event, sizeof event,
                        guvontsira_match_event(built, customer, number, volume));
}

static uint32_t rest(uint16_t customer, uint32_t number, uint32_t price)
{
    uint8_t event[GUVONTSIRA_REST_LENGTH] = {GUVONTSIRA_KIND_REST};
    put(event + GUVONTSIRA_REST_CUSTOMER_BYTE, customer, 2);
    put(event + GUVONTSIRA_REST_NUMBER_BYTE, number, 4);
    put(event + GUVONTSIRA_REST_PRICE_BYTE, price, 4);
    return hand_in_both(event, sizeof event,
                        guvontsira_rest_event(built, customer, number, price));
}

struct figures {
    uint16_t security;
    uint32_t dividend, subscription;
    uint16_t old_shares, new_shares;
};

static uint32_t figures(struct figures fields)
{
    uint8_t event[GUVONTSIRA_FIGURES_LENGTH] = {GUVONTSIRA_KIND_FIGURES};
    put(event + GUVONTSIRA_FIGURES_SECURITY_BYTE, fields.security, 2);
    put(event + GUVONTSIRA_FIGURES_DIVIDEND_BYTE, fields.dividend, 4);
    put(event + GUVONTSIRA_FIGURES_SUBSCRIPTION_BYTE, fields.subscription, 4);
    put(event + GUVONTSIRA_FIGURES_OLD_BYTE, fields.old_shares, 2);
    put(event + GUVONTSIRA_FIGURES_NEW_BYTE, fields.new_shares, 2);
    return hand_in_both(event, sizeof event,
                        guvontsira_figures_event(built, fields.security, fields.dividend,
                                                 fields.subscription, fields.old_shares,
                                                 fields.new_shares));
}

static void make(void)
{
    memset(words, 0xff, sizeof words);
    if (guvontsira_make(words, COUNT(words), CUSTOMERS, SECURITIES) != GUVONTSIRA_OK) {
        fputs("no state\n", stdout);
        exit(EXIT_FAILURE);
    }
}

static void sizes(void)
{
    const uint32_t customers = GUVONTSIRA_MAX_CUSTOMERS;
    const uint32_t securities = GUVONTSIRA_MAX_SECURITIES;
    const size_t count = COUNT(most_words);
    same("words of the largest state", count, GUVONTSIRA_OK,
         guvontsira_make(most_words, count, customers, securities));
    same("a word fewer", count - 1, GUVONTSIRA_REFUSED_STATE,
         guvontsira_make(most_words, count - 1, customers, securities));
    MEANS(MAX_CUSTOMERS, GUVONTSIRA_REFUSED_STATE,
          guvontsira_make(more_words, GUVONTSIRA_WORD_COUNT(customers + 1, securities),
                          customers + 1, securities));
    MEANS(MAX_SECURITIES, GUVONTSIRA_REFUSED_STATE,
          guvontsira_make(more_words, GUVONTSIRA_WORD_COUNT(customers, securities + 1),
                          customers, securities + 1));

    make();
    STANDS(HEADER_CUSTOMERS_WORD, 0, CUSTOMERS);
    STANDS(HEADER_SECURITIES_WORD, 0, SECURITIES);
    for (size_t word = GUVONTSIRA_SECURITY_START(0); word < COUNT(words); word++) {
        const size_t place = (word - GUVONTSIRA_HEADER_WORDS) % GUVONTSIRA_SECURITY_WORDS;
        const int is_lot = word < GUVONTSIRA_DESK_START(SECURITIES, 0)
                           && place == GUVONTSIRA_SECURITY_LOT_WORD;
        if (words[word] != (is_lot ? 100 : 0)) {
            same("word of a fresh state", word, is_lot ? 100 : 0, words[word]);
        }
    }
}

struct kind {
    const char *kind_name, *length_name;
    uint8_t kind;
    size_t length;
};

#define KIND(name) \
    {"KIND_" #name, #name "_LENGTH", GUVONTSIRA_KIND_##name, GUVONTSIRA_##name##_LENGTH}

static const struct kind kinds[] = {KIND(CLOCK),  KIND(SESSION), KIND(SETUP),
                                    KIND(PRICES), KIND(ORDER),   KIND(CANCEL),
                                    KIND(MATCH),  KIND(REST),    KIND(FIGURES)};

/* Events of each kind, otherwise zero: one byte more and one fewer is refused. */
static void lengths(void)
{
    uint8_t events[COUNT(kinds) * GUVONTSIRA_ORDER_LENGTH] = {0};
    uint32_t answers[COUNT(kinds) + 1];
    uint8_t *end = events;
    size_t longest = 0;
    for (const struct kind *kind = kinds; kind < kinds + COUNT(kinds); kind++) {
        end[0] = kind->kind;
        same(kind->kind_name, kind->kind, GUVONTSIRA_REFUSED_LENGTH,
             hand_in(end, kind->length - 1));
        same(kind->length_name, kind->length, GUVONTSIRA_REFUSED_LENGTH,
             hand_in(end, kind->length + 1));
        end += kind->length;
        longest = kind->length > longest ? kind->length : longest;
    }
    MEANS(MAX_LENGTH, GUVONTSIRA_MAX_LENGTH, longest);
    const size_t handled = guvontsira_run(words, COUNT(words), events, (size_t)(end - events),
                                          answers, COUNT(answers));
    same("events of zeros", handled, COUNT(kinds), handled);
    for (size_t i = 0; i < handled; i++) {
        printf("answer %u\n", (unsigned)answers[i]);
    }
    ANSWERS(REFUSED_LENGTH, hand_in(events, 0));
    events[0] = COUNT(kinds) + 1;
    ANSWERS(REFUSED_KIND, hand_in(events, 1));
}

/* An unknown kind and an empty event before a whole one: only by their lengths. */
static void list(void)
{
    const uint8_t bytes[] = {COUNT(kinds) + 1, GUVONTSIRA_KIND_SESSION, GUVONTSIRA_SESSION_OPEN};
    const size_t lengths[] = {1, 0, 2};
    uint32_t three[] = {99, 99, 99};
    make();
    same("events of the list", COUNT(lengths), COUNT(three),
         guvontsira_run_list(words, COUNT(words), bytes, COUNT(bytes), lengths, COUNT(lengths),
                             three, COUNT(three)));
    ANSWERS(REFUSED_KIND, three[0]);
    ANSWERS(REFUSED_LENGTH, three[1]);
    ANSWERS(OK, three[2]);
}

static void ladder(void)
{
    same("position of 400.00", 40000, 1300, guvontsira_position(40000));
    same("price at 1300", 1300, 40000, guvontsira_price(1300));
    same("position of 400.01", 40001, 0, guvontsira_position(40001));
    same("price at 0", 0, 0, guvontsira_price(0));
    MEANS(MAX_PRICE, GUVONTSIRA_MAX_POSITION, guvontsira_position(GUVONTSIRA_MAX_PRICE));
    MEANS(MAX_POSITION, GUVONTSIRA_MAX_PRICE, guvontsira_price(GUVONTSIRA_MAX_POSITION));
    MEANS(MAX_PRICE, 0, guvontsira_position(GUVONTSIRA_MAX_PRICE + 200));
    MEANS(MAX_POSITION, 0, guvontsira_price(GUVONTSIRA_MAX_POSITION + 1));
}

/* The price, and the two positions nearest to it. */
static void between(uint32_t price, uint32_t lower, uint32_t upper)
{
    same("lower position of", price, lower, guvontsira_lower_position(price));
    same("upper position of", price, upper, guvontsira_upper_position(price));
    same("position of", price, lower == upper ? lower : 0, guvontsira_position(price));
}

static void nearest(void)
{
    between(0, 0, 0);
    between(1, 1, 1);
    between(6550, 762, 762);
    between(6560, 762, 763);
    between(6575, 763, 763);
    between(GUVONTSIRA_MAX_PRICE - 1, GUVONTSIRA_MAX_POSITION - 1, GUVONTSIRA_MAX_POSITION);
    between(GUVONTSIRA_MAX_PRICE, GUVONTSIRA_MAX_POSITION, GUVONTSIRA_MAX_POSITION);
    between(GUVONTSIRA_MAX_PRICE + 1, 0, 0);
    between(UINT32_MAX, 0, 0);
}

static void market(void)
{
    const uint16_t security = 3;
    const size_t start = GUVONTSIRA_SECURITY_START(security);
    const size_t main_board = start + GUVONTSIRA_SECURITY_MAIN_WORD;
    const size_t foreign_board = start + GUVONTSIRA_SECURITY_FOREIGN_WORD;

    make();
    ANSWERS(OK, clock_event(NOON));
    STANDS(HEADER_CLOCK_WORD, 0, NOON);
    ANSWERS(REFUSED_CLOCK, clock_event(NOON - 1));
    ANSWERS(REFUSED_CODE, clock_event(GUVONTSIRA_MAX_TIME + 1));
    MEANS(SESSION_PRE_CLOSE, GUVONTSIRA_OK, session(GUVONTSIRA_SESSION_PRE_CLOSE));
    STANDS(HEADER_SESSION_WORD, 0, GUVONTSIRA_SESSION_PRE_CLOSE);
    ANSWERS(REFUSED_CODE, session(GUVONTSIRA_SESSION_PRE_CLOSE + 1));

    /* 656.01 and 12.01 are no legal prices. */
    ANSWERS(OK, setup((struct setup){security, 50, 1, 0, 65601, 1201}));
    STANDS(SECURITY_LOT_WORD, start, 50);
    STANDS(SECURITY_FREE_WORD, start, 1);
    STANDS(SECURITY_FIRST_DAY_WORD, start, 0);
    STANDS(SECURITY_PRIOR_CLOSE_WORD, start, 65601);
    STANDS(SECURITY_IPO_WORD, start, 1201);
    ANSWERS(REFUSED_NAME, setup((struct setup){SECURITIES, 50, 1, 0, 65601, 1201}));
    MEANS(MAX_PRICE, GUVONTSIRA_OK,
          setup((struct setup){security, 50, 1, 0, GUVONTSIRA_MAX_PRICE, GUVONTSIRA_MAX_PRICE}));
    ANSWERS(REFUSED_PRICE, setup((struct setup){security, 50, 1, 0, GUVONTSIRA_MAX_PRICE + 1, 0}));
    ANSWERS(REFUSED_PRICE, setup((struct setup){security, 50, 1, 0, 0, GUVONTSIRA_MAX_PRICE + 1}));

    MEANS(BOARD_MAIN, GUVONTSIRA_OK,
          prices((struct prices){security, GUVONTSIRA_BOARD_MAIN, 5000, 4975, 4950, 5025}));
    MEANS(BOARD_FOREIGN, GUVONTSIRA_OK,
          prices((struct prices){security, GUVONTSIRA_BOARD_FOREIGN, 4000, 3975, 3950, 4025}));
    STANDS(SECURITY_MAIN_WORD, start, 5000);
    STANDS(BOARD_PROJECTED_WORD, main_board, 5000);
    STANDS(BOARD_LAST_WORD, main_board, 4975);
    STANDS(BOARD_BID_WORD, main_board, 4950);
    STANDS(BOARD_OFFER_WORD, main_board, 5025);
    STANDS(SECURITY_FOREIGN_WORD, start, 4000);
    STANDS(BOARD_PROJECTED_WORD, foreign_board, 4000);
    STANDS(BOARD_LAST_WORD, foreign_board, 3975);
    STANDS(BOARD_BID_WORD, foreign_board, 3950);
    STANDS(BOARD_OFFER_WORD, foreign_board, 4025);
    /* Another session makes the projected prices absent. */
    MEANS(SESSION_BREAK, GUVONTSIRA_OK, session(GUVONTSIRA_SESSION_BREAK));
    STANDS(BOARD_PROJECTED_WORD, main_board, 0);
    STANDS(BOARD_PROJECTED_WORD, foreign_board, 0);
    MEANS(MAX_TIME, GUVONTSIRA_OK, clock_event(GUVONTSIRA_MAX_TIME));
}

static uint32_t accepted_if(int in_session)
{
    return in_session ? GUVONTSIRA_ACCEPT : GUVONTSIRA_REJECT_S;
}

/* Each type is accepted in its session and rejected with S in the others. */
static void types(void)
{
    struct order buy = {.number = 1, .volume = 100};

    make();
    prices((struct prices){.offer = 5000});
    buy.type = GUVONTSIRA_TYPE_LIMIT;
    buy.price = 5000;
    MEANS(SESSION_CLOSED, GUVONTSIRA_REJECT_S, order(buy));
    session(GUVONTSIRA_SESSION_BREAK);
    MEANS(SESSION_BREAK, GUVONTSIRA_REJECT_S, order(buy));
    buy.price = 0;
    for (uint8_t code = GUVONTSIRA_SESSION_CLOSED; code <= GUVONTSIRA_SESSION_PRE_CLOSE; code++) {
        session(code);
        buy.type = GUVONTSIRA_TYPE_ATO;
        MEANS(TYPE_ATO, accepted_if(code == GUVONTSIRA_SESSION_PRE_OPEN), order(buy));
        buy.number++;
        buy.type = GUVONTSIRA_TYPE_ATC;
        MEANS(TYPE_ATC, accepted_if(code == GUVONTSIRA_SESSION_PRE_CLOSE), order(buy));
        buy.number++;
        buy.type = GUVONTSIRA_TYPE_MP;
        MEANS(TYPE_MP, accepted_if(code == GUVONTSIRA_SESSION_OPEN), order(buy));
    }
    /* There is an offer and no bid. */
    MEANS(SESSION_OPEN, GUVONTSIRA_OK, session(GUVONTSIRA_SESSION_OPEN));
    MEANS(SIDE_BUY, GUVONTSIRA_ACCEPT, order(buy));
    buy.number++;
    buy.side = GUVONTSIRA_SIDE_SELL;
    ANSWERS(REJECT_S, order(buy));
    MEANS(SIDE_SELL, GUVONTSIRA_REJECT_S, order(buy));
    buy.type = GUVONTSIRA_TYPE_MP + 1;
    ANSWERS(REFUSED_CODE, order(buy));
}

static void rows(void)
{
    const uint16_t customer = 2;
    const size_t desk = GUVONTSIRA_DESK_START(SECURITIES, customer);
    const size_t first = GUVONTSIRA_ROW_START(SECURITIES, customer, 0);
    const size_t second = GUVONTSIRA_ROW_START(SECURITIES, customer, 1);
    struct order sell = {customer, 70000, 4, GUVONTSIRA_BOARD_MAIN, GUVONTSIRA_SIDE_SELL,
                         GUVONTSIRA_TYPE_LIMIT, GUVONTSIRA_CHANNEL_DMA, 5025, 300};
    struct order buy = {customer, 70001, 3, GUVONTSIRA_BOARD_FOREIGN, GUVONTSIRA_SIDE_BUY,
                        GUVONTSIRA_TYPE_ATC, GUVONTSIRA_CHANNEL_ONLINE, 0, 200};

    make();
    clock_event(NOON);
    session(GUVONTSIRA_SESSION_PRE_CLOSE);
    ANSWERS(ACCEPT, order(sell));
    STANDS(ROW_MARK_WORD, first, GUVONTSIRA_MARK_OPEN);
    MEANS(MARK_OPEN, GUVONTSIRA_MARK_OPEN, words[first + GUVONTSIRA_ROW_MARK_WORD]);
    STANDS(ROW_NUMBER_WORD, first, 70000);
    STANDS(ROW_SECURITY_WORD, first, 4);
    STANDS(ROW_BOARD_WORD, first, GUVONTSIRA_BOARD_MAIN);
    STANDS(ROW_SIDE_WORD, first, GUVONTSIRA_SIDE_SELL);
    STANDS(ROW_TYPE_WORD, first, GUVONTSIRA_TYPE_LIMIT);
    MEANS(TYPE_LIMIT, GUVONTSIRA_TYPE_LIMIT, words[first + GUVONTSIRA_ROW_TYPE_WORD]);
    STANDS(ROW_PRICE_WORD, first, 5025);
    STANDS(ROW_VOLUME_WORD, first, 300);
    STANDS(ROW_CANCEL_TIME_WORD, first, 0);
    ANSWERS(ACCEPT, order(buy));
    STANDS(ROW_BOARD_WORD, second, GUVONTSIRA_BOARD_FOREIGN);
    STANDS(ROW_SIDE_WORD, second, GUVONTSIRA_SIDE_BUY);
    STANDS(ROW_TYPE_WORD, second, GUVONTSIRA_TYPE_ATC);
    ANSWERS(REFUSED_NUMBER_TAKEN, order(buy));

    ANSWERS(OK, match(customer, 70000, 100));
    STANDS(ROW_VOLUME_WORD, first, 200);
    ANSWERS(REFUSED_MATCH_VOLUME, match(customer, 70000, 201));
    ANSWERS(OK, cancel(customer, 70000));
    MEANS(MARK_CANCELLED, GUVONTSIRA_MARK_CANCELLED, words[first + GUVONTSIRA_ROW_MARK_WORD]);
    STANDS(ROW_CANCEL_TIME_WORD, first, NOON);
    ANSWERS(REFUSED_NO_OPEN_ROW, cancel(customer, 70000));
    ANSWERS(OK, cancel(customer, 70001));
    MEANS(MARK_FREE, GUVONTSIRA_MARK_FREE, words[second + GUVONTSIRA_ROW_MARK_WORD]);
    ANSWERS(REFUSED_NAME, cancel(CUSTOMERS, 70000));

    buy.volume = 1;
    ANSWERS(REJECT_V, order(buy));
    STANDS(DESK_ACCEPTED_WORD, desk, 2);
    STANDS(DESK_WARNED_WORD, desk, 0);
    STANDS(DESK_REJECTED_WORD, desk, 1);

    words[first + GUVONTSIRA_ROW_BOARD_WORD] = GUVONTSIRA_BOARD_FOREIGN + 1;
    ANSWERS(REFUSED_RECORD, cancel(customer, 70001));
    words[GUVONTSIRA_HEADER_SESSION_WORD] = GUVONTSIRA_SESSION_PRE_CLOSE + 1;
    ANSWERS(REFUSED_STATE, cancel(customer, 70001));
}

/* An MP order's row, and what a rest, a cancel and another session make of it. */
static void rests(void)
{
    const uint16_t customer = 1;
    const size_t first = GUVONTSIRA_ROW_START(SECURITIES, customer, 0);
    const size_t fourth = GUVONTSIRA_ROW_START(SECURITIES, customer, 3);
    struct order buy = {customer, 70001, 3, GUVONTSIRA_BOARD_FOREIGN, GUVONTSIRA_SIDE_BUY,
                        GUVONTSIRA_TYPE_MP, GUVONTSIRA_CHANNEL_DMA, 0, 300};
    struct order sell = {customer, 70002, 3, GUVONTSIRA_BOARD_FOREIGN, GUVONTSIRA_SIDE_SELL,
                         GUVONTSIRA_TYPE_LIMIT, GUVONTSIRA_CHANNEL_ONLINE, 5050, 100};

    make();
    clock_event(NOON);
    session(GUVONTSIRA_SESSION_OPEN);
    prices((struct prices){.security = 3, .board = GUVONTSIRA_BOARD_FOREIGN, .offer = 5025});
    ANSWERS(ACCEPT, order(buy));
    STANDS(ROW_MARK_WORD, first, GUVONTSIRA_MARK_OPEN);
    STANDS(ROW_TYPE_WORD, first, GUVONTSIRA_TYPE_MP);
    MEANS(TYPE_MP, GUVONTSIRA_TYPE_MP, words[first + GUVONTSIRA_ROW_TYPE_WORD]);
    STANDS(ROW_PRICE_WORD, first, 0);
    ANSWERS(REFUSED_NUMBER_TAKEN, order(buy));
    ANSWERS(OK, match(customer, 70001, 100));
    ANSWERS(REFUSED_NAME, rest(CUSTOMERS, 70001, 5050));
    ANSWERS(REFUSED_CODE, rest(customer, 0, 5050));
    ANSWERS(REFUSED_PRICE, rest(customer, 70001, 5051));
    ANSWERS(REFUSED_PRICE, rest(customer, 70001, 0));
    ANSWERS(REFUSED_NO_OPEN_ROW, rest(customer, 70002, 5050));
    /* No order meets the row before it is a limit. */
    ANSWERS(ACCEPT, order(sell));
    ANSWERS(REFUSED_NO_OPEN_ROW, rest(customer, 70002, 5050));
    ANSWERS(OK, rest(customer, 70001, 5050));
    STANDS(ROW_MARK_WORD, first, GUVONTSIRA_MARK_OPEN);
    STANDS(ROW_NUMBER_WORD, first, 70001);
    STANDS(ROW_SECURITY_WORD, first, 3);
    STANDS(ROW_BOARD_WORD, first, GUVONTSIRA_BOARD_FOREIGN);
    STANDS(ROW_SIDE_WORD, first, GUVONTSIRA_SIDE_BUY);
    STANDS(ROW_TYPE_WORD, first, GUVONTSIRA_TYPE_LIMIT);
    STANDS(ROW_PRICE_WORD, first, 5050);
    STANDS(ROW_VOLUME_WORD, first, 200);
    STANDS(ROW_CANCEL_TIME_WORD, first, 0);
    ANSWERS(REFUSED_NO_OPEN_ROW, rest(customer, 70001, 5050));
    sell.number++;
    ANSWERS(REJECT_W, order(sell));
    sell.price = 5075;
    ANSWERS(ACCEPT, order(sell));

    /* As with ATO, no cancel is kept: the number is free at once. */
    buy.number = 70004;
    ANSWERS(ACCEPT, order(buy));
    STANDS(ROW_TYPE_WORD, fourth, GUVONTSIRA_TYPE_MP);
    ANSWERS(OK, cancel(customer, 70004));
    STANDS(ROW_MARK_WORD, fourth, GUVONTSIRA_MARK_FREE);
    ANSWERS(ACCEPT, order(buy));
    STANDS(ROW_MARK_WORD, fourth, GUVONTSIRA_MARK_OPEN);
    session(GUVONTSIRA_SESSION_BREAK);
    STANDS(ROW_MARK_WORD, fourth, GUVONTSIRA_MARK_FREE);
    ANSWERS(REFUSED_NO_OPEN_ROW, rest(customer, 70004, 5050));

    /* An MP row is sound with price 0 only, and open. */
    words[first + GUVONTSIRA_ROW_TYPE_WORD] = GUVONTSIRA_TYPE_MP;
    ANSWERS(REFUSED_RECORD, rest(customer, 70001, 5050));
    words[first + GUVONTSIRA_ROW_PRICE_WORD] = 0;
    words[first + GUVONTSIRA_ROW_MARK_WORD] = GUVONTSIRA_MARK_CANCELLED;
    ANSWERS(REFUSED_RECORD, rest(customer, 70001, 5050));
    words[first + GUVONTSIRA_ROW_MARK_WORD] = GUVONTSIRA_MARK_OPEN;
    ANSWERS(OK, rest(customer, 70001, 5050));
    STANDS(ROW_PRICE_WORD, first, 5050);
}

/*
 * A right has gone, and the prior close lies between 65.50 and 65.75: warn 10
 * counts up from its lower position and down from its upper one.
 */
static void adjusted_close(void)
{
    const uint16_t security = 2;
    const size_t close = GUVONTSIRA_SECURITY_START(security) + GUVONTSIRA_SECURITY_PRIOR_CLOSE_WORD;
    struct order buy = {.security = security, .channel = GUVONTSIRA_CHANNEL_ONLINE, .volume = 100};
    const struct {
        uint32_t price, answer;
    } limits[] = {{6800, GUVONTSIRA_ACCEPT},
                  {6825, GUVONTSIRA_WARN_10},
                  {6325, GUVONTSIRA_ACCEPT},
                  {6300, GUVONTSIRA_WARN_10}};

    make();
    session(GUVONTSIRA_SESSION_PRE_OPEN);
    ANSWERS(OK, setup((struct setup){.security = security, .lot = 100, .prior_close = 6560}));
    for (size_t i = 0; i < COUNT(limits); i++) {
        buy.number++;
        buy.price = limits[i].price;
        same("prior close 65.60, limit", buy.price, limits[i].answer, order(buy));
    }
    ANSWERS(REFUSED_PRICE, prices((struct prices){.security = security, .last = 6560}));
    buy.number++;
    buy.price = 6560;
    ANSWERS(REFUSED_PRICE, order(buy));

    /* It is sound up to the last price. */
    words[close] = GUVONTSIRA_MAX_PRICE;
    MEANS(MAX_PRICE, GUVONTSIRA_OK, session(GUVONTSIRA_SESSION_PRE_OPEN));
    words[close] = GUVONTSIRA_MAX_PRICE + 1;
    ANSWERS(REFUSED_RECORD, session(GUVONTSIRA_SESSION_PRE_OPEN));
}

/* The security's floor and ceiling; 0 and 0 where it has none. */
static void range_is(uint32_t security, uint32_t floor, uint32_t ceiling)
{
    same("floor", floor, floor, guvontsira_floor(words, COUNT(words), security));
    same("ceiling", ceiling, ceiling, guvontsira_ceiling(words, COUNT(words), security));
}

/* The worked example of request 3: 150.00, and 2 old and 3 new shares at 10.00. */
static void ranges(void)
{
    const uint16_t security = SECURITIES - 1;
    const size_t start = GUVONTSIRA_SECURITY_START(security);
    const struct setup closed_at_150 = {.security = security, .lot = 100, .prior_close = 15000};
    const struct figures right = {security, 0, 1000, 2, 3};
    struct order buy = {.security = security, .volume = 100};
    const struct {
        uint32_t price, answer;
    } limits[] = {{8575, GUVONTSIRA_ACCEPT},
                  {8600, GUVONTSIRA_REJECT_C},
                  {4625, GUVONTSIRA_ACCEPT},
                  {4600, GUVONTSIRA_REJECT_C}};

    make();
    session(GUVONTSIRA_SESSION_OPEN);
    range_is(security, 0, 0);
    ANSWERS(REFUSED_FIGURES, figures(right));
    ANSWERS(LAST_REFUSAL, figures(right));
    ANSWERS(OK, setup(closed_at_150));
    range_is(security, 10500, 19500);
    ANSWERS(REFUSED_NAME, figures((struct figures){SECURITIES, 0, 1000, 2, 3}));
    ANSWERS(REFUSED_FIGURES, figures((struct figures){security, 0, 1000, 0, 3}));
    ANSWERS(REFUSED_FIGURES, figures((struct figures){security, 15000, 1000, 2, 3}));
    ANSWERS(OK, figures((struct figures){security, 14999, 70000, 65535, 65534}));
    STANDS(SECURITY_DIVIDEND_WORD, start, 14999);
    STANDS(SECURITY_SUBSCRIPTION_WORD, start, 70000);
    STANDS(SECURITY_OLD_WORD, start, 65535);
    STANDS(SECURITY_NEW_WORD, start, 65534);
    ANSWERS(OK, figures(right));
    range_is(security, 4625, 8575);
    for (size_t i = 0; i < COUNT(limits); i++) {
        buy.number++;
        buy.price = limits[i].price;
        same("base 66.00, limit", buy.price, limits[i].answer, order(buy));
    }
    /* The range is the main board's. */
    buy.number++;
    buy.board = GUVONTSIRA_BOARD_FOREIGN;
    ANSWERS(ACCEPT, order(buy));

    /* No range: no such security, too few words, a damaged record. */
    range_is(SECURITIES, 0, 0);
    same("a word fewer", COUNT(words) - 1, 0,
         guvontsira_ceiling(words, COUNT(words) - 1, security));
    words[start + GUVONTSIRA_SECURITY_DIVIDEND_WORD] = 15000;
    ANSWERS(REFUSED_RECORD, figures(right));
    range_is(security, 0, 0);
    words[start + GUVONTSIRA_SECURITY_DIVIDEND_WORD] = 0;

    /* A setup clears the figures. */
    ANSWERS(OK, setup(closed_at_150));
    STANDS(SECURITY_SUBSCRIPTION_WORD, start, 0);
    STANDS(SECURITY_OLD_WORD, start, 0);
    STANDS(SECURITY_NEW_WORD, start, 0);
    range_is(security, 10500, 19500);
    /* Below 1.00 baht; the last price; free. */
    setup((struct setup){.security = security, .lot = 100, .prior_close = 99});
    range_is(security, 1, 198);
    setup((struct setup){.security = security, .lot = 100, .prior_close = GUVONTSIRA_MAX_PRICE});
    range_is(security, 7000000, GUVONTSIRA_MAX_PRICE);
    setup((struct setup){.security = security, .lot = 100, .free = 1, .prior_close = 15000});
    range_is(security, 0, 0);
    /* Base 3/2 satang: 130% is 1.95 and 70% is 1.05, and every limit is outside. */
    setup((struct setup){.security = security, .lot = 100, .prior_close = 100});
    ANSWERS(OK, figures((struct figures){security, 97, 0, 1, 1}));
    range_is(security, 2, 1);
    buy.number++;
    buy.board = GUVONTSIRA_BOARD_MAIN;
    for (buy.price = 1; buy.price <= 2; buy.price++) {
        ANSWERS(REJECT_C, order(buy));
    }
}

/* The channels differ by warn 10, which skips the front office, and W, online only. */
static void verdicts(void)
{
    const size_t desk = GUVONTSIRA_DESK_START(SECURITIES, 0);
    struct order buy = {.number = 1, .price = 2650, .volume = 100};

    make();
    MEANS(SESSION_PRE_OPEN, GUVONTSIRA_OK, session(GUVONTSIRA_SESSION_PRE_OPEN));
    prices((struct prices){.projected = 2450});
    buy.channel = GUVONTSIRA_CHANNEL_FRONT_OFFICE;
    MEANS(CHANNEL_FRONT_OFFICE, GUVONTSIRA_ACCEPT, order(buy));
    buy.number++;
    buy.channel = GUVONTSIRA_CHANNEL_DMA;
    MEANS(CHANNEL_DMA, GUVONTSIRA_WARN_10, order(buy));
    struct order sell = buy;
    sell.number++;
    sell.side = GUVONTSIRA_SIDE_SELL;
    ANSWERS(WARN_10, order(sell));
    sell.number++;
    sell.channel = GUVONTSIRA_CHANNEL_ONLINE;
    MEANS(CHANNEL_ONLINE, GUVONTSIRA_REJECT_W, order(sell));
    ANSWERS(REJECT_W, order(sell));
    sell.channel = GUVONTSIRA_CHANNEL_DMA + 1;
    ANSWERS(REFUSED_CODE, order(sell));

    /* An IPO price of 10.00 on a first day; then a last sale of 10.00. */
    buy = (struct order){.number = 11, .security = 1, .volume = 100};
    setup((struct setup){.security = 1, .lot = 100, .free = 1, .first_day = 1, .ipo = 1000});
    buy.price = 1510;
    ANSWERS(REJECT_Q, order(buy));
    buy.price = 1310;
    prices((struct prices){.security = 1, .last = 1000});
    session(GUVONTSIRA_SESSION_OPEN);
    ANSWERS(WARN_30, order(buy));

    /* 3 million baht again within a minute of a cancel. */
    buy = (struct order){.number = 21, .security = 2, .channel = GUVONTSIRA_CHANNEL_ONLINE,
                         .price = 5000, .volume = 100000};
    ANSWERS(ACCEPT, order(buy));
    ANSWERS(OK, cancel(0, 21));
    buy.number++;
    buy.volume = 60000;
    ANSWERS(REJECT_P, order(buy));
    STANDS(DESK_ACCEPTED_WORD, desk, 2);
    STANDS(DESK_WARNED_WORD, desk, 3);
    STANDS(DESK_REJECTED_WORD, desk, 4);

    buy = (struct order){.number = 31, .security = 3, .price = 1, .volume = GUVONTSIRA_MAX_VOLUME};
    MEANS(MAX_VOLUME, GUVONTSIRA_ACCEPT, order(buy));
    buy.number++;
    buy.volume += 100;
    MEANS(MAX_VOLUME, GUVONTSIRA_REJECT_V, order(buy));
}

static void full_desk(void)
{
    const uint16_t customer = 1;
    struct order buy = {.customer = customer, .price = 5000, .volume = 100};

    make();
    session(GUVONTSIRA_SESSION_OPEN);
    do {
        buy.number++;
    } while (order(buy) == GUVONTSIRA_ACCEPT);
    ANSWERS(REFUSED_DESK_FULL, order(buy));
    MEANS(DESK_ROWS, GUVONTSIRA_DESK_ROWS, buy.number - 1);
    STANDS(ROW_NUMBER_WORD, GUVONTSIRA_ROW_START(SECURITIES, customer, GUVONTSIRA_DESK_ROWS - 1),
           GUVONTSIRA_DESK_ROWS);
    STANDS(DESK_ACCEPTED_WORD, GUVONTSIRA_DESK_START(SECURITIES, customer), GUVONTSIRA_DESK_ROWS);
    /* An MP order takes a row as others do. */
    prices((struct prices){.offer = 5025});
    buy.type = GUVONTSIRA_TYPE_MP;
    buy.price = 0;
    ANSWERS(REFUSED_DESK_FULL, order(buy));
    ANSWERS(OK, match(customer, 1, 100));
    ANSWERS(ACCEPT, order(buy));
    STANDS(ROW_TYPE_WORD, GUVONTSIRA_ROW_START(SECURITIES, customer, GUVONTSIRA_DESK_ROWS - 1),
           GUVONTSIRA_TYPE_MP);
}

enum { BUY = GUVONTSIRA_SIDE_BUY, SELL = GUVONTSIRA_SIDE_SELL };
enum { MOST_ORDERS = GUVONTSIRA_MAX_AUCTION_ORDERS, HELD = 7 };

/* Source document 002's book, and 003's. */
static const struct guvontsira_auction_order book_002[] = {
    {BUY, 0, 1000},      {BUY, 10300, 1000}, {BUY, 10300, 1300},  {BUY, 10200, 500},
    {BUY, 10200, 1100},  {BUY, 10100, 800},  {BUY, 10100, 300},   {SELL, 10200, 2500},
    {SELL, 10200, 1000}, {SELL, 10300, 500}, {SELL, 10400, 1000}, {SELL, 10500, 1500},
    {SELL, 10600, 500}};
static const struct guvontsira_auction_order book_003[] = {
    {BUY, 4900, 900}, {BUY, 4800, 300}, {SELL, 4900, 400}, {SELL, 5200, 4400}, {SELL, 0, 600}};

/* One order more than there may be. */
static struct guvontsira_auction_order orders[MOST_ORDERS + 1];
static uint64_t buyers[MOST_ORDERS], sellers[MOST_ORDERS];
/* Longer than it must be, and than what some calls are lent of it. */
static uint64_t volumes[2 * MOST_ORDERS];

static struct guvontsira_auction_answer
auction_volumes(const struct guvontsira_auction_order *list, size_t count, uint32_t reference,
                size_t volumes_length)
{
    for (size_t place = 0; place < COUNT(volumes); place++) {
        volumes[place] = HELD;
    }
    return guvontsira_auction_volumes(list, count, reference, volumes, volumes_length);
}

/* From a place up to another, all volumes are this. */
static void volumes_are(size_t place, size_t end, uint64_t expected)
{
    for (; place < end; place++) {
        if (volumes[place] != expected) {
            same("volume at place", place, expected, volumes[place]);
        }
    }
}

/* Request 6: the answer "must be the ones given before"; each volume is the smaller sum. */
static void same_by_volumes(const struct guvontsira_auction_order *list, size_t count,
                            uint32_t reference, struct guvontsira_auction_answer before)
{
    const struct guvontsira_auction_answer answer =
        auction_volumes(list, count, reference, COUNT(volumes));
    if (answer.price != before.price || answer.volume != before.volume
        || answer.refusal != before.refusal) {
        same("answer given before", before.price, 1, 0);
    }
    if (before.refusal != 0) {
        volumes_are(0, COUNT(volumes), HELD);
        return;
    }
    for (size_t place = 0; place < count; place++) {
        const int is_less = buyers[place] < sellers[place];
        volumes_are(place, place + 1, is_less ? buyers[place] : sellers[place]);
    }
    volumes_are(count, COUNT(volumes), 0);
}

static struct guvontsira_auction_answer auction(const struct guvontsira_auction_order *list,
                                                size_t count, uint32_t reference)
{
    for (size_t place = 0; place < MOST_ORDERS; place++) {
        buyers[place] = sellers[place] = HELD;
    }
    const struct guvontsira_auction_answer answer = guvontsira_auction(
        list, count, reference, buyers, MOST_ORDERS, sellers, MOST_ORDERS);
    same_by_volumes(list, count, reference, answer);
    return answer;
}

/* From this place on the two scratch lists hold what they held. */
static void untouched_from(size_t place)
{
    for (; place < MOST_ORDERS; place++) {
        if (buyers[place] != HELD || sellers[place] != HELD) {
            same("scratch place", place, 1, 0);
        }
    }
}

static void auction_gives(struct guvontsira_auction_answer answer, uint32_t price, uint64_t volume)
{
    same("auction's price", price, price, answer.price);
    same("auction's volume", volume, volume, answer.volume);
    same("auction's refusal", 0, 0, answer.refusal);
}

/* The answer is the refusal of this name alone, and the two scratch lists are untouched. */
#define AUCTION_REFUSES(name, answer)                        \
    do {                                                     \
        const struct guvontsira_auction_answer got = answer; \
        ANSWERS(name, got.refusal);                          \
        same("its price", 0, 0, got.price);                  \
        same("its volume", 0, 0, got.volume);                \
        untouched_from(0);                                   \
    } while (0)

static void lists_hold(size_t place, uint64_t buying, uint64_t selling, uint64_t volume)
{
    same("buyers' sum", buying, buying, buyers[place]);
    same("sellers' sum", selling, selling, sellers[place]);
    same("volume there", volume, volume, volumes[place]);
}

static void layouts(void)
{
    same("bytes of an order", 12, 12, sizeof(struct guvontsira_auction_order));
    same("side at byte", 0, 0, offsetof(struct guvontsira_auction_order, side));
    same("price at byte", 4, 4, offsetof(struct guvontsira_auction_order, price));
    same("volume at byte", 8, 8, offsetof(struct guvontsira_auction_order, volume));
    same("bytes of an answer", 16, 16, sizeof(struct guvontsira_auction_answer));
    same("volume at byte", 0, 0, offsetof(struct guvontsira_auction_answer, volume));
    same("price at byte", 8, 8, offsetof(struct guvontsira_auction_answer, price));
    same("refusal at byte", 12, 12, offsetof(struct guvontsira_auction_answer, refusal));
}

/* Requests 5 and 6: what the documents print, the four steps, and none. */
static void auctions(void)
{
    struct guvontsira_auction_order pair[] = {{BUY, 200, 100}, {SELL, 206, 100}, {BUY, 0, 100},
                                              {SELL, 0, 100}};

    layouts();
    auction_gives(auction(book_002, COUNT(book_002), 0), 10200, 3500);
    lists_hold(0, 0, 0, 0);
    lists_hold(1, 3300, 4000, 3300);
    lists_hold(3, 4900, 3500, 3500);
    lists_hold(5, 6000, 0, 0);
    lists_hold(10, 1000, 5000, 1000);
    lists_hold(11, 1000, 6500, 1000);
    lists_hold(12, 1000, 7000, 1000);
    untouched_from(COUNT(book_002));
    auction_gives(auction(book_003, COUNT(book_003), UINT32_MAX), 4900, 900);
    lists_hold(0, 900, 1000, 900);
    lists_hold(1, 1200, 600, 600);
    lists_hold(3, 0, 5400, 0);
    lists_hold(4, 0, 0, 0);
    untouched_from(COUNT(book_003));

    /* 2.00 has 200 buying and 100 selling, 2.06 the other way round. */
    auction_gives(auction(pair, COUNT(pair), 202), 200, 100);
    auction_gives(auction(pair, COUNT(pair), 203), 206, 100);
    auction_gives(auction(pair, COUNT(pair), UINT32_MAX), 206, 100);
    pair[1].volume = 101;
    auction_gives(auction(pair, COUNT(pair), 203), 200, 100);

    /* No orders; the two limits do not meet; there is no limit. */
    auction_gives(auction(orders, 0, 5000), 0, 0);
    untouched_from(0);
    auction_gives(auction(pair, 2, 203), 0, 0);
    lists_hold(0, 100, 0, 0);
    lists_hold(1, 0, 101, 0);
    auction_gives(auction(pair + 2, 2, 203), 0, 0);
    lists_hold(0, 0, 0, 0);
    lists_hold(1, 0, 0, 0);
    untouched_from(2);
}

static void auction_refusals(void)
{
    struct guvontsira_auction_order *const last = orders + MOST_ORDERS - 1;
    const struct guvontsira_auction_order good = {SELL, GUVONTSIRA_MAX_PRICE,
                                                  GUVONTSIRA_MAX_VOLUME};

    for (size_t place = 0; place < MOST_ORDERS; place++) {
        orders[place] = (struct guvontsira_auction_order){BUY, 0, GUVONTSIRA_MAX_VOLUME};
    }
    *last = good;
    auction_gives(auction(orders, MOST_ORDERS, 0), GUVONTSIRA_MAX_PRICE, GUVONTSIRA_MAX_VOLUME);
    lists_hold(MOST_ORDERS - 1, (uint64_t)GUVONTSIRA_MAX_VOLUME * (MOST_ORDERS - 1),
               GUVONTSIRA_MAX_VOLUME, GUVONTSIRA_MAX_VOLUME);
    MEANS(MAX_AUCTION_ORDERS, GUVONTSIRA_AUCTION_REFUSED_LENGTH,
          auction(orders, MOST_ORDERS + 1, 0).refusal);

    /* A bad order in the last place, one field at a time. */
    last->side = SELL + 1;
    AUCTION_REFUSES(AUCTION_REFUSED_ORDER, auction(orders, MOST_ORDERS, 0));
    *last = good;
    last->price = GUVONTSIRA_MAX_PRICE - 1;
    AUCTION_REFUSES(AUCTION_REFUSED_ORDER, auction(orders, MOST_ORDERS, 0));
    last->price = GUVONTSIRA_MAX_PRICE + 200;
    AUCTION_REFUSES(AUCTION_REFUSED_ORDER, auction(orders, MOST_ORDERS, 0));
    *last = good;
    last->volume = 0;
    AUCTION_REFUSES(AUCTION_REFUSED_ORDER, auction(orders, MOST_ORDERS, 0));
    last->volume = GUVONTSIRA_MAX_VOLUME + 1;
    AUCTION_REFUSES(AUCTION_REFUSED_ORDER, auction(orders, MOST_ORDERS, 0));

    /* The lengths are asked first. */
    AUCTION_REFUSES(AUCTION_REFUSED_LENGTH, auction(orders, MOST_ORDERS + 1, 0));
    AUCTION_REFUSES(AUCTION_REFUSED_LENGTH,
                    guvontsira_auction(orders, MOST_ORDERS, 0, buyers, MOST_ORDERS - 1, sellers,
                                       MOST_ORDERS));
    AUCTION_REFUSES(AUCTION_REFUSED_LENGTH,
                    guvontsira_auction(orders, 0, 0, buyers, MOST_ORDERS, sellers,
                                       MOST_ORDERS - 1));
    AUCTION_REFUSES(AUCTION_REFUSED_LENGTH,
                    auction_volumes(orders, MOST_ORDERS, 0, MOST_ORDERS - 1));
    volumes_are(0, COUNT(volumes), HELD);
    AUCTION_REFUSES(AUCTION_REFUSED_LENGTH, auction_volumes(orders, 0, 0, MOST_ORDERS - 1));
    volumes_are(0, COUNT(volumes), HELD);
    AUCTION_REFUSES(AUCTION_REFUSED_ORDER, auction_volumes(orders, MOST_ORDERS, 0, MOST_ORDERS));
    volumes_are(0, COUNT(volumes), HELD);

    /* "0 elsewhere": to the end of what was lent, and no farther. */
    ANSWERS(OK, auction_volumes(orders, 1, 0, MOST_ORDERS).refusal);
    volumes_are(0, MOST_ORDERS, 0);
    volumes_are(MOST_ORDERS, COUNT(volumes), HELD);
}

/* What request 7's calls are lent, and more: past some of their lengths. */
struct lent {
    struct guvontsira_auction_order list[2 * MOST_ORDERS];
    size_t count;
    uint64_t volumes[2 * MOST_ORDERS];
};
static struct lent lent, after;
static size_t list_length, scratch_length;

/* Past the count stand bad orders, which nobody asks. */
static void lend(size_t length, const struct guvontsira_auction_order *held, size_t count,
                 size_t volumes_length)
{
    const struct guvontsira_auction_order bad = {HELD, HELD, HELD};
    list_length = length;
    scratch_length = volumes_length;
    lent.count = count;
    for (size_t place = 0; place < COUNT(lent.list); place++) {
        lent.list[place] = place < count ? held[place] : bad;
        lent.volumes[place] = HELD;
    }
    after = lent;
}

/* Those that agree are not listed: there are hundreds. */
static void agree(const char *name, size_t expected, size_t found)
{
    if (expected != found) {
        same(name, lent.count, expected, found);
    }
}

/* "worked out afresh from the list", and "places past the count are zero afterwards". */
static void keeps(struct guvontsira_auction_answer answer, uint32_t reference)
{
    if (answer.refusal == 0) {
        memset(after.list + after.count, 0, (list_length - after.count) * sizeof after.list[0]);
        const struct guvontsira_auction_answer afresh = guvontsira_auction_volumes(
            after.list, after.count, reference, after.volumes, scratch_length);
        agree("price, orders held", afresh.price, answer.price);
        agree("volume, orders held", afresh.volume, answer.volume);
        agree("refusal afresh, orders held", 0, afresh.refusal);
    } else {
        agree("price of a refusal, orders held", 0, answer.price);
        agree("volume of a refusal, orders held", 0, answer.volume);
    }
    agree("count, orders held", after.count, lent.count);
    agree("list, orders held", 0, memcmp(lent.list, after.list, sizeof lent.list) != 0);
    agree("volumes, orders held", 0,
          memcmp(lent.volumes, after.volumes, sizeof lent.volumes) != 0);
}

static struct guvontsira_auction_answer add(struct guvontsira_auction_order order,
                                            uint32_t reference)
{
    const struct guvontsira_auction_answer answer = guvontsira_auction_add(
        lent.list, list_length, &lent.count, order, reference, lent.volumes, scratch_length);
    if (answer.refusal == 0) {
        after.list[after.count++] = order;
    }
    keeps(answer, reference);
    return answer;
}

static struct guvontsira_auction_answer take(size_t place, uint32_t reference)
{
    const struct guvontsira_auction_answer answer = guvontsira_auction_take(
        lent.list, list_length, &lent.count, place, reference, lent.volumes, scratch_length);
    if (answer.refusal == 0) {
        after.count--;
        for (; place < after.count; place++) {
            after.list[place] = after.list[place + 1];
        }
    }
    keeps(answer, reference);
    return answer;
}

/* Document 003's book built up and taken down. */
static void current_book(size_t length, size_t volumes_length)
{
    lend(length, book_003, 0, volumes_length);
    auction_gives(add(book_003[0], 0), 0, 0);
    auction_gives(add(book_003[1], UINT32_MAX), 0, 0);
    auction_gives(add(book_003[2], 0), 4900, 400);
    auction_gives(add(book_003[3], 0), 4900, 400);
    auction_gives(add(book_003[4], UINT32_MAX), 4900, 900);
    same("orders held", 5, 5, lent.count);
    same("volume at place 1", 600, 600, lent.volumes[1]);
    /* One between two others, the first, the last. */
    auction_gives(take(2, 0), 4900, 600);
    auction_gives(take(0, 0), 4800, 300);
    same("orders held", 3, 3, lent.count);
    same("volume at place 0", 300, 300, lent.volumes[0]);
    auction_gives(take(2, 0), 0, 0);
    ANSWERS(AUCTION_REFUSED_PLACE, take(2, 0).refusal);
    auction_gives(take(1, 0), 0, 0);
    auction_gives(take(0, 0), 0, 0);
    ANSWERS(AUCTION_REFUSED_PLACE, take(0, 0).refusal);
    same("orders held", 0, 0, lent.count);
}

/* Request 7. */
static void current_auctions(void)
{
    const struct guvontsira_auction_order pair[] = {{BUY, 200, 100}, {SELL, 206, 100},
                                                    {BUY, 0, 100}};
    const struct guvontsira_auction_order sell = {SELL, 0, 100};

    /* In a list that it fills, in one of as many places as may be filled, in a longer one. */
    current_book(COUNT(book_003), 2 * MOST_ORDERS);
    current_book(MOST_ORDERS, MOST_ORDERS);
    current_book(2 * MOST_ORDERS, MOST_ORDERS);

    /* Each call has a reference of its own. */
    lend(MOST_ORDERS, pair, COUNT(pair), MOST_ORDERS);
    auction_gives(add(sell, 202), 200, 100);
    auction_gives(take(3, 202), 206, 100);
    auction_gives(add(sell, 203), 206, 100);
    auction_gives(add(sell, 0), 200, 200);
    auction_gives(take(4, UINT32_MAX), 206, 100);
    auction_gives(add(sell, UINT32_MAX), 200, 200);
    auction_gives(take(3, 202), 200, 100);
}

/* What each call is refused with by its lengths, all orders being good; 0 is not refused. */
static const struct {
    size_t length, count, volumes_length;
    uint32_t add, take;
} edges[] = {
    {0, 0, MOST_ORDERS, 14, 16},
    {0, 1, MOST_ORDERS, 14, 14},
    {1, 0, MOST_ORDERS, 0, 16},
    {1, 1, MOST_ORDERS, 14, 0},
    {1, 2, MOST_ORDERS, 14, 14},
    {MOST_ORDERS, 0, MOST_ORDERS, 0, 16},
    {MOST_ORDERS, 0, MOST_ORDERS - 1, 14, 14},
    {MOST_ORDERS, 1, 0, 14, 14},
    {MOST_ORDERS, MOST_ORDERS - 1, MOST_ORDERS, 0, 0},
    {MOST_ORDERS, MOST_ORDERS, MOST_ORDERS, 14, 0},
    {MOST_ORDERS, MOST_ORDERS + 1, MOST_ORDERS, 14, 14},
    {2 * MOST_ORDERS, 1, 2 * MOST_ORDERS, 0, 0},
    {2 * MOST_ORDERS, MOST_ORDERS - 1, MOST_ORDERS, 0, 0},
    {2 * MOST_ORDERS, MOST_ORDERS, 2 * MOST_ORDERS, 14, 0},
    {2 * MOST_ORDERS, MOST_ORDERS + 1, 2 * MOST_ORDERS, 14, 14},
    {2 * MOST_ORDERS, SIZE_MAX, MOST_ORDERS, 14, 14},
};

static void current_auction_lengths(void)
{
    const struct guvontsira_auction_order good = {BUY, 5000, 100}, bad = {BUY, 5001, 100};
    static struct guvontsira_auction_order held[2 * MOST_ORDERS];

    for (size_t place = 0; place < COUNT(held); place++) {
        held[place] = good;
    }
    for (size_t edge = 0; edge < COUNT(edges); edge++) {
        const size_t length = edges[edge].length, count = edges[edge].count;
        const size_t volumes_length = edges[edge].volumes_length;
        const uint32_t adding = edges[edge].add, taking = edges[edge].take;
        lend(length, held, count, volumes_length);
        same("add refused", adding, adding, add(good, 0).refusal);
        lend(length, held, count, volumes_length);
        same("take refused", taking, taking, take(0, 0).refusal);
        /* 14 is found before 15, and before 16. */
        lend(length, held, count, volumes_length);
        agree("add bad", adding == 0 ? 15 : adding, add(bad, 0).refusal);
        agree("take beyond", taking == 0 ? 16 : taking, take(count, 0).refusal);
        held[0] = bad;
        lend(length, held, count, volumes_length);
        agree("add to bad", count == 0 || adding != 0 ? adding : 15, add(good, 0).refusal);
        lend(length, held, count, volumes_length);
        agree("take bad", count == 0 || taking != 0 ? taking : 15, take(0, 0).refusal);
        held[0] = good;
    }
    lend(2 * MOST_ORDERS, held, MOST_ORDERS - 1, MOST_ORDERS);
    add(good, 0);
    add(good, 0);
    MEANS(MAX_AUCTION_ORDERS, MOST_ORDERS, lent.count);

    lend(MOST_ORDERS, held, 3, MOST_ORDERS);
    agree("beyond", 16, take(4, 0).refusal);
    agree("beyond", 16, take(MOST_ORDERS, 0).refusal);
    agree("beyond", 16, take((size_t)1 << 32, 0).refusal);
    agree("beyond", 16, take(SIZE_MAX, 0).refusal);
}

/* A bad order, to be added or held in each of three places, one field at a time. */
static void current_auction_orders(void)
{
    const struct guvontsira_auction_order good = {SELL, GUVONTSIRA_MAX_PRICE,
                                                  GUVONTSIRA_MAX_VOLUME};
    const struct guvontsira_auction_order bad[] = {
        {SELL + 1, GUVONTSIRA_MAX_PRICE, GUVONTSIRA_MAX_VOLUME},
        {SELL, GUVONTSIRA_MAX_PRICE - 1, GUVONTSIRA_MAX_VOLUME},
        {SELL, GUVONTSIRA_MAX_PRICE + 200, GUVONTSIRA_MAX_VOLUME},
        {SELL, GUVONTSIRA_MAX_PRICE, 0},
        {SELL, GUVONTSIRA_MAX_PRICE, GUVONTSIRA_MAX_VOLUME + 1}};

    for (size_t field = 0; field < COUNT(bad); field++) {
        struct guvontsira_auction_order held[] = {good, good, good};
        lend(MOST_ORDERS, held, COUNT(held), MOST_ORDERS);
        ANSWERS(AUCTION_REFUSED_ORDER, add(bad[field], 0).refusal);
        for (size_t place = 0; place < COUNT(held); place++) {
            held[place] = bad[field];
            lend(MOST_ORDERS, held, COUNT(held), MOST_ORDERS);
            agree("add to bad", 15, add(good, 0).refusal);
            /* Also where it is the one to be taken out; and 15 is found before 16. */
            agree("take of bad", 15, take(0, 0).refusal);
            agree("take of bad", 15, take(2, 0).refusal);
            agree("take beyond of bad", 15, take(3, 0).refusal);
            held[place] = good;
        }
    }
}

/* Every number that has words; those of the day program's listing. */
static void texts(void)
{
    for (uint32_t answer = 0; answer < 1000; answer++) {
        const char *text = guvontsira_answer_text(answer);
        if (strcmp(text, "unknown") != 0) {
            printf("%u: %s\n", (unsigned)answer, text);
        }
    }
    printf("%s\n", guvontsira_answer_text(UINT32_MAX));
}

/* The calls that go deepest run on a stack of their own, to see how much they take. */
static uint8_t stack[4 * GUVONTSIRA_STACK_BYTES];
static const uint8_t *caller;
static uint32_t far_answer, outside_answer;

static size_t deep_order(uint8_t *event, uint16_t customer, uint32_t number,
                         enum guvontsira_type type, uint32_t price)
{
    return guvontsira_order_event(event, customer, number, 0, GUVONTSIRA_BOARD_MAIN,
                                  GUVONTSIRA_SIDE_BUY, type, GUVONTSIRA_CHANNEL_ONLINE, price,
                                  100);
}

static void deepest(void)
{
    const uint16_t customer = CUSTOMERS - 1;
    uint8_t events[12 * GUVONTSIRA_MAX_LENGTH];
    size_t lengths[12];
    uint32_t answers[12];
    size_t end = 0;
    caller = events;
    end += lengths[0] = guvontsira_session_event(events, GUVONTSIRA_SESSION_PRE_OPEN);
    end += lengths[1] = guvontsira_prices_event(events + end, 0, GUVONTSIRA_BOARD_MAIN, 5000, 0, 0,
                                                5025);
    /* Base 45.00, ceiling 58.50, floor 31.50. */
    end += lengths[2] = guvontsira_setup_event(events + end, 0, 100, 0, 0, 5000, 0);
    end += lengths[3] = guvontsira_figures_event(events + end, 0, 0, 4000, 1, 1);
    /* Warn 10 goes deepest: it has the table of legal prices on the stack. */
    end += lengths[4] = deep_order(events + end, customer, 1, GUVONTSIRA_TYPE_LIMIT, 4725);
    end += lengths[5] = deep_order(events + end, customer, 2, GUVONTSIRA_TYPE_LIMIT, 5875);
    end += lengths[6] = guvontsira_session_event(events + end, GUVONTSIRA_SESSION_OPEN);
    end += lengths[7] = deep_order(events + end, customer, 2, GUVONTSIRA_TYPE_LIMIT, 5000);
    end += lengths[8] = guvontsira_match_event(events + end, customer, 1, 50);
    end += lengths[9] = guvontsira_cancel_event(events + end, customer, 1);
    end += lengths[10] = deep_order(events + end, customer, 3, GUVONTSIRA_TYPE_MP, 0);
    end += lengths[11] = guvontsira_rest_event(events + end, customer, 3, 5050);
    guvontsira_run_list(words, COUNT(words), events, end, lengths, COUNT(lengths), answers,
                        COUNT(answers));
    far_answer = answers[4];
    outside_answer = answers[5];
    guvontsira_floor(words, COUNT(words), 0);
    guvontsira_ceiling(words, COUNT(words), 0);
    guvontsira_auction(book_002, COUNT(book_002), 0, buyers, MOST_ORDERS, sellers, MOST_ORDERS);
    guvontsira_auction_volumes(book_002, COUNT(book_002), 0, volumes, MOST_ORDERS);
    guvontsira_auction_add(lent.list, MOST_ORDERS, &lent.count, book_002[0], 0, volumes,
                           MOST_ORDERS);
    guvontsira_auction_take(lent.list, MOST_ORDERS, &lent.count, 0, 0, volumes, MOST_ORDERS);
    guvontsira_price(77);
    guvontsira_lower_position(6560);
    guvontsira_upper_position(6560);
}

static void depth(void)
{
    static ucontext_t here, there;
    const uint8_t unused = 0xa5;
    size_t untouched = 0;

    make();
    lend(MOST_ORDERS, book_002, COUNT(book_002), MOST_ORDERS);
    memset(stack, unused, sizeof stack);
    getcontext(&there);
    there.uc_stack.ss_sp = stack;
    there.uc_stack.ss_size = sizeof stack;
    there.uc_link = &here;
    makecontext(&there, deepest, 0);
    swapcontext(&here, &there);
    while (stack[untouched] == unused) {
        untouched++;
    }
    MEANS(STACK_BYTES, 1, caller - (stack + untouched) < GUVONTSIRA_STACK_BYTES);
    same("warn 10 on that stack", 1, GUVONTSIRA_WARN_10, far_answer);
    same("reject C on that stack", 1, GUVONTSIRA_REJECT_C, outside_answer);
    same("matched and cancelled on that stack", 1, GUVONTSIRA_MARK_CANCELLED,
         words[GUVONTSIRA_ROW_START(SECURITIES, CUSTOMERS - 1, 0) + GUVONTSIRA_ROW_MARK_WORD]);
    same("rest on that stack", 1, 5050,
         words[GUVONTSIRA_ROW_START(SECURITIES, CUSTOMERS - 1, 2) + GUVONTSIRA_ROW_PRICE_WORD]);
}

int main(void)
{
    ANSWERS(VERSION, guvontsira_version());
    sizes();
    lengths();
    list();
    ladder();
    nearest();
    market();
    types();
    rows();
    rests();
    adjusted_close();
    ranges();
    verdicts();
    full_desk();
    auctions();
    auction_refusals();
    current_auctions();
    current_auction_lengths();
    current_auction_orders();
    texts();
    depth();
    return status;
}
