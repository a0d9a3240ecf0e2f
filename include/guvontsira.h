/*
 * The order gate for brokers on the Stock Exchange of Thailand.
 *
 * One state serves one trading day. It is an array of 32-bit words that the
 * caller lends to every call; the library keeps nothing itself and allocates
 * nothing. Events are handed in as bytes, and each gets one answer number. Beside
 * the state, guvontsira_auction and guvontsira_auction_volumes give the price that an
 * auction of a list of orders would give, and guvontsira_auction_add and
 * guvontsira_auction_take keep such a list, and its price, current.
 *
 * Promised: every function ends, whatever the words and bytes; it writes only
 * what it was lent for writing; a refusal changes no word (1 to 13), no place of a
 * scratch list or of a list of orders, and no count (14 to 16).
 *
 * Owed by the caller: each pointer is valid for the length that follows it
 * (a count of its type), or, where none does, for one number, and aligned for its
 * type, also where that length is 0: never null. What a call may write (the words, the answers, the scratch lists, and
 * the list and the count of guvontsira_auction_add and guvontsira_auction_take)
 * overlaps nothing else that is handed in, and nobody else reads or writes it, or
 * writes the bytes, the lengths and the orders, during a call. So one state must not
 * be used by two calls at once, but for the two that only read it
 * (guvontsira_floor, guvontsira_ceiling); calls on different states, and auctions
 * that are lent different lists and counts for writing, may run at the same time.
 *
 * Link with libguvontsira.a, which needs only memcpy and memset. It is compiled
 * for x86-64 Linux. The words are in the machine's byte order, which is
 * little-endian there, as the fields of events are everywhere: words that are
 * kept in a file can be lent again by any program on such a machine.
 *
 * A call takes less than GUVONTSIRA_STACK_BYTES of the caller's stack: 9,312
 * measured, for a limit order before the opening. A lazy dynamic linker that
 * looks up memcpy during a call takes its own on top, some hundred bytes.
 */
#ifndef GUVONTSIRA_H
#define GUVONTSIRA_H

#include <stddef.h>
#include <stdint.h>

#ifdef __cplusplus
extern "C" {
#endif

/*
 * The release that this header belongs to: 10,000 times its major number, 100
 * times its minor one, and its patch. The major number rises when something that
 * was there changes (a kind's bytes, the answer to an event of a known kind, what
 * an answer's number means, where a word stands), the minor one when something is
 * added (a function, or a kind that was unknown, with its answers), the patch when
 * no byte, answer or word differs. guvontsira_version gives the library's; a
 * program stops where the two differ.
 */
#define GUVONTSIRA_VERSION 40300 /* 4.3.0 */

#define GUVONTSIRA_MAX_CUSTOMERS 256
#define GUVONTSIRA_MAX_SECURITIES 1024
#define GUVONTSIRA_MAX_TIME 86399999   /* milliseconds since midnight */
#define GUVONTSIRA_MAX_PRICE 10000000  /* satang: 100,000.00 baht */
#define GUVONTSIRA_MAX_POSITION 51100  /* of GUVONTSIRA_MAX_PRICE */
#define GUVONTSIRA_MAX_VOLUME 20000000 /* shares in one order */
#define GUVONTSIRA_MAX_AUCTION_ORDERS 1024 /* in an auction; each scratch list has as many places, or more */
#define GUVONTSIRA_STACK_BYTES 16384

/*
 * Events. The first byte is the kind, and the kind fixes the length, the kind
 * byte included.
 */
enum guvontsira_kind {
    GUVONTSIRA_KIND_CLOCK = 1,
    GUVONTSIRA_KIND_SESSION = 2,
    GUVONTSIRA_KIND_SETUP = 3,
    GUVONTSIRA_KIND_PRICES = 4,
    GUVONTSIRA_KIND_ORDER = 5,
    GUVONTSIRA_KIND_CANCEL = 6,
    GUVONTSIRA_KIND_MATCH = 7,
    GUVONTSIRA_KIND_REST = 8,
    GUVONTSIRA_KIND_FIGURES = 9
};

#define GUVONTSIRA_CLOCK_LENGTH 5
#define GUVONTSIRA_SESSION_LENGTH 2
#define GUVONTSIRA_SETUP_LENGTH 14
#define GUVONTSIRA_PRICES_LENGTH 20
#define GUVONTSIRA_ORDER_LENGTH 21
#define GUVONTSIRA_CANCEL_LENGTH 7
#define GUVONTSIRA_MATCH_LENGTH 11
#define GUVONTSIRA_REST_LENGTH 11
#define GUVONTSIRA_FIGURES_LENGTH 15
#define GUVONTSIRA_MAX_LENGTH 21 /* of the longest kind */

/*
 * The byte of the event at which each field begins; beside it the field's width
 * in bytes. Fields are little-endian. Prices are in satang, and 0 is an absent
 * one.
 */
enum guvontsira_event_byte {
    /* 1 clock */
    GUVONTSIRA_CLOCK_TIME_BYTE = 1,        /* 4: at most GUVONTSIRA_MAX_TIME */
    /* 2 session */
    GUVONTSIRA_SESSION_CODE_BYTE = 1,      /* 1: enum guvontsira_session */
    /* 3 setup */
    GUVONTSIRA_SETUP_SECURITY_BYTE = 1,    /* 2: from 0 */
    GUVONTSIRA_SETUP_LOT_BYTE = 3,         /* 1: 1, 50 or 100 */
    GUVONTSIRA_SETUP_FREE_BYTE = 4,        /* 1: 1 is no ceiling and floor */
    GUVONTSIRA_SETUP_FIRST_DAY_BYTE = 5,   /* 1: 0 or 1 */
    GUVONTSIRA_SETUP_PRIOR_CLOSE_BYTE = 6, /* 4: to GUVONTSIRA_MAX_PRICE, also off the ladder */
    GUVONTSIRA_SETUP_IPO_BYTE = 10,        /* 4: likewise */
    /* 4 prices */
    GUVONTSIRA_PRICES_SECURITY_BYTE = 1,   /* 2: from 0 */
    GUVONTSIRA_PRICES_BOARD_BYTE = 3,      /* 1: enum guvontsira_board */
    GUVONTSIRA_PRICES_PROJECTED_BYTE = 4,  /* 4 */
    GUVONTSIRA_PRICES_LAST_BYTE = 8,       /* 4 */
    GUVONTSIRA_PRICES_BID_BYTE = 12,       /* 4 */
    GUVONTSIRA_PRICES_OFFER_BYTE = 16,     /* 4 */
    /* 5 order */
    GUVONTSIRA_ORDER_CUSTOMER_BYTE = 1,    /* 2: from 0 */
    GUVONTSIRA_ORDER_NUMBER_BYTE = 3,      /* 4: not 0 */
    GUVONTSIRA_ORDER_SECURITY_BYTE = 7,    /* 2: from 0 */
    GUVONTSIRA_ORDER_BOARD_BYTE = 9,       /* 1: enum guvontsira_board */
    GUVONTSIRA_ORDER_SIDE_BYTE = 10,       /* 1: enum guvontsira_side */
    GUVONTSIRA_ORDER_TYPE_BYTE = 11,       /* 1: enum guvontsira_type */
    GUVONTSIRA_ORDER_CHANNEL_BYTE = 12,    /* 1: enum guvontsira_channel */
    GUVONTSIRA_ORDER_PRICE_BYTE = 13,      /* 4: 0 unless a limit */
    GUVONTSIRA_ORDER_VOLUME_BYTE = 17,     /* 4 */
    /* 6 cancel */
    GUVONTSIRA_CANCEL_CUSTOMER_BYTE = 1,   /* 2: from 0 */
    GUVONTSIRA_CANCEL_NUMBER_BYTE = 3,     /* 4: not 0 */
    /* 7 match */
    GUVONTSIRA_MATCH_CUSTOMER_BYTE = 1,    /* 2: from 0 */
    GUVONTSIRA_MATCH_NUMBER_BYTE = 3,      /* 4: not 0 */
    GUVONTSIRA_MATCH_VOLUME_BYTE = 7,      /* 4 */
    /* 8 rest */
    GUVONTSIRA_REST_CUSTOMER_BYTE = 1,     /* 2: from 0 */
    GUVONTSIRA_REST_NUMBER_BYTE = 3,       /* 4: not 0 */
    GUVONTSIRA_REST_PRICE_BYTE = 7,        /* 4: on the ladder */
    /* 9 figures */
    GUVONTSIRA_FIGURES_SECURITY_BYTE = 1,  /* 2: from 0 */
    GUVONTSIRA_FIGURES_DIVIDEND_BYTE = 3,  /* 4: below the prior close */
    GUVONTSIRA_FIGURES_SUBSCRIPTION_BYTE = 7, /* 4: any */
    GUVONTSIRA_FIGURES_OLD_BYTE = 11,      /* 2: old shares, not 0 */
    GUVONTSIRA_FIGURES_NEW_BYTE = 13       /* 2: new shares */
};

/* Codes, the same in events and in words. */
enum guvontsira_session {
    GUVONTSIRA_SESSION_CLOSED = 0,
    GUVONTSIRA_SESSION_PRE_OPEN = 1,
    GUVONTSIRA_SESSION_OPEN = 2,
    GUVONTSIRA_SESSION_BREAK = 3,
    GUVONTSIRA_SESSION_PRE_CLOSE = 4
};

enum guvontsira_board {
    GUVONTSIRA_BOARD_MAIN = 0,
    GUVONTSIRA_BOARD_FOREIGN = 1
};

enum guvontsira_side {
    GUVONTSIRA_SIDE_BUY = 0,
    GUVONTSIRA_SIDE_SELL = 1
};

enum guvontsira_type {
    GUVONTSIRA_TYPE_LIMIT = 0,
    GUVONTSIRA_TYPE_ATO = 1,
    GUVONTSIRA_TYPE_ATC = 2,
    GUVONTSIRA_TYPE_MP = 3 /* market price; in a row, until a rest makes it a limit */
};

enum guvontsira_channel {
    GUVONTSIRA_CHANNEL_FRONT_OFFICE = 0,
    GUVONTSIRA_CHANNEL_ONLINE = 1,
    GUVONTSIRA_CHANNEL_DMA = 2
};

/*
 * Of a row. A cancelled row counts for 60,000 ms: so long its number is taken
 * and P looks at it. It is removed by a later accepted or warned order.
 */
enum guvontsira_mark {
    GUVONTSIRA_MARK_FREE = 0,
    GUVONTSIRA_MARK_OPEN = 1,
    GUVONTSIRA_MARK_CANCELLED = 2
};

/*
 * The words of a state, for reading: the header, then the securities, then a
 * desk for each customer, which is three counters and 32 rows. Rows stand in
 * order of acceptance, and free rows, all zero, come last.
 */
#define GUVONTSIRA_HEADER_WORDS 4
#define GUVONTSIRA_SECURITY_WORDS 17
#define GUVONTSIRA_ROW_WORDS 9
#define GUVONTSIRA_DESK_ROWS 32
#define GUVONTSIRA_DESK_WORDS 291

/* The first word of a security, of a customer's desk and of its row. */
#define GUVONTSIRA_SECURITY_START(security) \
    ((size_t)GUVONTSIRA_HEADER_WORDS        \
     + (size_t)GUVONTSIRA_SECURITY_WORDS * (size_t)(security))
#define GUVONTSIRA_DESK_START(securities, customer) \
    (GUVONTSIRA_SECURITY_START(securities)          \
     + (size_t)GUVONTSIRA_DESK_WORDS * (size_t)(customer))
#define GUVONTSIRA_ROW_START(securities, customer, row) \
    (GUVONTSIRA_DESK_START(securities, customer)        \
     + (size_t)GUVONTSIRA_DESK_ROWS_WORD                \
     + (size_t)GUVONTSIRA_ROW_WORDS * (size_t)(row))

/* How many words a state has; a constant where both counts are. */
#define GUVONTSIRA_WORD_COUNT(customers, securities) \
    GUVONTSIRA_DESK_START(securities, customers)

/* Where each word stands, from the start of the state and of each record. */
enum guvontsira_header_word {
    GUVONTSIRA_HEADER_CUSTOMERS_WORD = 0,
    GUVONTSIRA_HEADER_SECURITIES_WORD = 1,
    GUVONTSIRA_HEADER_CLOCK_WORD = 2,
    GUVONTSIRA_HEADER_SESSION_WORD = 3
};

enum guvontsira_security_word {
    GUVONTSIRA_SECURITY_LOT_WORD = 0,
    GUVONTSIRA_SECURITY_FREE_WORD = 1,
    GUVONTSIRA_SECURITY_FIRST_DAY_WORD = 2,
    GUVONTSIRA_SECURITY_PRIOR_CLOSE_WORD = 3, /* also off the ladder, as in a setup */
    GUVONTSIRA_SECURITY_IPO_WORD = 4,         /* likewise */
    GUVONTSIRA_SECURITY_MAIN_WORD = 5,        /* the main board's four prices */
    GUVONTSIRA_SECURITY_FOREIGN_WORD = 9,     /* the foreign board's */
    GUVONTSIRA_SECURITY_DIVIDEND_WORD = 13,   /* the figures; all four 0 without them */
    GUVONTSIRA_SECURITY_SUBSCRIPTION_WORD = 14,
    GUVONTSIRA_SECURITY_OLD_WORD = 15,        /* old shares */
    GUVONTSIRA_SECURITY_NEW_WORD = 16         /* new shares */
};

/* From the start of a board's four prices. */
enum guvontsira_board_word {
    GUVONTSIRA_BOARD_PROJECTED_WORD = 0,
    GUVONTSIRA_BOARD_LAST_WORD = 1,
    GUVONTSIRA_BOARD_BID_WORD = 2,
    GUVONTSIRA_BOARD_OFFER_WORD = 3
};

enum guvontsira_desk_word {
    GUVONTSIRA_DESK_ACCEPTED_WORD = 0, /* a counter stays at 4,294,967,295 */
    GUVONTSIRA_DESK_WARNED_WORD = 1,
    GUVONTSIRA_DESK_REJECTED_WORD = 2,
    GUVONTSIRA_DESK_ROWS_WORD = 3
};

enum guvontsira_row_word {
    GUVONTSIRA_ROW_MARK_WORD = 0,
    GUVONTSIRA_ROW_NUMBER_WORD = 1,
    GUVONTSIRA_ROW_SECURITY_WORD = 2,
    GUVONTSIRA_ROW_BOARD_WORD = 3,
    GUVONTSIRA_ROW_SIDE_WORD = 4,
    GUVONTSIRA_ROW_TYPE_WORD = 5,
    GUVONTSIRA_ROW_PRICE_WORD = 6,       /* 0 unless a limit */
    GUVONTSIRA_ROW_VOLUME_WORD = 7,      /* what is left of it */
    GUVONTSIRA_ROW_CANCEL_TIME_WORD = 8  /* 0 while the row is open */
};

/*
 * Answers to an event. 0 is ok. A refusal is the number of the condition that was
 * found first, below 100. A verdict on an order is 100 for accept, 100 and the
 * warning's number, or 200 and the place of the rejecting rule's letter in the
 * alphabet (P is the 16th). So an order may go out if its answer is 100 to 199. An
 * order that meets several rules gets the first in this order: S V C Q W P, warn
 * 30, warn 10. A price rule whose reference is absent does not apply. docs/RULES.md
 * has the rules with their edges.
 */
enum guvontsira_answer {
    /* A market event, a cancel, a match or a rest was carried out. */
    GUVONTSIRA_OK = 0,
    GUVONTSIRA_REFUSED_STATE = 1,         /* the lent words are no state's */
    GUVONTSIRA_REFUSED_LENGTH = 2,        /* no bytes, or not the kind's length */
    GUVONTSIRA_REFUSED_KIND = 3,          /* unknown kind */
    GUVONTSIRA_REFUSED_NAME = 4,          /* no such customer or security */
    GUVONTSIRA_REFUSED_CODE = 5,          /* code, time or order number */
    GUVONTSIRA_REFUSED_PRICE = 6,         /* a price that may not stand there */
    GUVONTSIRA_REFUSED_CLOCK = 7,         /* earlier than the state's clock */
    GUVONTSIRA_REFUSED_RECORD = 8,        /* a record of the state is damaged */
    GUVONTSIRA_REFUSED_NUMBER_TAKEN = 9,  /* order number in use */
    GUVONTSIRA_REFUSED_NO_OPEN_ROW = 10,  /* nothing to cancel or match; for rest, no MP row */
    GUVONTSIRA_REFUSED_MATCH_VOLUME = 11, /* 0 or more than is open */
    GUVONTSIRA_REFUSED_DESK_FULL = 12,    /* 32 rows in use */
    GUVONTSIRA_REFUSED_FIGURES = 13,      /* old shares 0, or dividend not below prior close */
    /* No rule applies: the order may go out. */
    GUVONTSIRA_ACCEPT = 100,
    /* It may go out. Its position is more than 10 above the lower position of the
       reference, or more than 10 below its upper position. The reference is the
       projected price, else the last sale, else the prior close, which alone may
       lie between two steps: limits on the main board, before the opening and the
       close, online and DMA. */
    GUVONTSIRA_WARN_10 = 110,
    /* It may go out. Its price is above 130% or below 70% of the last sale (on the
       foreign board else the main board's): limits for a free security, session
       open. */
    GUVONTSIRA_WARN_30 = 130,
    /* Price outside the day's range, below guvontsira_floor or above
       guvontsira_ceiling: limits on the main board for a security that is not free
       and has a prior close, in every session that takes limits, every channel. */
    GUVONTSIRA_REJECT_C = 203,
    /* At least 3 million baht entered again at the price of an own order cancelled
       at most 60,000 ms ago, twice the new volume being at least the cancelled
       one: limits, online, session open. */
    GUVONTSIRA_REJECT_P = 216,
    /* Price above 150% or below 50% of the reference, which is the projected
       price, else the last sale (on the foreign board else the main board's), else
       on a first day the IPO price: limits for a free security, before the opening
       and the close. */
    GUVONTSIRA_REJECT_Q = 217,
    /* The session does not take an order, or one of this type; or an MP order
       finds no best price opposite on its board. */
    GUVONTSIRA_REJECT_S = 219,
    /* Volume 0, above GUVONTSIRA_MAX_VOLUME or no multiple of the lot; or a
       limit of more than 500 million baht. */
    GUVONTSIRA_REJECT_V = 222,
    /* It could match an open order of the customer's own: online. No order meets
       an MP row, until a rest makes it a limit. */
    GUVONTSIRA_REJECT_W = 223
};

#define GUVONTSIRA_LAST_REFUSAL GUVONTSIRA_REFUSED_FIGURES /* of an event */

/*
 * The refusals of the four calls of an auction, the first that is met. They follow on
 * those of events, and no event gets one.
 */
enum guvontsira_auction_refusal {
    /* More than GUVONTSIRA_MAX_AUCTION_ORDERS orders, or a scratch list with fewer
       places than that. Where the list is lent with its count: a count above that
       number or above the length of the list; to add, also a count equal to either. */
    GUVONTSIRA_AUCTION_REFUSED_LENGTH = 14,
    /* In any place (below the count, where one is lent), or to be added, an order with
       a side that is no code, a price that is neither 0 nor legal, or a volume that is
       not 1 to GUVONTSIRA_MAX_VOLUME. */
    GUVONTSIRA_AUCTION_REFUSED_ORDER = 15,
    /* Of guvontsira_auction_take alone: a place at or beyond the count. */
    GUVONTSIRA_AUCTION_REFUSED_PLACE = 16
};

/* An order of an auction: 12 bytes; its fields begin at bytes 0, 4 and 8. */
struct guvontsira_auction_order {
    uint32_t side;   /* enum guvontsira_side */
    uint32_t price;  /* of a limit, in satang; 0 for ATO or ATC */
    uint32_t volume; /* 1 to GUVONTSIRA_MAX_VOLUME */
};

/*
 * The answer of an auction: 16 bytes; its fields begin at bytes 0, 8 and 12. A price
 * stands with its volume, both above 0. Both are 0 where there is none, and in a
 * refusal.
 */
struct guvontsira_auction_answer {
    uint64_t volume;
    uint32_t price;   /* in satang */
    uint32_t refusal; /* enum guvontsira_auction_refusal; else 0 */
};

/* The library's release; to be compared with GUVONTSIRA_VERSION. */
uint32_t guvontsira_version(void);

/*
 * Makes a fresh state of 1 to 256 customers and 1 to 1,024 securities in
 * GUVONTSIRA_WORD_COUNT(customers, securities) words, whatever they held. Other
 * counts are refused with 1. A fresh state has its two counts, every lot 100 and
 * zeros elsewhere: the clock is at midnight, no price is known, and the session
 * is closed, so every order gets S until a session event.
 */
uint32_t guvontsira_make(uint32_t *words, size_t word_count, uint32_t customers,
                         uint32_t securities);

/* Handles one event and gives back its answer. */
uint32_t guvontsira_handle(uint32_t *words, size_t word_count,
                           const uint8_t *event, size_t event_length);

/*
 * Handles events that stand one after another, each as long as its kind says.
 * An unknown kind, or an event with fewer bytes left than its length, takes all
 * the rest and so ends the run. The first answers_length events are handled;
 * each answer is written to its place in answers. Gives back how many events
 * were handled; places past that are untouched.
 */
size_t guvontsira_run(uint32_t *words, size_t word_count, const uint8_t *events,
                      size_t events_length, uint32_t *answers,
                      size_t answers_length);

/*
 * The same for events by their lengths: the event at each place takes its length
 * of the bytes, or what is left of them. So any list of events can be handed in,
 * also one in which bytes that are no whole event stand before others. As many
 * events are handled as there are lengths and places for answers.
 */
size_t guvontsira_run_list(uint32_t *words, size_t word_count,
                           const uint8_t *events, size_t events_length,
                           const size_t *lengths, size_t lengths_length,
                           uint32_t *answers, size_t answers_length);

/*
 * The day's range of a security on the main board, in satang; 0 where it has
 * none: it is free or has no prior close, its number is not below the count of
 * securities, its record is damaged, or the state does not fit. No desk is looked
 * at, and nothing is written: these two may run at once on one state, as long as
 * nobody writes its words meanwhile.
 *
 * The base is the prior close or, with figures, where it is smaller,
 *
 *     ((prior close - dividend) * old shares + subscription * new shares)
 *         / (old shares + new shares)
 *
 * as an exact fraction. The ceiling is 130% of it, down to a legal price; the floor
 * 70%, up to one; both at least 0.01 and at most GUVONTSIRA_MAX_PRICE. So 150.00
 * with 2 old and 3 new shares at 10.00 has base 66.00, ceiling 85.75 and floor
 * 46.25. With a prior close below 1.00 baht the floor is 0.01 and the ceiling twice
 * the prior close, whatever the figures. With a base between 10/7 and 20/13 satang,
 * which only figures can give, the floor is 0.02 and the ceiling 0.01, and every
 * limit is outside.
 */
uint32_t guvontsira_floor(const uint32_t *words, size_t word_count, uint32_t security);
uint32_t guvontsira_ceiling(const uint32_t *words, size_t word_count, uint32_t security);

/*
 * The price that an auction of these orders would give, and the volume it would
 * trade; no state is looked at. A candidate is the price of a limit in the list. At
 * a price, the buyers' sum is the volume of all buys that are ATO, ATC or limits at
 * or above it, the sellers' sum that of all sells that are ATO, ATC or limits at or
 * below it, and the smaller sum is the volume. Given is the candidate with
 *
 *     1. the most volume; of several
 *     2. the least difference of the two sums; of several
 *     3. the least distance to the reference; of two
 *     4. the higher;
 *
 * and none exactly where no candidate has volume above 0. The reference is any
 * number, as a rule the last sale in satang; with 0, step 3 gives the lowest.
 *
 * The two scratch lists have GUVONTSIRA_MAX_AUCTION_ORDERS places or more, whatever
 * they hold. Afterwards buyers[i] and sellers[i] are the two sums at the price of
 * orders[i], and 0 where that is ATO or ATC; places past the last order are
 * untouched, and so are all after a refusal. Each order's place is held to every
 * order: the time grows with the square of the count.
 */
struct guvontsira_auction_answer
guvontsira_auction(const struct guvontsira_auction_order *orders, size_t order_count,
                   uint32_t reference, uint64_t *buyers, size_t buyers_length,
                   uint64_t *sellers, size_t sellers_length);

/*
 * The same answer with one scratch list, of GUVONTSIRA_MAX_AUCTION_ORDERS places or
 * more, whatever it holds. The refusals are the same two; 14 asks the count of orders
 * and the length of this one list. Afterwards volumes[i] is the volume at the price of
 * orders[i], and 0 where that is ATO or ATC; every place past the last order is 0 too,
 * to the end of the list, however long it is: the time grows with that too, beside the
 * square of the count. After a refusal all are untouched.
 */
struct guvontsira_auction_answer
guvontsira_auction_volumes(const struct guvontsira_auction_order *orders, size_t order_count,
                           uint32_t reference, uint64_t *volumes, size_t volumes_length);

/*
 * These two keep a list of orders, and its price, current. The list is lent with its
 * count: *count orders are held, at its first places. To begin with, *count is 0, and
 * the list may hold anything: what stands past the count is never asked. A list may
 * have any length; at most GUVONTSIRA_MAX_AUCTION_ORDERS orders are held in it.
 *
 * guvontsira_auction_add adds the order at the end. guvontsira_auction_take takes out
 * the order at the place, counted from 0, and closes the gap: each order behind it
 * stands one place lower afterwards. Then *count is one more or one less, every place
 * of the list past the count is zero (side, price and volume), to the end of the list,
 * however long it is, and the answer and the volumes are those that
 * guvontsira_auction_volumes gives for the orders held. They are worked out afresh: the
 * reference may be another one in each call, the scratch list may hold anything before
 * it, and the time grows as there, and with the length of the list.
 *
 * Refused with 14, first, if the count is above the length of the list or above
 * GUVONTSIRA_MAX_AUCTION_ORDERS (to add, also if it equals either), or the scratch list
 * has fewer than GUVONTSIRA_MAX_AUCTION_ORDERS places; then with 15, if the order to be
 * added or one held is bad, also the one to be taken out; last, by
 * guvontsira_auction_take, with 16 if the place is at or beyond the count. After a
 * refusal the list, the count and the volumes are as they were.
 *
 * Owed, as by every caller: the list, the count and the scratch list overlap nothing
 * else that is handed in.
 */
struct guvontsira_auction_answer
guvontsira_auction_add(struct guvontsira_auction_order *orders, size_t orders_length,
                       size_t *count, struct guvontsira_auction_order order,
                       uint32_t reference, uint64_t *volumes, size_t volumes_length);
struct guvontsira_auction_answer
guvontsira_auction_take(struct guvontsira_auction_order *orders, size_t orders_length,
                        size_t *count, size_t place, uint32_t reference,
                        uint64_t *volumes, size_t volumes_length);

/* The ladder position of a price in satang; 0 if it is off the ladder. */
uint32_t guvontsira_position(uint32_t price);

/*
 * The nearest ladder position at or below a price in satang (its lower position)
 * and the nearest at or above (its upper position); 0 if the price is not 1 to
 * GUVONTSIRA_MAX_PRICE. The price is legal exactly where the two are equal and
 * not 0, and then they are its position. So 65.60 has 762, of 65.50, and 763, of
 * 65.75.
 */
uint32_t guvontsira_lower_position(uint32_t price);
uint32_t guvontsira_upper_position(uint32_t price);

/* The price in satang at a ladder position; 0 if there is no such position. */
uint32_t guvontsira_price(uint32_t position);

/*
 * Builders. Each writes one event to out, which has room for the kind's length
 * (GUVONTSIRA_MAX_LENGTH is room for any), and gives back that length. Arguments
 * stand in the order of the bytes. Nothing is tested here: what may not stand in
 * an event is refused by the gate.
 *
 *     uint8_t event[GUVONTSIRA_MAX_LENGTH];
 *     size_t length = guvontsira_cancel_event(event, 0, 1);
 *     uint32_t answer = guvontsira_handle(words, word_count, event, length);
 */

/* For the builders: a field of two and of four bytes. */
static inline void guvontsira_put_2(uint8_t *place, uint16_t value)
{
    place[0] = (uint8_t)value;
    place[1] = (uint8_t)(value >> 8);
}

static inline void guvontsira_put_4(uint8_t *place, uint32_t value)
{
    guvontsira_put_2(place, (uint16_t)value);
    guvontsira_put_2(place + 2, (uint16_t)(value >> 16));
}

static inline size_t guvontsira_clock_event(uint8_t *out, uint32_t time)
{
    out[0] = GUVONTSIRA_KIND_CLOCK;
    guvontsira_put_4(out + GUVONTSIRA_CLOCK_TIME_BYTE, time);
    return GUVONTSIRA_CLOCK_LENGTH;
}

static inline size_t guvontsira_session_event(uint8_t *out, enum guvontsira_session session)
{
    out[0] = GUVONTSIRA_KIND_SESSION;
    out[GUVONTSIRA_SESSION_CODE_BYTE] = (uint8_t)session;
    return GUVONTSIRA_SESSION_LENGTH;
}

/* The figures of the security are cleared. */
static inline size_t guvontsira_setup_event(uint8_t *out, uint16_t security, uint8_t lot,
                                            uint8_t free, uint8_t first_day,
                                            uint32_t prior_close, uint32_t ipo)
{
    out[0] = GUVONTSIRA_KIND_SETUP;
    guvontsira_put_2(out + GUVONTSIRA_SETUP_SECURITY_BYTE, security);
    out[GUVONTSIRA_SETUP_LOT_BYTE] = lot;
    out[GUVONTSIRA_SETUP_FREE_BYTE] = free;
    out[GUVONTSIRA_SETUP_FIRST_DAY_BYTE] = first_day;
    guvontsira_put_4(out + GUVONTSIRA_SETUP_PRIOR_CLOSE_BYTE, prior_close);
    guvontsira_put_4(out + GUVONTSIRA_SETUP_IPO_BYTE, ipo);
    return GUVONTSIRA_SETUP_LENGTH;
}

/* All four prices of the board are replaced: 0 makes one absent. */
static inline size_t guvontsira_prices_event(uint8_t *out, uint16_t security,
                                             enum guvontsira_board board, uint32_t projected,
                                             uint32_t last, uint32_t bid, uint32_t offer)
{
    out[0] = GUVONTSIRA_KIND_PRICES;
    guvontsira_put_2(out + GUVONTSIRA_PRICES_SECURITY_BYTE, security);
    out[GUVONTSIRA_PRICES_BOARD_BYTE] = (uint8_t)board;
    guvontsira_put_4(out + GUVONTSIRA_PRICES_PROJECTED_BYTE, projected);
    guvontsira_put_4(out + GUVONTSIRA_PRICES_LAST_BYTE, last);
    guvontsira_put_4(out + GUVONTSIRA_PRICES_BID_BYTE, bid);
    guvontsira_put_4(out + GUVONTSIRA_PRICES_OFFER_BYTE, offer);
    return GUVONTSIRA_PRICES_LENGTH;
}

static inline size_t guvontsira_order_event(uint8_t *out, uint16_t customer, uint32_t number,
                                            uint16_t security, enum guvontsira_board board,
                                            enum guvontsira_side side, enum guvontsira_type type,
                                            enum guvontsira_channel channel, uint32_t price,
                                            uint32_t volume)
{
    out[0] = GUVONTSIRA_KIND_ORDER;
    guvontsira_put_2(out + GUVONTSIRA_ORDER_CUSTOMER_BYTE, customer);
    guvontsira_put_4(out + GUVONTSIRA_ORDER_NUMBER_BYTE, number);
    guvontsira_put_2(out + GUVONTSIRA_ORDER_SECURITY_BYTE, security);
    out[GUVONTSIRA_ORDER_BOARD_BYTE] = (uint8_t)board;
    out[GUVONTSIRA_ORDER_SIDE_BYTE] = (uint8_t)side;
    out[GUVONTSIRA_ORDER_TYPE_BYTE] = (uint8_t)type;
    out[GUVONTSIRA_ORDER_CHANNEL_BYTE] = (uint8_t)channel;
    guvontsira_put_4(out + GUVONTSIRA_ORDER_PRICE_BYTE, price);
    guvontsira_put_4(out + GUVONTSIRA_ORDER_VOLUME_BYTE, volume);
    return GUVONTSIRA_ORDER_LENGTH;
}

static inline size_t guvontsira_cancel_event(uint8_t *out, uint16_t customer, uint32_t number)
{
    out[0] = GUVONTSIRA_KIND_CANCEL;
    guvontsira_put_2(out + GUVONTSIRA_CANCEL_CUSTOMER_BYTE, customer);
    guvontsira_put_4(out + GUVONTSIRA_CANCEL_NUMBER_BYTE, number);
    return GUVONTSIRA_CANCEL_LENGTH;
}

static inline size_t guvontsira_match_event(uint8_t *out, uint16_t customer, uint32_t number,
                                            uint32_t volume)
{
    out[0] = GUVONTSIRA_KIND_MATCH;
    guvontsira_put_2(out + GUVONTSIRA_MATCH_CUSTOMER_BYTE, customer);
    guvontsira_put_4(out + GUVONTSIRA_MATCH_NUMBER_BYTE, number);
    guvontsira_put_4(out + GUVONTSIRA_MATCH_VOLUME_BYTE, volume);
    return GUVONTSIRA_MATCH_LENGTH;
}

/*
 * What is left of an MP order stands in the book as a limit, one step past the
 * last match: the open MP row with the number becomes a limit at the price.
 */
static inline size_t guvontsira_rest_event(uint8_t *out, uint16_t customer, uint32_t number,
                                           uint32_t price)
{
    out[0] = GUVONTSIRA_KIND_REST;
    guvontsira_put_2(out + GUVONTSIRA_REST_CUSTOMER_BYTE, customer);
    guvontsira_put_4(out + GUVONTSIRA_REST_NUMBER_BYTE, number);
    guvontsira_put_4(out + GUVONTSIRA_REST_PRICE_BYTE, price);
    return GUVONTSIRA_REST_LENGTH;
}

/*
 * What a right that has gone takes from a prior close that is not adjusted for it:
 * the dividend of a share, and new shares that the holder of old shares may
 * subscribe to, each at the subscription price. They change the day's range alone,
 * and stand until a setup of the security. With an adjusted prior close the same
 * right would be taken off twice.
 */
static inline size_t guvontsira_figures_event(uint8_t *out, uint16_t security, uint32_t dividend,
                                              uint32_t subscription, uint16_t old_shares,
                                              uint16_t new_shares)
{
    out[0] = GUVONTSIRA_KIND_FIGURES;
    guvontsira_put_2(out + GUVONTSIRA_FIGURES_SECURITY_BYTE, security);
    guvontsira_put_4(out + GUVONTSIRA_FIGURES_DIVIDEND_BYTE, dividend);
    guvontsira_put_4(out + GUVONTSIRA_FIGURES_SUBSCRIPTION_BYTE, subscription);
    guvontsira_put_2(out + GUVONTSIRA_FIGURES_OLD_BYTE, old_shares);
    guvontsira_put_2(out + GUVONTSIRA_FIGURES_NEW_BYTE, new_shares);
    return GUVONTSIRA_FIGURES_LENGTH;
}

/*
 * An answer to an event in the words of the day program's listing; "unknown" for
 * any other number, also for the refusals of an auction.
 */
static inline const char *guvontsira_answer_text(uint32_t answer)
{
    static const char *const low[GUVONTSIRA_LAST_REFUSAL + 1] = {
        "ok",         "refused 1",  "refused 2",  "refused 3",  "refused 4",
        "refused 5",  "refused 6",  "refused 7",  "refused 8",  "refused 9",
        "refused 10", "refused 11", "refused 12", "refused 13"};
    if (answer <= GUVONTSIRA_LAST_REFUSAL) {
        return low[answer];
    }
    switch (answer) {
    case GUVONTSIRA_ACCEPT: return "accept";
    case GUVONTSIRA_WARN_10: return "warn 10";
    case GUVONTSIRA_WARN_30: return "warn 30";
    case GUVONTSIRA_REJECT_C: return "reject C";
    case GUVONTSIRA_REJECT_P: return "reject P";
    case GUVONTSIRA_REJECT_Q: return "reject Q";
    case GUVONTSIRA_REJECT_S: return "reject S";
    case GUVONTSIRA_REJECT_V: return "reject V";
    case GUVONTSIRA_REJECT_W: return "reject W";
    default: return "unknown";
    }
}

#ifdef __cplusplus
}
#endif

#endif
