/*
 * The price that an auction of source document 002's book would give: with two
 * scratch lists and the sums at the price of each limit; with one scratch list and
 * the volume at the place of each order; and kept current while the book's orders
 * are added one after another and two are taken out. Valid in C++ too.
 *
 *     cc -std=c11 -Wall -Wextra -Werror -I include examples/c/auction.c \
 *        target/staticlib/libguvontsira.a -o target/c-auction && target/c-auction
 */
#include <stdio.h>
#include <stdlib.h>

#include "guvontsira.h"

enum { BUY = GUVONTSIRA_SIDE_BUY, SELL = GUVONTSIRA_SIDE_SELL, LAST_SALE = 10200 };

#define COUNT(array) (sizeof(array) / sizeof(array)[0])

/* Side, price in satang (0 is ATO or ATC), volume. */
static const struct guvontsira_auction_order orders[] = {
    {BUY, 0, 1000},      {BUY, 10300, 1000},  {BUY, 10300, 1300},  {BUY, 10200, 500},
    {BUY, 10200, 1100},  {BUY, 10100, 800},   {BUY, 10100, 300},   {SELL, 10200, 2500},
    {SELL, 10200, 1000}, {SELL, 10300, 500},  {SELL, 10400, 1000}, {SELL, 10500, 1500},
    {SELL, 10600, 500}};

/* Lent to every call; what they hold before it does not matter. */
static uint64_t buyers[GUVONTSIRA_MAX_AUCTION_ORDERS];
static uint64_t sellers[GUVONTSIRA_MAX_AUCTION_ORDERS];
static uint64_t volumes[GUVONTSIRA_MAX_AUCTION_ORDERS];

/* The list that is kept current, with its count. */
static struct guvontsira_auction_order held[GUVONTSIRA_MAX_AUCTION_ORDERS];
static size_t count = 0;

static void stop_if_refused(struct guvontsira_auction_answer answer)
{
    if (answer.refusal != 0) {
        printf("refused %u\n", (unsigned)answer.refusal);
        exit(EXIT_FAILURE);
    }
}

static void print_answer(struct guvontsira_auction_answer answer)
{
    if (answer.price == 0) {
        puts("none");
    } else {
        printf("price %u volume %llu\n", (unsigned)answer.price,
               (unsigned long long)answer.volume);
    }
}

static void with_sums(void)
{
    const struct guvontsira_auction_answer answer =
        guvontsira_auction(orders, COUNT(orders), LAST_SALE, buyers, COUNT(buyers), sellers,
                           COUNT(sellers));
    stop_if_refused(answer);
    for (size_t i = 0; i < COUNT(orders); i++) {
        if (orders[i].price != 0) {
            printf("%u buyers %llu sellers %llu\n", (unsigned)orders[i].price,
                   (unsigned long long)buyers[i], (unsigned long long)sellers[i]);
        }
    }
    print_answer(answer);
}

static void with_volumes(void)
{
    const struct guvontsira_auction_answer answer = guvontsira_auction_volumes(
        orders, COUNT(orders), LAST_SALE, volumes, COUNT(volumes));
    stop_if_refused(answer);
    for (size_t i = 0; i < COUNT(orders); i++) {
        printf("place %zu price %u volume %llu\n", i, (unsigned)orders[i].price,
               (unsigned long long)volumes[i]);
    }
    print_answer(answer);
}

static void add(struct guvontsira_auction_order order)
{
    const struct guvontsira_auction_answer answer = guvontsira_auction_add(
        held, COUNT(held), &count, order, LAST_SALE, volumes, COUNT(volumes));
    stop_if_refused(answer);
    printf("add: held %zu ", count);
    print_answer(answer);
}

static void take(size_t place)
{
    const struct guvontsira_auction_answer answer = guvontsira_auction_take(
        held, COUNT(held), &count, place, LAST_SALE, volumes, COUNT(volumes));
    stop_if_refused(answer);
    printf("take %zu: held %zu ", place, count);
    print_answer(answer);
}

static void kept_current(void)
{
    for (size_t i = 0; i < COUNT(orders); i++) {
        add(orders[i]);
    }
    /* The sell of 2,500 at 102.00; then the ATO, which stands before it. */
    take(7);
    take(0);
}

int main(void)
{
    if (guvontsira_version() != GUVONTSIRA_VERSION) {
        fputs("guvontsira.h and libguvontsira.a are of two releases\n", stderr);
        return EXIT_FAILURE;
    }
    with_sums();
    with_volumes();
    kept_current();
    return EXIT_SUCCESS;
}
