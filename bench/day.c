/*
 * What a call at a place of a day costs beside the same call on a book alone: the same queries and cards, on the same text, by turns; the least time of each of
 * many rounds, and their ratio.
 *
 * From the repository's root:
 *   tools/build bullacetop
 *   gcc -std=c99 -O2 -Iinclude bench/day.c target/staticlib/libbullacetop.a -o target/bench_day
 *   target/bench_day < TEXT
 */
#define _POSIX_C_SOURCE 199309L
#include <inttypes.h>
#include <stdio.h>
#include <time.h>

#include "bullacetop.h"

#define CELLS BULLACETOP_BOOK_CELLS(BULLACETOP_NUMBERS, BULLACETOP_RULES)
#define LITERALS BULLACETOP_BOOK_LITERALS(BULLACETOP_NUMBERS, BULLACETOP_RULES)
#define ROUNDS 400
#define REPEATS 50
#define PLACE 5

static uint8_t text[65536], table[65536];
static uint16_t alone_cells[CELLS], cells[CELLS * BULLACETOP_PLACES];
static int16_t alone_literals[LITERALS], literals[LITERALS * BULLACETOP_PLACES];
static struct bullacetop_workspace work;
static struct bullacetop_accounts accounts;
static struct bullacetop_rooms rooms;

static double now(void)
{
    struct timespec t;

    clock_gettime(CLOCK_MONOTONIC, &t);
    return t.tv_sec * 1e9 + t.tv_nsec;
}

static uint64_t alone(int card, const int16_t *on, size_t n)
{
    if (card)
        return bullacetop_book_card(alone_cells, CELLS, alone_literals, LITERALS, &work, table, sizeof table, 4000000000u).visits;
    return bullacetop_book_query(alone_cells, CELLS, alone_literals, LITERALS, &work, on, n, NULL, 0, 4000000000u).visits;
}

static uint64_t at_place(int card, const int16_t *on, size_t n)
{
    size_t m = CELLS * BULLACETOP_PLACES, k = LITERALS * BULLACETOP_PLACES;

    if (card)
        return bullacetop_day_card(&accounts, &rooms, cells, m, literals, k, &work, PLACE, table, sizeof table, 4000000000u).visits;
    return bullacetop_day_query(&accounts, &rooms, cells, m, literals, k, &work, PLACE, on, n, NULL, 0, 4000000000u).visits;
}

int main(void)
{
    size_t length = fread(text, 1, sizeof text, stdin), place;
    int card, round, i;
    const int16_t on = 1;

    for (place = 0; place < BULLACETOP_PLACES; place++) {
        rooms.cells[place] = CELLS;
        rooms.literals[place] = LITERALS;
    }
    for (card = 0; card < 2; card++) {
        double best[2] = {1e300, 1e300};
        uint64_t visits[2] = {0, 0};

        for (round = 0; round < ROUNDS; round++) {
            double start;

            bullacetop_day_begin(&accounts, 4294967295u);
            bullacetop_day_open(&accounts, &rooms, cells, CELLS * BULLACETOP_PLACES, literals, LITERALS * BULLACETOP_PLACES, PLACE, text, length,
                BULLACETOP_NUMBERS, BULLACETOP_RULES);
            bullacetop_book_open(text, length, BULLACETOP_NUMBERS, BULLACETOP_RULES, alone_cells, CELLS, alone_literals, LITERALS);
            start = now();
            for (i = 0; i < REPEATS; i++)
                visits[0] += alone(card, &on, 1);
            if (now() - start < best[0])
                best[0] = now() - start;
            start = now();
            for (i = 0; i < REPEATS; i++)
                visits[1] += at_place(card, &on, 1);
            if (now() - start < best[1])
                best[1] = now() - start;
        }
        printf("%s: alone %.0f ns, at a place %.0f ns, ratio %.3f, visits %s\n", card ? "card" : "query", best[0] / REPEATS, best[1] / REPEATS,
            best[1] / best[0], visits[0] == visits[1] ? "equal" : "DIFFER");
    }
    return 0;
}
