/*
 * Book A of paper 01 through the C calls, declared without a text, and a few refusals.
 *
 * From the repository's root:
 *   tools/build bullacetop
 *   gcc -std=c99 -Wall -Wextra -pedantic -O2 -Iinclude examples/c/card.c target/staticlib/libbullacetop.a -o target/card_c
 *   target/card_c
 */
#include <inttypes.h>
#include <stdio.h>

#include "bullacetop.h"

/* The book's limits, which stand in its first two cells; with zeros behind them it is the empty book. */
#define NUMBERS BULLACETOP_NUMBERS
#define RULES BULLACETOP_RULES
#define CELLS BULLACETOP_BOOK_CELLS(NUMBERS, RULES)
#define LITERALS BULLACETOP_BOOK_LITERALS(NUMBERS, RULES)

static uint16_t cells[CELLS] = {NUMBERS, RULES};
static int16_t literals[LITERALS];
/* Parts of the cells, each of NUMBERS + 1: the numbers of the variables, their levels, and the quantifiers of the levels. */
static uint16_t *const numbers = cells + 2;
static uint16_t *const levels = cells + 2 + NUMBERS + 1;
static uint16_t *const kinds = cells + 2 + 2 * (NUMBERS + 1);

/* What the calls search in. Too large for a stack; one serves any number of books. */
static struct bullacetop_workspace work;

/* One variable more. Every call checks its book, so a mistake here is refused with 22 and nothing worse. */
static void declare(uint16_t number, uint16_t kind)
{
    uint16_t n = numbers[0];
    uint16_t level = n ? levels[n] : 0;

    if (n == NUMBERS)
        return;
    if (kind != (n ? kinds[level] : BULLACETOP_FLAG))
        level++;
    numbers[n + 1] = number;
    levels[n + 1] = level;
    kinds[level] = kind;
    numbers[0] = (uint16_t)(n + 1);
}

static void rule(const int16_t *list, size_t n)
{
    struct bullacetop_reply a = bullacetop_book_rule(cells, CELLS, literals, LITERALS, list, n);

    if (a.refusal)
        printf("rule refused with %u\n", (unsigned)a.refusal);
}

static void one(const int16_t *list, size_t n)
{
    struct bullacetop_reply a = bullacetop_book_one(cells, CELLS, literals, LITERALS, list, n);

    if (a.refusal)
        printf("one refused with %u\n", (unsigned)a.refusal);
}

static void withdraw(void)
{
    struct bullacetop_reply a = bullacetop_book_withdraw(cells, CELLS, literals, LITERALS);

    if (a.refusal)
        printf("withdraw refused with %u\n", (unsigned)a.refusal);
}

static void forget(void)
{
    struct bullacetop_reply a = bullacetop_book_forget(cells, CELLS, literals, LITERALS);

    if (a.refusal)
        printf("forget refused with %u\n", (unsigned)a.refusal);
}

/* The flags that are on, and those that are off; the others are open. */
static void query(const int16_t *on, size_t n, const int16_t *off, size_t m)
{
    static const char *const verdicts[] = {"", "keep", "swap", "unsettled"};
    struct bullacetop_reply a =
        bullacetop_book_query(cells, CELLS, literals, LITERALS, &work, on, n, off, m, BULLACETOP_HIGHEST_CEILING);

    if (a.refusal)
        printf("query refused with %u\n", (unsigned)a.refusal);
    else
        printf("%s, visits %" PRIu64 "\n", verdicts[a.verdict], a.visits);
}

static void card(uint8_t *table, size_t length, size_t flags)
{
    static const char *const words[] = {"open", "off", "on"};
    struct bullacetop_reply a =
        bullacetop_book_card(cells, CELLS, literals, LITERALS, &work, table, length, BULLACETOP_HIGHEST_CEILING);

    if (a.refusal) {
        printf("card refused with %u, visits %" PRIu64 "\n", (unsigned)a.refusal, a.visits);
        return;
    }
    for (size_t line = 0; line < a.lines; line++) {
        printf("line:");
        for (size_t place = 0; place < flags; place++)
            printf(" %u %s", (unsigned)numbers[place + 1], words[table[line * flags + place]]);
        printf("\n");
    }
    printf("lines %zu, visits %" PRIu64 "\n", a.lines, a.visits);
}

/* How near a reading comes to the card. */
static void closest(const int16_t *on, size_t n, const int16_t *off, size_t m, uint8_t *table, size_t length)
{
    uint8_t reading[BULLACETOP_FLAGS];
    struct bullacetop_closest a = bullacetop_book_closest(
        cells, CELLS, literals, LITERALS, &work, on, n, off, m, table, length, reading, BULLACETOP_HIGHEST_CEILING);

    if (a.refusal) {
        printf("closest refused with %u, visits %" PRIu64 "\n", (unsigned)a.refusal, a.visits);
        return;
    }
    printf("closest:");
    for (size_t place = 0; place < BULLACETOP_FLAGS && reading[place]; place++)
        printf(" %u %s", (unsigned)numbers[place + 1], reading[place] == BULLACETOP_ON ? "on" : "off");
    printf(", differs in %zu, lines %zu, visits %" PRIu64 "\n", a.differs, a.lines, a.visits);
}

int main(void)
{
    static const int16_t first[] = {3, 4, -1}, second[] = {-3, -4, 2}, third[] = {1, 2};
    static const int16_t heat[] = {1}, fan[] = {2}, both[] = {2, 1}, load[] = {4}, undeclared[] = {5}, not_heat[] = {-1}, not_fan[] = {-2};
    uint8_t table[8];

    declare(1, BULLACETOP_FLAG);
    declare(2, BULLACETOP_FLAG);
    declare(3, BULLACETOP_EXISTS);
    declare(4, BULLACETOP_FORALL);
    rule(first, 3);
    rule(second, 3);
    rule(third, 2);

    card(table, sizeof table, 2);
    query(heat, 1, fan, 1);
    query(both, 2, NULL, 0);
    query(NULL, 0, both, 2);
    /* The first sensor is unplugged, then both. */
    query(fan, 1, NULL, 0);
    query(NULL, 0, NULL, 0);

    /* A board that is kept came as near as one flag; 2 is not told. */
    closest(heat, 1, fan, 1, table, sizeof table);
    closest(heat, 1, NULL, 0, table, sizeof table);

    /* A load is no flag; a flag is not on and off; 5 is not declared; three bytes hold one line of two. */
    query(load, 1, both, 2);
    query(heat, 1, heat, 1);
    rule(undeclared, 1);
    card(table, 3, 2);
    /* After 21 what the search learned is kept; this empties it. */
    forget();
    /* The newest rule goes; then the others, until there is none. */
    withdraw();
    card(table, sizeof table, 2);
    withdraw();
    withdraw();
    withdraw();
    /* One of both flags, which is two rules; then none of them, so that no reading is condemned. */
    one(heat, 1);
    one(both, 2);
    card(table, sizeof table, 2);
    rule(not_heat, 1);
    rule(not_fan, 1);
    closest(both, 2, NULL, 0, table, sizeof table);

    /* A number twice: the book is malformed, and stays as it is. */
    numbers[2] = 1;
    query(heat, 1, fan, 1);
    return 0;
}
