/*
 * A day of eight places: three books with limits of their own share 90 visits.
 *
 * From the repository's root:
 *   tools/build bullacetop
 *   gcc -std=c99 -Wall -Wextra -pedantic -O2 -Iinclude examples/c/day.c target/staticlib/libbullacetop.a -o target/day_c
 *   target/day_c
 */
#include <inttypes.h>
#include <stdio.h>
#include <string.h>

#include "bullacetop.h"

/* Two flags that differ, with an exists variable that follows the first; the same with a forall variable; and one flag alone. */
static const char follows[] =
    "(book 1)\n(flags 1 2)\n(exists 3)\n(rule 1 2)\n(rule (no 1) (no 2))\n(rule 1 (no 3))\n(rule (no 1) 3)\n(end)\n";
static const char load[] = "(book 1)\n(flags 1 2)\n(forall 3)\n(exists 4)\n(rule 1 3 4)\n(rule 2 (no 3) (no 4))\n(end)\n";
static const char alone[] = "(book 1)\n(flags 1)\n(rule 1)\n(end)\n";

/* The limits of the three. */
#define NUMBERS_A 10
#define RULES_A 20
#define NUMBERS_B 40
#define RULES_B 255
#define NUMBERS_C 1
#define RULES_C 1

#define CELLS                                                                                                                                \
    (BULLACETOP_BOOK_CELLS(NUMBERS_A, RULES_A) + BULLACETOP_BOOK_CELLS(NUMBERS_B, RULES_B) + BULLACETOP_BOOK_CELLS(NUMBERS_C, RULES_C))
#define LITERALS                                                                                                                             \
    (BULLACETOP_BOOK_LITERALS(NUMBERS_A, RULES_A) + BULLACETOP_BOOK_LITERALS(NUMBERS_B, RULES_B)                                            \
        + BULLACETOP_BOOK_LITERALS(NUMBERS_C, RULES_C))

/* All of it has room without a heap: the two long tables of the books, the accounts, and what the calls search in. */
static uint16_t cells[CELLS];
static int16_t literals[LITERALS];
static struct bullacetop_workspace work;
static struct bullacetop_accounts accounts;
static const struct bullacetop_rooms rooms = {
    {BULLACETOP_BOOK_CELLS(NUMBERS_A, RULES_A), BULLACETOP_BOOK_CELLS(NUMBERS_B, RULES_B), BULLACETOP_BOOK_CELLS(NUMBERS_C, RULES_C)},
    {BULLACETOP_BOOK_LITERALS(NUMBERS_A, RULES_A), BULLACETOP_BOOK_LITERALS(NUMBERS_B, RULES_B),
        BULLACETOP_BOOK_LITERALS(NUMBERS_C, RULES_C)}};

static void load_at(size_t place, const char *text, size_t numbers, size_t rules)
{
    struct bullacetop_book_opened opened = bullacetop_day_open(
        &accounts, &rooms, cells, CELLS, literals, LITERALS, place, (const uint8_t *)text, strlen(text), numbers, rules);

    printf("place %zu: %u\n", place, (unsigned)opened.refusal);
}

static void card_at(size_t place, uint32_t ceiling)
{
    uint8_t table[64];
    struct bullacetop_reply card =
        bullacetop_day_card(&accounts, &rooms, cells, CELLS, literals, LITERALS, &work, place, table, sizeof table, ceiling);

    printf("card at %zu: refusal %u, %zu lines, %" PRIu64 " visits\n", place, (unsigned)card.refusal, card.lines, card.visits);
}

static void shares(void)
{
    size_t place;

    for (place = 1; place <= BULLACETOP_PLACES; place++)
        printf(" %" PRIu32 "/%" PRIu32, accounts.used[place - 1], bullacetop_day_share(&accounts, place).visits);
    printf("\n");
}

int main(void)
{
    const int16_t first = 1, second = 2;
    struct bullacetop_reply reply;

    bullacetop_day_begin(&accounts, 90);
    load_at(1, follows, NUMBERS_A, RULES_A);
    load_at(2, load, NUMBERS_B, RULES_B);
    /* A text under too few numbers leaves its place without a book; another text is opened there. */
    load_at(3, load, NUMBERS_C, RULES_C);
    load_at(3, alone, NUMBERS_C, RULES_C);
    shares();

    card_at(1, BULLACETOP_HIGHEST_CEILING);
    shares();
    /* What is left stops the next search: by the share, or by a ceiling that is no higher. */
    card_at(1, BULLACETOP_HIGHEST_CEILING);
    card_at(1, 0);
    shares();
    /* The floors of the others are theirs, and calls without visits go on. */
    card_at(2, BULLACETOP_HIGHEST_CEILING);
    reply = bullacetop_day_query(
        &accounts, &rooms, cells, CELLS, literals, LITERALS, &work, 3, &first, 1, NULL, 0, BULLACETOP_HIGHEST_CEILING);
    printf("1 on at 3: verdict %u\n", (unsigned)reply.verdict);
    reply = bullacetop_day_rule(&accounts, &rooms, cells, CELLS, literals, LITERALS, 1, &second, 1);
    printf("rule at 1: %u\n", (unsigned)reply.refusal);
    card_at(4, BULLACETOP_HIGHEST_CEILING);
    card_at(9, BULLACETOP_HIGHEST_CEILING);
    shares();
    return 0;
}
