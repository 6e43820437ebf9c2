/*
 * How far each call writes its stack: the stack figures of docs/BENCHMARKS.md, for a book of so many variables, 40 where none are told. From the repository's
 * root:
 *   gcc -std=gnu99 -Wall -Wextra -O2 -Iinclude bench/stack.c target/staticlib/libbullacetop.a -o target/stack && target/stack && target/stack 1000
 */
#include <stdio.h>
#include <stdlib.h>
#include <string.h>
#include <ucontext.h>

#include "bullacetop.h"

#define SIZE ((size_t)1 << 20)
#define FILL 0xEE
#define CELLS BULLACETOP_BOOK_CELLS(BULLACETOP_HIGHEST_NUMBERS, BULLACETOP_HIGHEST_RULES)
#define LITERALS BULLACETOP_BOOK_LITERALS(BULLACETOP_HIGHEST_NUMBERS, BULLACETOP_HIGHEST_RULES)

static uint16_t cells[CELLS];
static int16_t literals[LITERALS];
static struct bullacetop_workspace work;
static uint8_t table[65536], cards[BULLACETOP_CARD_TABLE], reading[BULLACETOP_FLAGS], out[BULLACETOP_ANSWER_ROOM];
/* The same book as text, in edition 1, and as QDIMACS; and its limit for numbers. */
static char text[8192], qdimacs[8192];
static size_t numbers = 40;
/* What the last call was refused with. */
static unsigned refusal;

static const int16_t form[] = {1, 2, 3, 4, 5, 6, 7, 8, 9, 10, 11, 12, 13, 14, 15, 16};

static const uint8_t *bytes(const char *s)
{
    return (const uint8_t *)s;
}

/* One function for each call, so that a frame holds what one call is handed over and answers. */
static void open_text(void)
{
    refusal = bullacetop_book_open(bytes(text), strlen(text), numbers, BULLACETOP_HIGHEST_RULES, cells, CELLS, literals, LITERALS).refusal;
}

static void open_qdimacs(void)
{
    refusal =
        bullacetop_book_open_qdimacs(bytes(qdimacs), strlen(qdimacs), numbers, BULLACETOP_HIGHEST_RULES, cells, CELLS, literals, LITERALS).refusal;
}

static void tag(void)
{
    refusal = bullacetop_book_tag(
        bytes(text), strlen(text), numbers, BULLACETOP_HIGHEST_RULES, cells, CELLS, literals, LITERALS, table, sizeof table).refusal;
}

static void print(void)
{
    refusal = bullacetop_book_print(
        bytes(text), strlen(text), numbers, BULLACETOP_HIGHEST_RULES, cells, CELLS, literals, LITERALS, &work, out, sizeof out).refusal;
}

static void write_text(void)
{
    refusal = bullacetop_book_write(cells, CELLS, literals, LITERALS, out, sizeof out).refusal;
}

static void rule(void)
{
    refusal = bullacetop_book_rule(cells, CELLS, literals, LITERALS, form, 16).refusal;
}

static void one(void)
{
    refusal = bullacetop_book_one(cells, CELLS, literals, LITERALS, form, 16).refusal;
}

static void withdraw(void)
{
    refusal = bullacetop_book_withdraw(cells, CELLS, literals, LITERALS).refusal;
}

static void forget(void)
{
    refusal = bullacetop_book_forget(cells, CELLS, literals, LITERALS).refusal;
}

static void query(void)
{
    refusal = bullacetop_book_query(cells, CELLS, literals, LITERALS, &work, NULL, 0, NULL, 0, BULLACETOP_HIGHEST_CEILING).refusal;
}

static void card(void)
{
    refusal = bullacetop_book_card(cells, CELLS, literals, LITERALS, &work, table, sizeof table, BULLACETOP_HIGHEST_CEILING).refusal;
}

static void closest(void)
{
    refusal = bullacetop_book_closest(
        cells, CELLS, literals, LITERALS, &work, NULL, 0, NULL, 0, table, sizeof table, reading, BULLACETOP_HIGHEST_CEILING).refusal;
}

static void line(void)
{
    refusal = bullacetop_book_line(
        cells, CELLS, literals, LITERALS, &work, bytes("(card)"), 6, 1, bullacetop_no_card(), cards, out, sizeof out).refusal;
}

static const struct {
    const char *name;
    void (*make)(void);
} calls[] = {
    {"open", open_text}, {"open_qdimacs", open_qdimacs}, {"write", write_text}, {"tag", tag},   {"forget", forget},
    {"query", query},    {"card", card},                 {"closest", closest},  {"line", line}, {"print", print},
    {"rule", rule},      {"one", one},                   {"withdraw", withdraw},
};

static size_t written(const unsigned char *stack)
{
    size_t untouched = 0;

    while (stack[untouched] == FILL)
        untouched++;
    return SIZE - untouched;
}

/* Exists variables, of which the last one is on and the one before it off: a search goes down to the last place. */
static void fill(void)
{
    char *t = text, *q = qdimacs;

    t += sprintf(t, "(book 1)\n(flags)\n(exists");
    q += sprintf(q, "p cnf %zu 2\ne", numbers);
    for (size_t n = 1; n <= numbers; n++) {
        t += sprintf(t, " %zu", n);
        q += sprintf(q, " %zu", n);
    }
    sprintf(t, ")\n(rule %zu)\n(rule (no %zu))\n(end)\n", numbers, numbers - 1);
    sprintf(q, " 0\n%zu 0\n-%zu 0\n", numbers, numbers - 1);
}

int main(int argc, char **argv)
{
    static ucontext_t here, there;
    unsigned char *stack = malloc(SIZE);

    if (argc > 1)
        numbers = strtoul(argv[1], NULL, 10);
    if (!stack || numbers < 16 || BULLACETOP_HIGHEST_NUMBERS < numbers)
        return 1;
    fill();
    for (size_t i = 0; i < sizeof calls / sizeof *calls; i++) {
        refusal = 0;
        memset(stack, FILL, SIZE);
        getcontext(&there);
        there.uc_stack.ss_sp = stack;
        there.uc_stack.ss_size = SIZE;
        there.uc_link = &here;
        makecontext(&there, calls[i].make, 0);
        swapcontext(&here, &there);
        printf("%s: %zu bytes, refusal %u\n", calls[i].name, written(stack), refusal);
    }
    free(stack);
    return 0;
}
