/*
 * A book of 60 variables under limits of its own: opened from a text onto two tables, asked, changed and written back.
 *
 * From the repository's root:
 *   tools/build bullacetop
 *   gcc -std=c99 -Wall -Wextra -pedantic -O2 -Iinclude examples/c/limits.c target/staticlib/libbullacetop.a -o target/limits_c
 *   target/limits_c
 */
#include <inttypes.h>
#include <stdio.h>
#include <stdlib.h>
#include <string.h>

#include "bullacetop.h"

#define NUMBERS 60
#define RULES 120

/* What the calls search in. Too large for a stack; one serves any number of books. */
static struct bullacetop_workspace work;

/* Flags 1 and 2, and a chain of variables 3 to 60, each equal to the one before it; 3 is the `or` of the flags. */
static size_t chain(char *text)
{
    char *end = text;
    int n;

    end += sprintf(end, "(book 1)\n(flags 1 2)\n(exists");
    for (n = 3; n <= NUMBERS; n++)
        end += sprintf(end, " %d", n);
    end += sprintf(end, ")\n(rule 1 2 (no 3))\n(rule (no 1) 3)\n(rule (no 2) 3)\n");
    for (n = 4; n <= NUMBERS; n++)
        end += sprintf(end, "(rule %d (no %d))\n(rule (no %d) %d)\n", n - 1, n, n - 1, n);
    end += sprintf(end, "(rule %d)\n(end)\n", NUMBERS);
    return (size_t)(end - text);
}

int main(void)
{
    static char text[65536];
    size_t length = chain(text);
    size_t m = bullacetop_book_cells(NUMBERS, RULES), n = bullacetop_book_literals(NUMBERS, RULES);
    uint16_t *cells = malloc(m * sizeof *cells);
    int16_t *literals = malloc(n * sizeof *literals);
    uint8_t table[16], reading[BULLACETOP_FLAGS], *written;
    struct bullacetop_book_opened opened;
    struct bullacetop_written told;
    struct bullacetop_closest near;
    struct bullacetop_reply a;
    const int16_t one = 1, two = 2, both[] = {1, 2};
    size_t i;

    if (!cells || !literals)
        return 1;
    printf("%zu cells, %zu literals\n", m, n);
    /* Under too few rules it is refused, and what is left is no book. */
    opened = bullacetop_book_open((const uint8_t *)text, length, NUMBERS, 100, cells, m, literals, n);
    a = bullacetop_book_forget(cells, m, literals, n);
    printf("refused %u at line %zu, then %u\n", (unsigned)opened.refusal, opened.line, (unsigned)a.refusal);

    opened = bullacetop_book_open((const uint8_t *)text, length, NUMBERS, RULES, cells, m, literals, n);
    if (opened.refusal)
        return 1;
    a = bullacetop_book_card(cells, m, literals, n, &work, table, sizeof table, BULLACETOP_HIGHEST_CEILING);
    printf("card, %" PRIu64 " visits:", a.visits);
    for (i = 0; i < a.lines; i++)
        printf(" %u%u", (unsigned)table[2 * i], (unsigned)table[2 * i + 1]);
    a = bullacetop_book_query(cells, m, literals, n, &work, &one, 1, NULL, 0, BULLACETOP_HIGHEST_CEILING);
    printf("\n1 on: verdict %u\n", (unsigned)a.verdict);
    near = bullacetop_book_closest(
        cells, m, literals, n, &work, NULL, 0, both, 2, table, sizeof table, reading, BULLACETOP_HIGHEST_CEILING);
    printf("closest: %u%u, differs in %zu\n", (unsigned)reading[0], (unsigned)reading[1], near.differs);

    /* One rule more, and it is taken back. */
    a = bullacetop_book_rule(cells, m, literals, n, &two, 1);
    printf("rule %u,", (unsigned)a.refusal);
    a = bullacetop_book_query(cells, m, literals, n, &work, &one, 1, &two, 1, BULLACETOP_HIGHEST_CEILING);
    printf(" 1 on, 2 off: verdict %u,", (unsigned)a.verdict);
    a = bullacetop_book_withdraw(cells, m, literals, n);
    printf(" withdrawn %u\n", (unsigned)a.refusal);

    written = malloc(bullacetop_book_room(cells, m));
    if (!written)
        return 1;
    told = bullacetop_book_write(cells, m, literals, n, written, bullacetop_book_room(cells, m));
    printf("written as it was opened: %s\n", told.length == length && !memcmp(written, text, length) ? "yes" : "no");
    free(written);
    free(literals);
    free(cells);
    return 0;
}
