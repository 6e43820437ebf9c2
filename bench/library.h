// The library's calls on a book that it opened onto two tables.
#include "book.h"
#include <bullacetop.h>

enum { TABLE = 65536 }; // of a card

static struct bullacetop_workspace work;

struct state {
    size_t m, n;
    uint16_t *cells;
    int16_t *literals;
};

static struct state lend(void)
{
    struct state s = {bullacetop_book_cells(NUMBERS, RULES), bullacetop_book_literals(NUMBERS, RULES), NULL, NULL};
    s.cells = calloc(s.m, sizeof *s.cells);
    s.literals = calloc(s.n, sizeof *s.literals);
    return s;
}

static void open_book(struct state *s, const struct book *b)
{
    struct bullacetop_book_opened told =
        bullacetop_book_open((const uint8_t *)b->text, b->length_of_text, NUMBERS, RULES, s->cells, s->m, s->literals, s->n);
    if (told.refusal) {
        printf("refused %u at line %zu\n", (unsigned)told.refusal, told.line);
        exit(1);
    }
}

static inline void forget(struct state *s)
{
    bullacetop_book_forget(s->cells, s->m, s->literals, s->n);
}

static struct bullacetop_reply make_card(struct state *s, uint8_t *table)
{
    return bullacetop_book_card(s->cells, s->m, s->literals, s->n, &work, table, TABLE, BULLACETOP_HIGHEST_CEILING);
}

static inline struct bullacetop_reply ask(struct state *s, const struct book *b, int i)
{
    return bullacetop_book_query(
        s->cells, s->m, s->literals, s->n, &work, b->on[i], b->on_length[i], b->off[i], b->off_length[i], BULLACETOP_HIGHEST_CEILING);
}
