/*
 * A book as text, then calls as lines, each answered in text; a page of the card; the book written back; the same book from QDIMACS, and in the other edition;
 * a refused text, and a table that is too short.
 *
 * From the repository's root:
 *   tools/build bullacetop
 *   gcc -std=c99 -Wall -Wextra -pedantic -O2 -Iinclude examples/c/session.c target/staticlib/libbullacetop.a -o target/session_c
 *   target/session_c
 */
#include <stdio.h>
#include <string.h>

#include "bullacetop.h"

static const char book[] =
    "(book 1)\n"
    "(flags 1 2)\n"
    "(exists 3)\n"
    "(forall 4)\n"
    "(rule 3 4 (no 1))\n"
    "(rule (no 3) (no 4) 2)\n"
    "(rule 1 2)\n"
    "(end)\n";

static const char *const calls[] = {
    "(card)", "(page 1)", "(page 2)", "(query 1 (no 2))", "(query 2)", "(query)", "(rule 3)", "(page 1)", "(card)", "(card 3)", "(query 3)", "(query)x",
};

/* The book without its last rule. */
static const char problem[] =
    "c heat sink\n"
    "p cnf 4 2\n"
    "e 3 0\n"
    "a 4 0\n"
    "3 4 -1 0\n"
    "-3 -4 2 0\n";

/* Variable 3 is not declared. */
static const char faulty[] =
    "(book 1)\n"
    "(flags 1 2)\n"
    "(rule 1 3)\n"
    "(end)\n";

/* A book under the limits that the program has; nothing here is allocated. */
#define CELLS BULLACETOP_BOOK_CELLS(BULLACETOP_NUMBERS, BULLACETOP_RULES)
#define LITERALS BULLACETOP_BOOK_LITERALS(BULLACETOP_NUMBERS, BULLACETOP_RULES)

static uint16_t cells[CELLS];
static int16_t literals[LITERALS];
/* What a card is searched in. Too large for a stack; one serves any number of books. */
static struct bullacetop_workspace work;
/* The lines of the card answered last, and the answer's text. */
static uint8_t cards[BULLACETOP_CARD_TABLE], out[BULLACETOP_ANSWER_ROOM];

static const uint8_t *bytes(const char *text)
{
    return (const uint8_t *)text;
}

static struct bullacetop_book_opened open_book(const char *text)
{
    return bullacetop_book_open(
        bytes(text), strlen(text), BULLACETOP_NUMBERS, BULLACETOP_RULES, cells, CELLS, literals, LITERALS);
}

/* The book's text in a table of so many bytes. */
static void write_book(size_t size)
{
    struct bullacetop_written text = bullacetop_book_write(cells, CELLS, literals, LITERALS, out, size);

    if (text.refusal)
        printf("refused with %u, length %zu, first byte %u\n", (unsigned)text.refusal, text.length, (unsigned)out[0]);
    fwrite(out, 1, text.length, stdout);
}

/* One line of a session; the card answered last after it. */
static struct bullacetop_shown serve(const char *line, uint64_t number, struct bullacetop_shown shown)
{
    struct bullacetop_spoken spoken = bullacetop_book_line(
        cells, CELLS, literals, LITERALS, &work, bytes(line), strlen(line), number, shown, cards, out, sizeof out);

    fwrite(out, 1, spoken.length, stdout);
    return spoken.shown;
}

/* What the program `card` prints, in a table of so many bytes. */
static void print(size_t size)
{
    struct bullacetop_written card = bullacetop_book_print(
        bytes(book), strlen(book), BULLACETOP_NUMBERS, BULLACETOP_RULES, cells, CELLS, literals, LITERALS, &work, out, size);

    if (card.refusal)
        printf("refused with %u, length %zu, first byte %u\n", (unsigned)card.refusal, card.length, (unsigned)out[0]);
    fwrite(out, 1, card.length, stdout);
}

int main(void)
{
    struct bullacetop_shown shown = bullacetop_no_card();
    struct bullacetop_book_opened opened = open_book(book);
    struct bullacetop_converted tagged;

    if (opened.refusal || bullacetop_room() != sizeof out)
        return 1;
    /* The book has 8 lines. */
    for (size_t i = 0; i < sizeof calls / sizeof *calls; i++) {
        printf("%s\n", calls[i]);
        shown = serve(calls[i], 9 + i, shown);
    }
    /* The book with the rule that was added, and a table that is too short for it. */
    write_book(bullacetop_book_room(cells, CELLS));
    write_book(22);

    opened = bullacetop_book_open_qdimacs(
        bytes(problem), strlen(problem), BULLACETOP_NUMBERS, BULLACETOP_RULES, cells, CELLS, literals, LITERALS);
    if (!opened.refusal)
        write_book(BULLACETOP_TEXT_ROOM);
    tagged = bullacetop_book_tag(
        bytes(book), strlen(book), BULLACETOP_NUMBERS, BULLACETOP_RULES, cells, CELLS, literals, LITERALS, out, sizeof out);
    fwrite(out, 1, tagged.length, stdout);

    /* A refused text leaves tables that hold no book: every call refuses them. */
    opened = open_book(faulty);
    printf("refused with %u at line %zu\n", (unsigned)opened.refusal, opened.line);
    serve(calls[0], 5, bullacetop_no_card());

    /* What the program `card` prints, and a table that is one byte too short. */
    print(sizeof out);
    print(sizeof out - 1);
    return 0;
}
