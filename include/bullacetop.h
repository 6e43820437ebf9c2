/*
 * Bullacetop: a proved solver for parametric quantified Boolean formulas, for C and whatever calls C.
 *
 * Link target/staticlib/libbullacetop.a, which `tools/build bullacetop` makes (x86-64 Linux; size_t has 64 bits).
 *
 * A book lies in two tables, `cells` and `literals`, that belong to the caller, who lends them to each call together with their lengths. It has limits of
 * its own, for the numbers of its variables and for its rules, from 0 to BULLACETOP_HIGHEST_NUMBERS and BULLACETOP_HIGHEST_RULES; they stand in its first
 * two cells, so that it carries them with it. A call that searches is lent a workspace too (struct bullacetop_workspace). So a book is
 *
 *     static uint16_t cells[BULLACETOP_BOOK_CELLS(40, 255)];
 *     static int16_t literals[BULLACETOP_BOOK_LITERALS(40, 255)];
 *     static struct bullacetop_workspace work;
 *     struct bullacetop_book_opened opened = bullacetop_book_open(
 *         text, length, 40, 255, cells, sizeof cells / sizeof *cells, literals, sizeof literals / sizeof *literals);
 *
 * and, where opened.refusal is 0, every call below may be made on it. The library has no memory of its own: it allocates nothing, keeps no pointer after
 * a call returns and has no global data, so calls on different books may run at once, those that search each with a workspace of its own.
 *
 * What need not be set: a workspace before any call, the tables of a book before it is opened, and every table that a call writes its answer to. What a
 * call promises holds for any content. Whatever stands in the tables of a book, no call faults or runs without end: each one checks the book in full and
 * refuses a malformed one with 22, as it does tables that are shorter than the limits in the first two cells ask; cells behind the parts of a book are
 * neither read nor written. Nothing needs to be checked before a call but the pointers: a list or a table of n items has to be readable (one that is not
 * `const`, writable) for n items. Where n is 0 nothing is read or written, and the pointer may be NULL. A table that is written must not overlap another
 * argument, and belongs to the call alone until it returns.
 *
 * Stack: have 512 KiB for a call that searches, a line or a printed card, of which a search takes 400 bytes for each variable; 32 KiB for any other call
 * (docs/BENCHMARKS.md). The tables and the workspace are in none of these figures.
 */
#ifndef BULLACETOP_H
#define BULLACETOP_H

#include <stddef.h>
#include <stdint.h>

#ifdef __cplusplus
extern "C" {
#endif

/* ---- limits */

/* The highest limits: numbers of variables run from 1 to the first, rules to the second. A book that is opened under higher ones has these. */
#define BULLACETOP_HIGHEST_NUMBERS 1000
#define BULLACETOP_HIGHEST_RULES 4000
/* The limits under which the programs open a book where they are told none. */
#define BULLACETOP_NUMBERS 40
#define BULLACETOP_RULES 255
/* Whatever the limits: flags of a book; literals of a rule, and of an exactly-one form; learned bars, and learned passes. */
#define BULLACETOP_FLAGS 40
#define BULLACETOP_LITERALS 16
#define BULLACETOP_ENTRIES 64
/* Bytes of a text that is opened or converted. */
#define BULLACETOP_LONGEST_TEXT 65536

/*
 * Lengths of the two tables of a book under limits of at most 1,000 and 4,000, for arrays; bullacetop_book_cells and bullacetop_book_literals say the
 * same at run time. Under 40 and 255 they are 575 cells and 9,200 literals, under the highest limits 7,200 and 192,000. Longer tables are as good.
 */
#define BULLACETOP_BOOK_CELLS(numbers, rules) \
    (2 + 3 * ((size_t)(numbers) + 1) + ((size_t)(rules) + 1) + (2 * BULLACETOP_ENTRIES + 1) + (BULLACETOP_ENTRIES + 1))
#define BULLACETOP_BOOK_LITERALS(numbers, rules) \
    ((size_t)(rules) * BULLACETOP_LITERALS + 2 * BULLACETOP_ENTRIES * (size_t)(numbers))

/* A table of so many bytes holds the text of every book under the limits 40 and 255, and of every book at all; bullacetop_book_room has the others. */
#define BULLACETOP_TEXT_ROOM 34928
#define BULLACETOP_HIGHEST_TEXT_ROOM 682023
/* .. the text of every answer to a line, and every printed card: what bullacetop_room says. */
#define BULLACETOP_ANSWER_ROOM 1114162
/* The table of a session's cards. */
#define BULLACETOP_CARD_TABLE 65536
/* A printed page: its rows, the bytes of a row, each row's last one being '\n', and all of them. */
#define BULLACETOP_PAGE_ROWS 24
#define BULLACETOP_PAGE_COLUMNS 72
#define BULLACETOP_PAGE_BYTES (BULLACETOP_PAGE_ROWS * BULLACETOP_PAGE_COLUMNS)
/* The highest ceiling on the visits of a call: none is stopped by it that ends in a lifetime. */
#define BULLACETOP_HIGHEST_CEILING 4294967295u

/* ---- what the numbers mean */

/* Quantifiers. */
#define BULLACETOP_FLAG 0
#define BULLACETOP_EXISTS 1
#define BULLACETOP_FORALL 2

/* Verdicts of a query. */
#define BULLACETOP_KEEP 1
#define BULLACETOP_SWAP 2
#define BULLACETOP_UNSETTLED 3

/* Bytes of a card's line or of a reading. */
#define BULLACETOP_OPEN 0
#define BULLACETOP_OFF 1
#define BULLACETOP_ON 2

/* Refusals; 0 is none. */
#define BULLACETOP_NOT_IN_LAYOUT 1          /* a line out of the layout, or where it may not stand */
#define BULLACETOP_EDITION 2                /* an edition that is not read, or not converted from */
#define BULLACETOP_NUMBER_RANGE 3           /* a number that is not 1 to the book's limit for numbers */
#define BULLACETOP_DECLARED_TWICE 4         /* a variable declared twice */
#define BULLACETOP_NOT_DECLARED 5           /* a variable that is not declared */
#define BULLACETOP_VARIABLE_TWICE 6         /* a variable twice in one rule */
#define BULLACETOP_RULE_LENGTH 7            /* a rule of 0 literals, an exactly-one form of 0 or 1, either of more than 16 */
#define BULLACETOP_NO_FLAG 8                /* a reading with a number that is no flag's, or with one twice; a closest reading with a flag left open */
#define BULLACETOP_TEXT_TOO_LONG 9          /* a text of more than 65,536 bytes */
#define BULLACETOP_RULES_FULL 20            /* more rules than the book's limit */
#define BULLACETOP_TABLE_TOO_SMALL 21       /* a card of more lines than its table holds */
#define BULLACETOP_MALFORMED 22             /* no book in these tables, or tables too short for its limits */
#define BULLACETOP_CLAUSE_COUNT 30          /* a QDIMACS text whose header counts other clauses */
#define BULLACETOP_TEXT_TABLE_TOO_SHORT 31  /* a text, an answer or a page that is longer than its table */
#define BULLACETOP_NO_RULE 32               /* a withdrawal where no rule stands */
#define BULLACETOP_TOO_MANY_FLAGS 33        /* a 41st flag */
#define BULLACETOP_STOPPED 34               /* a search that needs more visits than its ceiling */
#define BULLACETOP_NO_LINE 35               /* a closest reading whose card has no line */
#define BULLACETOP_NO_PAGE 36               /* a page that the card does not have */
#define BULLACETOP_STOPPED_BY_SHARE 37      /* a search at a place of a day that needs more visits than are left there, and has a higher ceiling */
#define BULLACETOP_NO_BOOK 38               /* a place of a day without a book, or outside 1 to 8 */
#define BULLACETOP_TAG_RANGE 39             /* a tag that is not 1 to 65,535 */
#define BULLACETOP_TAG_LOST 40              /* a tag that a conversion would lose */

/* ---- the workspace */

/*
 * What a search derives from a book, whatever its limits: some five million bytes, too many for most stacks. Its content is free before a call, and means
 * nothing after: one workspace serves any number of books, one call at a time, and need not be cleared.
 */
/* The codes of literals, two for each place; the words of a set of rules. */
#define BULLACETOP_CODES ((BULLACETOP_HIGHEST_NUMBERS + 1) * 2)
#define BULLACETOP_ROW_WORDS ((BULLACETOP_HIGHEST_RULES / 256 + 1) * 4)

struct bullacetop_workspace {
    struct {
        uint16_t rows[BULLACETOP_HIGHEST_RULES * (BULLACETOP_LITERALS + 1)];
        uint64_t sets[BULLACETOP_CODES * 2 * BULLACETOP_ROW_WORDS];
        uint8_t quantifiers[BULLACETOP_CODES];
    } rules;
    uint16_t bar_cells[BULLACETOP_ENTRIES * (BULLACETOP_HIGHEST_NUMBERS + 1)];
    uint64_t bar_links[BULLACETOP_CODES + 2 + BULLACETOP_ENTRIES];
    uint64_t bar_masks[BULLACETOP_ENTRIES];
    uint16_t pass_cells[BULLACETOP_ENTRIES * (BULLACETOP_HIGHEST_NUMBERS + 1)];
    uint64_t pass_links[BULLACETOP_CODES + 2 + BULLACETOP_ENTRIES];
    uint64_t pass_masks[BULLACETOP_ENTRIES];
    struct {
        uint64_t satisfied[(BULLACETOP_HIGHEST_NUMBERS + 1) * BULLACETOP_ROW_WORDS];
        uint8_t marks[BULLACETOP_HIGHEST_NUMBERS + 1];
        uint16_t made[BULLACETOP_HIGHEST_NUMBERS * 2];
        uint16_t joined[BULLACETOP_HIGHEST_NUMBERS * 2];
    } trail;
    uint8_t statuses[BULLACETOP_CODES];
    uint16_t aside[BULLACETOP_HIGHEST_NUMBERS * BULLACETOP_HIGHEST_NUMBERS];
    uint16_t places[BULLACETOP_HIGHEST_NUMBERS + 1];
    uint16_t kinds[BULLACETOP_HIGHEST_NUMBERS + 1];
    uint8_t values[BULLACETOP_HIGHEST_NUMBERS + 1];
};

/* ---- a book in its two tables */

/*
 * With N and M for the limits, and E for BULLACETOP_ENTRIES, the parts follow one another:
 *
 *   cells      how many        what
 *              2               N, M
 *              N + 1           the count of variables, then the number of each place's variable
 *              N + 1           from its cell 1 on the level of each place
 *              N + 1           from its cell 0 on the quantifier of each level
 *              M + 1           the count of rules, then the length of each
 *              E + 1 + E       the count of learned bars, the length of each, then the record of each: how many rules stood when it was stored
 *              E + 1           the count of learned passes, then the length of each
 *   literals   M * 16          rules, 16 cells each
 *              E * N           learned bars, oldest first, N cells each
 *              E * N           learned passes likewise
 *
 * A variable's place is its position, from 1, in the declared order: flags first, then the quantified ones. Its level is 0 for a flag, else the index,
 * from 1, of the run of one quantifier that it stands in. N and M, and zero in every other cell, are the empty book: to declare one more variable write
 * its number and its level to the next cell, the quantifier to the cell of the level, and add 1 to the count (examples/c/card.c does so). Declare before
 * the first rule. A literal is a variable's number for on, negated for off. Rows hold them in place order; use bullacetop_book_rule, which sorts and
 * checks. Cells outside the counts may hold anything: no answer depends on them.
 *
 * What a call may write: rule and one, the rules with their count and lengths, and the count of the passes; withdraw, the count of the rules, and the bars
 * with their count, lengths and records; forget, the counts of bars and passes; a search, bars and passes with their counts, lengths and records. After a
 * refusal other than 21, 34 and 35 both tables are as they were, byte for byte; after these the search ran, to its end or to the ceiling, its visits are
 * told, and bars and passes keep what it learned.
 */

/* The cells and the literals of a book under limits, which are lowered to the highest. */
size_t bullacetop_book_cells(size_t numbers, size_t rules);
size_t bullacetop_book_literals(size_t numbers, size_t rules);

/* ---- texts */

/*
 * Opens a text of n bytes, of edition 1 or 2, under limits, which are lowered to the highest. Opened: refusal and line are 0, and the two tables have the
 * book, with nothing learned. Refused: the number, the line from 1 (0 for 9 and 22), and what is left in the tables is malformed: every call on it is 22.
 * Refusals: 22 where a table is shorter than the limits ask, whatever the text is; 9; then line by line 1, 2, of a flags line for each number 3, 4, 33, of
 * other quantifier lines 3, 4, and of rules and forms as the calls; of a tag 39, after 20.
 */
struct bullacetop_book_opened {
    uint16_t refusal;
    size_t line;
};

struct bullacetop_book_opened bullacetop_book_open(
    const uint8_t *text, size_t n, size_t numbers, size_t rules, uint16_t *cells, size_t cell_count, int16_t *literals, size_t literal_count);

/*
 * Opens a QDIMACS 1.1 text likewise: variables up to the header's count that stand in no quantifier line are the flags, in rising number. Refusals 22; 9;
 * then line by line 1; header 3; quantifier line, each number 3, 5, 4; clause as a rule; at the end, on the line after the last, 1 where there is no
 * header, 33, and 30 where the count of clauses is not the header's.
 */
struct bullacetop_book_opened bullacetop_book_open_qdimacs(
    const uint8_t *text, size_t n, size_t numbers, size_t rules, uint16_t *cells, size_t cell_count, int16_t *literals, size_t literal_count);

/* A text in the first bytes of a lent table, and its length; after a refusal there is none, and all bytes of the table are zero. */
struct bullacetop_written {
    uint16_t refusal;
    size_t length;
};

/*
 * Writes the book as text: literals in place order, rules in the order of adding, neighbouring groups of one quantifier on one line. The bytes after the
 * text are zero. Opening the text under the book's limits gives the same book, with nothing learned; two books have the same text exactly if they have the
 * same variables, quantifiers and places, and the same rules in order. Refusals 22, and 31 where the text is longer than n bytes.
 */
struct bullacetop_written bullacetop_book_write(
    const uint16_t *cells, size_t cell_count, const int16_t *literals, size_t literal_count, uint8_t *table, size_t n);

/* The bytes that the text of any book under the limits of the first two cells may have: a table of so many is never too short. */
size_t bullacetop_book_room(const uint16_t *cells, size_t cell_count);

/*
 * A text converted from one edition into the other, into a table of m bytes. It is read as opening does, under limits and onto the two tables of a book,
 * whose content is free before and means nothing after. Converted: refusal and line are 0, the text is the first `length` bytes, and the rest of the table
 * is zero. Refused: the number, the line from 1 (0 for 9, 22 and 31), no length, and the whole table zero.
 */
struct bullacetop_converted {
    uint16_t refusal;
    size_t line;
    size_t length;
};

/*
 * From edition 1 to 2: the rule forms are tagged 1, 2, 3 and so on, every other byte is copied. Refusals as opening a text, with 2 for an edition that is
 * not 1; last 31 where the converted text is longer than the table or 65,536 bytes. No text grows by more than 11 bytes for a rule.
 */
struct bullacetop_converted bullacetop_book_tag(
    const uint8_t *text,
    size_t n,
    size_t numbers,
    size_t rules,
    uint16_t *cells,
    size_t cell_count,
    int16_t *literals,
    size_t literal_count,
    uint8_t *table,
    size_t m);

/*
 * From edition 2 to 1, where the tags are 1, 2, 3 and so on. Refusals as opening a text, with 2 for an edition that is not 2; then 40 at the first rule
 * form with another tag; last 31. Where neither is refused, each of the two undoes the other.
 */
struct bullacetop_converted bullacetop_book_untag(
    const uint8_t *text,
    size_t n,
    size_t numbers,
    size_t rules,
    uint16_t *cells,
    size_t cell_count,
    int16_t *literals,
    size_t literal_count,
    uint8_t *table,
    size_t m);

/* ---- calls */

/* What a call answers. A refusal has no verdict, 0 lines and, but for 21, 34 and 35, 0 visits. */
struct bullacetop_reply {
    uint16_t refusal;
    /* Of a query: BULLACETOP_KEEP, BULLACETOP_SWAP or BULLACETOP_UNSETTLED. Else 0. */
    uint16_t verdict;
    /* Of a card. */
    size_t lines;
    /* Of a query or a card: the nodes that the search visited. */
    uint64_t visits;
};

/* Adds a rule of n literals in any order. Refusals, the first fault decides: 22, 20, 7, then from the left 3, 5, 6. */
struct bullacetop_reply bullacetop_book_rule(
    uint16_t *cells, size_t cell_count, int16_t *literals, size_t literal_count, const int16_t *list, size_t n);

/*
 * Adds the rules of `exactly one of these n literals`, 2 to 16: the rule of all of them, then one rule for each pair as given, first with second, first
 * with third and so on, both negated. All of them are added, or none. Refusals 22, 7, 20 where they would be more than the limit together, then from the
 * left 3, 5, 6. A withdrawal takes back one of them.
 */
struct bullacetop_reply bullacetop_book_one(
    uint16_t *cells, size_t cell_count, int16_t *literals, size_t literal_count, const int16_t *list, size_t n);

/*
 * Takes the rule back that was added last. Passes stay; of the bars those go whose record is above the count of the rules that remain, and the others keep
 * their order and their records. Refusals 22, and 32 where there is no rule.
 */
struct bullacetop_reply bullacetop_book_withdraw(uint16_t *cells, size_t cell_count, int16_t *literals, size_t literal_count);

/* Empties what was learned. Refusal 22. */
struct bullacetop_reply bullacetop_book_forget(uint16_t *cells, size_t cell_count, const int16_t *literals, size_t literal_count);

/*
 * A query, a card and a closest reading take a ceiling on their visits as their last argument. A search that would make more is stopped before that visit:
 * 34, with visits equal to the ceiling.
 *
 * A query: what the rules say where the n flags of these numbers are on, the m of those off, and the others open: swap if they are true for every
 * completion, keep if for none, otherwise unsettled. With every flag named it is a search as a card's, which uses what was learned and learns; with a flag
 * open it is a search that does neither, and the book stays as it is. Refusals 22; 8 for a number that is no flag's, or is named twice, in one list or in
 * both; 34.
 */
struct bullacetop_reply bullacetop_book_query(
    uint16_t *cells,
    size_t cell_count,
    int16_t *literals,
    size_t literal_count,
    struct bullacetop_workspace *work,
    const int16_t *on,
    size_t n,
    const int16_t *off,
    size_t m,
    uint32_t ceiling);

/*
 * A card: all readings of the flags for which the rules are true, as lines of f bytes, f being the count of flags: BULLACETOP_OPEN, BULLACETOP_OFF or
 * BULLACETOP_ON in place order. Every byte of the table is written: those after the last line are zero, and all are zero after a refusal. Refusals 22, 34,
 * and 21 where there are more than n / f lines. With no flag a line has no byte and always fits.
 */
struct bullacetop_reply bullacetop_book_card(
    uint16_t *cells,
    size_t cell_count,
    int16_t *literals,
    size_t literal_count,
    struct bullacetop_workspace *work,
    uint8_t *table,
    size_t n,
    uint32_t ceiling);

/*
 * A keep card: the readings for which the rules are not true, in the same way: same search and visits, same table, same refusals. Where neither card is
 * refused and no rule is added or withdrawn between them, each reading lies on exactly one line of one of the two.
 */
struct bullacetop_reply bullacetop_book_keep_card(
    uint16_t *cells,
    size_t cell_count,
    int16_t *literals,
    size_t literal_count,
    struct bullacetop_workspace *work,
    uint8_t *table,
    size_t n,
    uint32_t ceiling);

/* What a closest reading is told with. After a refusal differs and lines are 0. */
struct bullacetop_closest {
    uint16_t refusal;
    /* In how many flags it differs. */
    size_t differs;
    /* Of the card, and the visits that it took. */
    size_t lines;
    uint64_t visits;
};

/*
 * The reading on the card that differs from a given one in the fewest flags, of equally close ones the first by off before on in place order, and that
 * number. Every flag is given, on or off. The card is made on the way: its lines stand in the table, and their count and the visits are told. The reading
 * is written in place order, BULLACETOP_OFF or BULLACETOP_ON for each flag and 0 behind them; all 40 bytes are 0 after a refusal. Refusals 22; 8 as a
 * query's, and for a flag that is not given; 34, 21; 35 where the card has no line.
 */
struct bullacetop_closest bullacetop_book_closest(
    uint16_t *cells,
    size_t cell_count,
    int16_t *literals,
    size_t literal_count,
    struct bullacetop_workspace *work,
    const int16_t *on,
    size_t n,
    const int16_t *off,
    size_t m,
    uint8_t *table,
    size_t size,
    uint8_t reading[BULLACETOP_FLAGS],
    uint32_t ceiling);

/* ---- what is printed */

/*
 * Page `number`, from 1, of a card that stands in a table of n bytes and has so many lines of so many flags: the numbers that the
 * call told. Its rows are written one after another to the first BULLACETOP_PAGE_BYTES bytes of `out`, for which the caller has m
 * bytes; the bytes after them are zero, and all are zero after a refusal. Returns the refusal: BULLACETOP_NO_PAGE for a page that the card does
 * not have, more than 99,999 lines or than the table holds, or a byte above 2 in any line; then BULLACETOP_TEXT_TABLE_TOO_SHORT. A card has
 * lines / 22 pages, rounded up, and one where it has no line.
 */
uint16_t bullacetop_page(const uint8_t *table, size_t n, size_t lines, size_t flags, size_t number, uint8_t *out, size_t m);

/*
 * A session's lines and a printed card are written to the first bytes of `out`, for which the caller has m bytes, at least bullacetop_room(); what
 * stands there after the told length means nothing, and the refusal is 0, whatever the text says. Where m is less nothing is done: the refusal is
 * BULLACETOP_TEXT_TABLE_TOO_SHORT, the length is 0, and all m bytes are zero.
 */
size_t bullacetop_room(void);

/* What the program `card` prints for a text of n bytes under limits: its card, or its refusal. It is read onto the two tables of a book likewise. */
struct bullacetop_written bullacetop_book_print(
    const uint8_t *text,
    size_t n,
    size_t numbers,
    size_t rules,
    uint16_t *cells,
    size_t cell_count,
    int16_t *literals,
    size_t literal_count,
    struct bullacetop_workspace *work,
    uint8_t *out,
    size_t m);

/*
 * The card answered last in a session: its lines stand in the first `size` bytes of a table that the caller keeps beside it. Where the refusal is
 * not 0 there is none: no card has been answered yet, the last one was refused, or a rule was accepted or withdrawn since.
 */
struct bullacetop_shown {
    uint16_t refusal;
    size_t size;
    size_t lines;
    size_t flags;
};

/* What a session begins with. */
struct bullacetop_shown bullacetop_no_card(void);

/* The answer's length, as above, and the card answered last after the line. */
struct bullacetop_spoken {
    uint16_t refusal;
    size_t length;
    struct bullacetop_shown shown;
};

/*
 * One line of a session, of n bytes without its newline: `(rule 1 (no 2))`, `(one 1 2)`, `(withdraw)`, `(query 1 (no 2))`, `(card)`, `(card 64)` for a table of 64
 * bytes, `(keep-card)`, `(keep-card 64)`, `(closest 1 (no 2))`, `(forget)`, `(write)`, `(write 64)`, `(page 1)`. The number is the line's, for the text of a refusal. A
 * line that is none of them is refused with 1. `shown` and `cards` tell the card answered last: hand in what the last line returned, and the table as
 * that line left it. A page is printed from them; only a card, a keep card or a closest reading writes to the table. In a table that is too short
 * nothing is served: book and card are those that were given.
 */
struct bullacetop_spoken bullacetop_book_line(
    uint16_t *cells,
    size_t cell_count,
    int16_t *literals,
    size_t literal_count,
    struct bullacetop_workspace *work,
    const uint8_t *line,
    size_t n,
    uint64_t number,
    struct bullacetop_shown shown,
    uint8_t cards[BULLACETOP_CARD_TABLE],
    uint8_t *out,
    size_t m);

/* ---- a day of eight books */

/*
 * Up to eight books, at places 1 to 8, share one total of visits. Their tables are parts of two long ones, `cells` and `literals`, one place behind the
 * other from the front; `rooms` says how many cells and literals each place has (bullacetop_book_cells and bullacetop_book_literals of its limits; 0 for a
 * place that is not used). No call reads or writes a cell of another place. A part that would reach beyond the long table is shorter, so that its book is
 * refused with 22.
 */
#define BULLACETOP_PLACES 8

struct bullacetop_rooms {
    size_t cells[BULLACETOP_PLACES];
    size_t literals[BULLACETOP_PLACES];
};

/* The total, the visits used at each place, and a byte for each that is not 0 where it has a book. Set by the calls; any content is safe. */
struct bullacetop_accounts {
    uint32_t total;
    uint32_t used[BULLACETOP_PLACES];
    uint8_t books[BULLACETOP_PLACES];
};

/*
 * A day begins with no book and nothing used; then each place is opened with a text, as by bullacetop_book_open. Where the text is refused the place has no
 * book. Refusal 38 outside 1 to 8.
 */
void bullacetop_day_begin(struct bullacetop_accounts *accounts, uint32_t total);

struct bullacetop_book_opened bullacetop_day_open(
    struct bullacetop_accounts *accounts,
    const struct bullacetop_rooms *rooms,
    uint16_t *cells,
    size_t cell_count,
    int16_t *literals,
    size_t literal_count,
    size_t place,
    const uint8_t *text,
    size_t n,
    size_t numbers,
    size_t rules);

/*
 * Every call below is the one of a book, at a place. It is refused with 38, before all else, where the place has no book or is not 1 to 8; then with 22
 * where the visits used, and those that the floors of all places still owe, together exceed the total; then as the book's own call is. A place has a floor
 * of the total / 8, rounded down, and may use what is left of it, and what is neither used nor still owed to any floor. A search that would make more
 * visits than its ceiling or these is stopped as by its ceiling: 37 where its own ceiling is the higher, otherwise 34. Its visits are charged to its place,
 * also where it is refused.
 */

/* What a call at a place may still use; at any of the eight, with a book or not. Refusals 38 outside 1 to 8; 22. */
struct bullacetop_share {
    uint16_t refusal;
    uint32_t visits;
};
struct bullacetop_share bullacetop_day_share(const struct bullacetop_accounts *accounts, size_t place);

struct bullacetop_written bullacetop_day_write(
    const struct bullacetop_accounts *accounts,
    const struct bullacetop_rooms *rooms,
    const uint16_t *cells,
    size_t cell_count,
    const int16_t *literals,
    size_t literal_count,
    size_t place,
    uint8_t *table,
    size_t n);

struct bullacetop_reply bullacetop_day_rule(
    const struct bullacetop_accounts *accounts,
    const struct bullacetop_rooms *rooms,
    uint16_t *cells,
    size_t cell_count,
    int16_t *literals,
    size_t literal_count,
    size_t place,
    const int16_t *list,
    size_t n);

struct bullacetop_reply bullacetop_day_one(
    const struct bullacetop_accounts *accounts,
    const struct bullacetop_rooms *rooms,
    uint16_t *cells,
    size_t cell_count,
    int16_t *literals,
    size_t literal_count,
    size_t place,
    const int16_t *list,
    size_t n);

struct bullacetop_reply bullacetop_day_withdraw(
    const struct bullacetop_accounts *accounts,
    const struct bullacetop_rooms *rooms,
    uint16_t *cells,
    size_t cell_count,
    int16_t *literals,
    size_t literal_count,
    size_t place);

struct bullacetop_reply bullacetop_day_forget(
    const struct bullacetop_accounts *accounts,
    const struct bullacetop_rooms *rooms,
    uint16_t *cells,
    size_t cell_count,
    const int16_t *literals,
    size_t literal_count,
    size_t place);

struct bullacetop_reply bullacetop_day_query(
    struct bullacetop_accounts *accounts,
    const struct bullacetop_rooms *rooms,
    uint16_t *cells,
    size_t cell_count,
    int16_t *literals,
    size_t literal_count,
    struct bullacetop_workspace *work,
    size_t place,
    const int16_t *on,
    size_t n,
    const int16_t *off,
    size_t m,
    uint32_t ceiling);

struct bullacetop_reply bullacetop_day_card(
    struct bullacetop_accounts *accounts,
    const struct bullacetop_rooms *rooms,
    uint16_t *cells,
    size_t cell_count,
    int16_t *literals,
    size_t literal_count,
    struct bullacetop_workspace *work,
    size_t place,
    uint8_t *table,
    size_t n,
    uint32_t ceiling);

struct bullacetop_reply bullacetop_day_keep_card(
    struct bullacetop_accounts *accounts,
    const struct bullacetop_rooms *rooms,
    uint16_t *cells,
    size_t cell_count,
    int16_t *literals,
    size_t literal_count,
    struct bullacetop_workspace *work,
    size_t place,
    uint8_t *table,
    size_t n,
    uint32_t ceiling);

struct bullacetop_closest bullacetop_day_closest(
    struct bullacetop_accounts *accounts,
    const struct bullacetop_rooms *rooms,
    uint16_t *cells,
    size_t cell_count,
    int16_t *literals,
    size_t literal_count,
    struct bullacetop_workspace *work,
    size_t place,
    const int16_t *on,
    size_t n,
    const int16_t *off,
    size_t m,
    uint8_t *table,
    size_t size,
    uint8_t reading[BULLACETOP_FLAGS],
    uint32_t ceiling);

/* The lengths above, and that the arrays of a workspace follow one another as the library has them. */
typedef char bullacetop_usual_cells_are_as_here[BULLACETOP_BOOK_CELLS(BULLACETOP_NUMBERS, BULLACETOP_RULES) == 575 ? 1 : -1];
typedef char bullacetop_usual_literals_are_as_here[BULLACETOP_BOOK_LITERALS(BULLACETOP_NUMBERS, BULLACETOP_RULES) == 9200 ? 1 : -1];
typedef char bullacetop_accounts_are_as_here[sizeof(struct bullacetop_accounts) == 44 ? 1 : -1];
typedef char bullacetop_workspace_is_as_here[sizeof(struct bullacetop_workspace) == 5006952 ? 1 : -1];

#ifdef __cplusplus
}
#endif

#endif
