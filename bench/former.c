// Lists of queries, and cards, by two builds of the library in one process: the library as it was, and as it is.
//
//     former [--cards | --limits] BEFORE.so AFTER.so BOOK..      BOOK as `bench --books FOLDER` writes them
//
// Each .so has the exported calls; `--limits` takes one, and compares queries that the start node decides of each book under 40 and 255 with the same under
// 1,000 and 4,000. A build whose calls take a book in
// two slices is known by them. Of the others the name says how a query is called: `before..` without a ceiling (before wish 8), `ceiling..` with one and the
// flags that are on (before wish 5), any other with the flags that are off too (before wish 8's workspace). The shortest of several runs of each side by turns, in time of
// the thread; verdicts and visits have to be equal. For a tool that counts instructions: one .so and one book, once.
#define _GNU_SOURCE
#include "book.h"
#include <dlfcn.h>
#include <math.h>

struct reply {
    uint16_t refusal, verdict;
    size_t lines;
    uint64_t visits;
};

// In nine tables, long enough for each build: the records of learned clauses came with wish 4.
struct state {
    uint16_t numbers[NUMBERS + 1], levels[NUMBERS + 1], kinds[NUMBERS + 1];
    int16_t rules[RULES * LITERALS];
    uint16_t sizes[RULES + 1];
    int16_t bars[64 * NUMBERS];
    uint16_t bar_sizes[129];
    int16_t passes[64 * NUMBERS];
    uint16_t pass_sizes[65];
};

// In two slices, under limits as high as the highest.
enum { HIGHEST_NUMBERS = 1000, HIGHEST_RULES = 4000, CELLS = 8000, BOTH_LITERALS = HIGHEST_RULES * LITERALS + 128 * HIGHEST_NUMBERS };
struct slices {
    uint16_t cells[CELLS];
    int16_t literals[BOTH_LITERALS];
    size_t cell_count, literal_count;
};

#define NINE void *, void *, void *, void *, void *, void *, void *, void *, void *
typedef struct reply (*plain_query)(NINE, int16_t *, size_t);
typedef struct reply (*ceiling_query)(NINE, int16_t *, size_t, uint32_t);
typedef struct reply (*both_query)(NINE, int16_t *, size_t, int16_t *, size_t, uint32_t);
typedef struct reply (*ceiling_card)(NINE, uint8_t *, size_t, uint32_t);
typedef struct reply (*book_query)(uint16_t *, size_t, int16_t *, size_t, void *, int16_t *, size_t, int16_t *, size_t, uint32_t);
typedef struct reply (*book_card)(uint16_t *, size_t, int16_t *, size_t, void *, uint8_t *, size_t, uint32_t);

struct side {
    enum { BEFORE, CEILING, BOTH, BOOK } form;
    int numbers, rules; // of a book in two slices
    void *query, *card;
};

enum { ALL = 0xFFFFFFFF };
static uint64_t work[5006952 / 8]; // of struct bullacetop_workspace
static uint8_t table[65536];
static struct state nine;
static struct slices two;

static struct reply ask(struct side s, struct book *b, int k)
{
    int16_t *on = b->on[k], *off = b->off[k];
    size_t n = b->on_length[k], m = b->off_length[k];
    struct state *x = &nine;
#define LENT x->numbers, x->levels, x->kinds, x->rules, x->sizes, x->bars, x->bar_sizes, x->passes, x->pass_sizes
    switch (s.form) {
    case BEFORE: return ((plain_query)s.query)(LENT, on, n);
    case CEILING: return ((ceiling_query)s.query)(LENT, on, n, ALL);
    case BOTH: return ((both_query)s.query)(LENT, on, n, off, m, ALL);
    default: return ((book_query)s.query)(two.cells, two.cell_count, two.literals, two.literal_count, work, on, n, off, m, ALL);
    }
}

static struct reply make(struct side s)
{
    struct state *x = &nine;
    if (s.form == BOOK)
        return ((book_card)s.card)(two.cells, two.cell_count, two.literals, two.literal_count, work, table, sizeof table, ALL);
    return ((ceiling_card)s.card)(LENT, table, sizeof table, ALL);
}

// The prefix and the rules, into tables that are zero.
static void put(const struct book *b, uint16_t *numbers, uint16_t *levels, uint16_t *kinds, uint16_t *sizes, int16_t *rules)
{
    numbers[0] = b->n;
    for (int i = 0, level = 0; i < b->n; i++) {
        if (b->kind[i] != kinds[level])
            kinds[++level] = b->kind[i];
        numbers[i + 1] = b->number[i];
        levels[i + 1] = level;
    }
    sizes[0] = b->m;
    for (int i = 0; i < b->m; i++) {
        sizes[i + 1] = b->length[i];
        memcpy(rules + i * LITERALS, b->rule[i], 2 * LITERALS);
    }
}

static void fill(struct side s, const struct book *b)
{
    if (s.form != BOOK) {
        memset(&nine, 0, sizeof nine);
        put(b, nine.numbers, nine.levels, nine.kinds, nine.sizes, nine.rules);
        return;
    }
    uint16_t *cells = two.cells, *numbers = cells + 2, row = s.numbers + 1;
    memset(cells, 0, sizeof two.cells);
    cells[0] = s.numbers;
    cells[1] = s.rules;
    two.cell_count = 2 + 3 * row + s.rules + 1 + 129 + 65;
    two.literal_count = s.rules * LITERALS + 128 * s.numbers;
    put(b, numbers, numbers + row, numbers + 2 * row, numbers + 3 * row, two.literals);
}

// The whole list, or the card, on a fresh state: its time, and a sum of what was answered and of the visits.
static double list(struct side s, struct book *b, int cards, uint64_t *sum, uint64_t *visits)
{
    fill(s, b);
    *sum = *visits = 0;
    double began = thread_time();
    for (int i = 0; i < (cards ? 1 : b->readings); i++) {
        struct reply r = cards ? make(s) : ask(s, b, i);
        *sum = *sum * 31 + r.visits * 4 + (cards ? r.lines : r.verdict) + r.refusal * 1000;
        *visits += r.visits;
    }
    return thread_time() - began;
}

static struct side load(const char *path)
{
    void *library = dlopen(path, RTLD_NOW | RTLD_LOCAL | RTLD_DEEPBIND);
    if (!library) {
        puts(dlerror());
        exit(1);
    }
    const char *name = strrchr(path, '/') ? strrchr(path, '/') + 1 : path;
    struct side s = {BOOK, NUMBERS, RULES, dlsym(library, "bullacetop_book_query"), dlsym(library, "bullacetop_book_card")};
    if (!s.query) {
        s.form = starts(name, "before") ? BEFORE : starts(name, "ceiling") ? CEILING : BOTH;
        s.query = dlsym(library, "bullacetop_query_in_place");
        s.card = dlsym(library, "bullacetop_card_in_place");
    }
    return s;
}

// Every reading of the list is one that the start node decides.
static void decided(struct side s, struct book *b)
{
    int k = 0;
    fill(s, b);
    while (k < b->readings && ask(s, b, k).visits > 1)
        k++;
    if (k == b->readings) {
        puts("no reading is decided by the start node");
        exit(1);
    }
    for (int i = 0; i < b->readings; i++) {
        b->on_length[i] = b->on_length[k];
        b->off_length[i] = b->off_length[k];
        memmove(b->on[i], b->on[k], sizeof b->on[k]);
        memmove(b->off[i], b->off[k], sizeof b->off[k]);
    }
}

// Both sides by turns, until they have run for so long.
static double compare(const struct side *side, const char *path, int cards, int limits, double enough)
{
    static struct book b;
    uint64_t sum[2], visits[2];
    double best[2] = {1e300, 1e300}, spent = 0;
    read_book(path, &b);
    if (limits)
        decided(side[0], &b);
    for (int run = 0; run < 3 || (run < 2000 && spent < enough); run++)
        for (int i = 0; i < 2; i++) {
            double took = list(side[i], &b, cards, sum + i, visits + i);
            spent += took;
            if (took < best[i])
                best[i] = took;
            if (sum[i] != sum[0]) {
                printf("the answers differ on %s\n", path);
                exit(1);
            }
        }
    printf("%-44s %8llu visits %10.1f us %10.1f us  %.3f\n", path, (unsigned long long)visits[0], best[0] / 1e3, best[1] / 1e3, best[1] / best[0]);
    fflush(stdout);
    return best[1] / best[0];
}

int main(int count, char **words)
{
    int cards = count > 1 && !strcmp(words[1], "--cards"), limits = count > 1 && !strcmp(words[1], "--limits"), at = 1 + (cards || limits);
    struct side side[2] = {load(words[at]), load(words[count == at + 2 || limits ? at : at + 1])};
    if (count == at + 2 && !limits) {
        static struct book b;
        uint64_t sum, visits;
        read_book(words[at + 1], &b);
        list(side[0], &b, cards, &sum, &visits);
        printf("visits %llu\n", (unsigned long long)visits);
        return 0;
    }
    if (limits) {
        side[1].numbers = HIGHEST_NUMBERS;
        side[1].rules = HIGHEST_RULES;
    }
    double product = 0, books = 0;
    for (int k = at + 2 - limits; k < count; k++, books++)
        product += log(compare(side, words[k], cards, limits, 1e9));
    printf("geometric mean %.3f over %.0f books\n", exp(product / books), books);
}
