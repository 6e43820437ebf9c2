// Cards and lists of queries of the same books by other ways: DepQBF, incremental, with one list of assumptions a reading, and binary decision diagrams (BuDDy),
// which quantify variable by variable from the innermost on and list the card from the diagram that is left.
//
//     tools/build bullacetop
//     gcc -O2 -I../include others.c ../target/staticlib/libbullacetop.a -lqdpll -lbdd -lm -o others      Debian's packages depqbf and libbdd-dev
//     others BOOK..      BOOK as `bench --books FOLDER` writes them
//
// All three have to give the same card, byte for byte, and the same verdicts. Time of the thread, the shortest of three runs, or of one that takes a second; a way that takes more than
// five seconds is stopped. What an open book is made of is counted for all of them: the library opens the text, DepQBF is given a formula, and the diagrams begin with an empty table.
#include "library.h"
#include <bdd.h>
#include <qdpll/qdpll.h>
#include <sys/mman.h>
#include <sys/resource.h>
#include <sys/wait.h>
#include <unistd.h>

enum { OPEN = BULLACETOP_OPEN, OFF = BULLACETOP_OFF, ON = BULLACETOP_ON };

// The card of one way: its lines, place by place, and the verdict of each reading of the list.
struct found {
    size_t lines;
    uint8_t table[TABLE];
    uint8_t verdict[READINGS];
};

// ---- the library
static struct state state;

static void library_card(const struct book *b, struct found *f)
{
    open_book(&state, b);
    f->lines = make_card(&state, f->table).lines;
}

static void library_queries(const struct book *b, struct found *f)
{
    open_book(&state, b);
    for (int i = 0; i < b->readings; i++)
        f->verdict[i] = ask(&state, b, i).verdict == BULLACETOP_SWAP;
}

// ---- lines from what is known of every reading, in the order of the library: off before on
struct walk {
    const struct book *b;
    struct found *f;
    uint8_t line[NUMBERS];
};

static void add_line(struct walk *w)
{
    size_t at = w->f->lines * w->b->flags;
    if (at + w->b->flags <= TABLE)
        memcpy(w->f->table + at, w->line, w->b->flags);
    w->f->lines++;
}

// ---- decision diagrams: the level of a variable is its place
static int place_of(const struct book *b, int number)
{
    int i = 0;
    while (b->number[i] != number)
        i++;
    return i;
}

static BDD clause_of(const struct book *b, int k)
{
    BDD c = bdd_false();
    for (int i = 0; i < b->length[k]; i++) {
        int literal = b->rule[k][i], place = place_of(b, abs(literal));
        BDD next = bdd_addref(bdd_or(c, literal > 0 ? bdd_ithvar(place) : bdd_nithvar(place)));
        bdd_delref(c);
        c = next;
    }
    return c;
}

// The last place that a diagram depends on, or -1. (The package's own support of a diagram fails once its tables were made anew.)
static int last_place(const struct book *b, BDD f)
{
    int *nodes = bdd_varprofile(f), last = b->n - 1;
    while (last >= 0 && !nodes[last])
        last--;
    free(nodes);
    return last;
}

static BDD both(BDD f, BDD g)
{
    BDD h = bdd_addref(bdd_and(f, g));
    bdd_delref(f);
    bdd_delref(g);
    return h;
}

// The formula over its flags: at each place only what depends on it is joined.
static BDD diagram(const struct book *b)
{
    BDD part[RULES];
    int last[RULES], m = b->m;
    for (int i = 0; i < m; i++) {
        part[i] = clause_of(b, i);
        last[i] = last_place(b, part[i]);
    }
    for (int p = b->n - 1; p >= b->flags; p--) {
        BDD at = bdd_true(), v = bdd_ithvar(p);
        int left = 0;
        for (int i = 0; i < m; i++) {
            if (last[i] == p) {
                BDD f = part[i];
                if (b->kind[p] == FORALL) {
                    f = bdd_addref(bdd_forall(part[i], v));
                    bdd_delref(part[i]);
                }
                at = both(at, f);
            } else {
                part[left] = part[i];
                last[left++] = last[i];
            }
        }
        if (b->kind[p] == EXISTS) {
            BDD f = bdd_addref(bdd_exist(at, v));
            bdd_delref(at);
            at = f;
        }
        part[left] = at;
        last[left++] = last_place(b, at);
        m = left;
    }
    BDD all = bdd_true();
    for (int i = 0; i < m; i++)
        all = both(all, part[i]);
    return all;
}

static void diagram_lines(struct walk *w, BDD f, int place)
{
    if (f == bdd_false())
        return;
    if (f == bdd_true()) {
        add_line(w);
        return;
    }
    int here = bdd_var(f) == place;
    w->line[place] = OFF;
    diagram_lines(w, here ? bdd_low(f) : f, place + 1);
    w->line[place] = ON;
    diagram_lines(w, here ? bdd_high(f) : f, place + 1);
    w->line[place] = OPEN;
}

static void begin_diagrams(const struct book *b)
{
    bdd_init(20000, 5000);
    bdd_setmaxincrease(1000000);
    bdd_gbc_hook(NULL);
    bdd_setvarnum(b->n);
}

static void diagram_card(const struct book *b, struct found *f)
{
    struct walk w = {b, f, {0}};
    begin_diagrams(b);
    f->lines = 0;
    memset(f->table, 0, TABLE);
    diagram_lines(&w, diagram(b), 0);
    bdd_done();
}

static void diagram_queries(const struct book *b, struct found *f)
{
    begin_diagrams(b);
    BDD all = diagram(b);
    for (int i = 0; i < b->readings; i++) {
        uint8_t on[NUMBERS + 1] = {0};
        for (int j = 0; j < b->on_length[i]; j++)
            on[b->on[i][j]] = 1;
        BDD at = all;
        while (at != bdd_true() && at != bdd_false())
            at = on[b->number[bdd_var(at)]] ? bdd_high(at) : bdd_low(at);
        f->verdict[i] = at == bdd_true();
    }
    bdd_done();
}

// ---- DepQBF: the flags are its outermost block, and each of them is assumed
static QDPLL *solver(const struct book *b)
{
    QDPLL *q = qdpll_create();
    qdpll_configure(q, "--dep-man=simple");
    qdpll_configure(q, "--incremental-use");
    for (int i = 0, nesting = 0; i < b->n; i++) {
        if (i == 0 || b->kind[i] != b->kind[i - 1]) {
            if (i > 0)
                qdpll_add(q, 0);
            qdpll_new_scope_at_nesting(q, b->kind[i] == FORALL ? QDPLL_QTYPE_FORALL : QDPLL_QTYPE_EXISTS, ++nesting);
        }
        qdpll_add(q, b->number[i]);
    }
    qdpll_add(q, 0);
    for (int i = 0; i < b->m; i++) {
        for (int j = 0; j < b->length[i]; j++)
            qdpll_add(q, b->rule[i][j]);
        qdpll_add(q, 0);
    }
    return q;
}

static int decide(QDPLL *q, const struct book *b, const uint8_t *on)
{
    qdpll_reset(q);
    for (int i = 0; i < b->flags; i++)
        qdpll_assume(q, on[i] ? b->number[i] : -b->number[i]);
    return qdpll_sat(q) == QDPLL_RESULT_SAT;
}

// The lines of a table of all readings, the first flag being the highest bit.
static int all_alike(const uint8_t *verdict, size_t n, int value)
{
    for (size_t i = 0; i < n; i++)
        if (verdict[i] != value)
            return 0;
    return 1;
}

static void table_lines(struct walk *w, const uint8_t *verdict, size_t n, int place)
{
    if (all_alike(verdict, n, 0))
        return;
    if (all_alike(verdict, n, 1)) {
        add_line(w);
        return;
    }
    w->line[place] = OFF;
    table_lines(w, verdict, n / 2, place + 1);
    w->line[place] = ON;
    table_lines(w, verdict + n / 2, n / 2, place + 1);
    w->line[place] = OPEN;
}

static void solver_card(const struct book *b, struct found *f)
{
    struct walk w = {b, f, {0}};
    size_t readings = (size_t)1 << b->flags;
    uint8_t *verdict = malloc(readings), on[NUMBERS];
    QDPLL *q = solver(b);
    for (size_t r = 0; r < readings; r++) {
        for (int i = 0; i < b->flags; i++)
            on[i] = r >> (b->flags - 1 - i) & 1;
        verdict[r] = decide(q, b, on);
    }
    qdpll_delete(q);
    f->lines = 0;
    memset(f->table, 0, TABLE);
    table_lines(&w, verdict, readings, 0);
    free(verdict);
}

static void solver_queries(const struct book *b, struct found *f)
{
    QDPLL *q = solver(b);
    for (int i = 0; i < b->readings; i++) {
        uint8_t on[NUMBERS] = {0};
        for (int j = 0; j < b->on_length[i]; j++)
            on[place_of(b, b->on[i][j])] = 1;
        f->verdict[i] = decide(q, b, on);
    }
    qdpll_delete(q);
}

// ---- one table
typedef void way(const struct book *, struct found *);

enum { SECONDS = 5, MEMORY = 4000 }; // that a way may take for one card or one list; megabytes

// The shortest of three runs in milliseconds, or of one that takes a second.
static double shortest(way *run, const struct book *b, struct found *f)
{
    double best = 1e300, spent = 0;
    for (int i = 0; i < 3 && spent < 1000; i++) {
        double began = thread_time();
        run(b, f);
        double took = (thread_time() - began) / 1e6;
        best = took < best ? took : best;
        spent += took;
    }
    return best;
}

// In a process of its own, which is stopped where it takes too long; then there is no time.
static double apart(way *run, const struct book *b, struct found *f)
{
    struct told {
        double time;
        struct found found;
    } *told = mmap(NULL, sizeof *told, PROT_READ | PROT_WRITE, MAP_SHARED | MAP_ANONYMOUS, -1, 0);
    told->time = -1;
    told->found = *f;
    fflush(stdout);
    pid_t child = fork();
    if (child == 0) {
        setrlimit(RLIMIT_CPU, &(struct rlimit){SECONDS, SECONDS});
        setrlimit(RLIMIT_AS, &(struct rlimit){MEMORY * 1000000ull, MEMORY * 1000000ull});
        told->time = shortest(run, b, &told->found);
        _exit(0);
    }
    waitpid(child, NULL, 0);
    double time = told->time;
    *f = told->found;
    munmap(told, sizeof *told);
    return time;
}

static void print_time(double time)
{
    if (time < 0)
        printf(" not in %d s |", SECONDS);
    else
        printf(time < 10 ? " %.3f ms |" : time < 1000 ? " %.1f ms |" : " %.0f ms |", time);
}

static void compare(const char *name, const char *by, int differs)
{
    if (differs) {
        printf("%s: %s differs\n", name, by);
        exit(1);
    }
}

int main(int count, char **words)
{
    static const struct {
        const char *name;
        way *card, *queries;
    } ways[] = {{"library", library_card, library_queries}, {"diagrams", diagram_card, diagram_queries}, {"DepQBF", solver_card, solver_queries}};
    static struct book b;
    static struct found found[3];
    state = lend();
    puts("| Book | Lines | Card: library | diagrams | DepQBF | 200 queries: library | diagrams | DepQBF |\n|---|---|---|---|---|---|---|---|");
    for (int k = 1; k < count; k++) {
        double card[3], queries[3];
        char *name = strrchr(words[k], '/') ? strrchr(words[k], '/') + 1 : words[k];
        read_book(words[k], &b);
        for (int i = 0; i < 3; i++) {
            card[i] = apart(ways[i].card, &b, &found[i]);
            queries[i] = apart(ways[i].queries, &b, &found[i]);
            compare(name, ways[i].name, card[i] >= 0 && (found[i].lines != found[0].lines || memcmp(found[i].table, found[0].table, TABLE)));
            compare(name, ways[i].name, queries[i] >= 0 && memcmp(found[i].verdict, found[0].verdict, b.readings));
        }
        printf("| %.*s | %zu |", (int)strcspn(name, "."), name, found[0].lines);
        for (int i = 0; i < 3; i++)
            print_time(card[i]);
        for (int i = 0; i < 3; i++)
            print_time(queries[i]);
        putchar('\n');
    }
}
