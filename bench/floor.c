// What a visit takes beside a floor: the same learning search in C, for the limits 40 and 255 alone, as fast as its rules let it be. A set of places is one word
// here and a set of rules four, a constraint is two sets of places, and nothing is checked: no state, no limit, no argument.
//
//     tools/build bullacetop
//     gcc -O2 -I../include floor.c ../target/staticlib/libbullacetop.a -lm -o floor
//     floor BOOK..      BOOK as `bench --books FOLDER` writes them
//
// Both make one card of each book with nothing learned, and have to give the same lines, table and visits. Time of the thread, the shortest of several runs of
// each side by turns; each derives its tables from the book in that time.
#include "library.h"
#include <math.h>

enum verdict { NO, YES, MIXED };
enum { ENTRIES = 64, WORDS = 4, LINES = TABLE };

// The literals of a constraint, by place: the positive ones and the negative ones.
struct literals {
    uint64_t on, off;
};

struct answer {
    enum verdict verdict;
    struct literals up;
};

struct rules {
    uint64_t word[WORDS];
};

// ---- what a search reads
static int n, flags, kinds[NUMBERS];
static uint64_t forall, exists;
static struct literals rule[RULES];
static struct rules all, by[NUMBERS][2]; // by the value of a place: the rules that it satisfies
static struct rules dying[NUMBERS + 1];  // the rules that can be dead only where the node has so many places

// ---- what it changes
static struct rules satisfied[NUMBERS + 1]; // by the places of a node
static uint64_t on, off, visits;
static struct literals learned[2][ENTRIES];
static uint64_t ending[2][NUMBERS + 1]; // the entries that end at a place
static int held[2], oldest[2];
static struct {
    uint64_t on;
    int places;
} line[LINES];
static int lines;

// How many places there are up to the last of a set.
static int reach(uint64_t places)
{
    return places ? 64 - __builtin_clzll(places) : 0;
}

// Without the literals at the end whose places are in `dropped`.
static struct literals reduced(struct literals x, uint64_t dropped)
{
    uint64_t kept = (x.on | x.off) & ~dropped, up_to = kept ? ~0ull >> __builtin_clzll(kept) : 0;
    return (struct literals){x.on & up_to, x.off & up_to};
}

static uint64_t dropped(enum verdict v)
{
    return v == NO ? forall : exists;
}

static void add(struct rules *set, int i)
{
    set->word[i / 64] |= 1ull << i % 64;
}

static void load_rule(const struct book *b, int i, const int *place)
{
    struct literals x = {0, 0};
    for (int j = 0; j < b->length[i]; j++) {
        int literal = b->rule[i][j], p = place[abs(literal)];
        *(literal > 0 ? &x.on : &x.off) |= 1ull << p;
        add(&by[p][literal > 0], i);
    }
    rule[i] = x;
    add(&dying[reach((x.on | x.off) & ~forall)], i);
    add(&all, i);
}

static void load(const struct book *b)
{
    int place[NUMBERS + 1];
    n = b->n;
    flags = b->flags;
    forall = exists = 0;
    for (int p = 0; p < n; p++) {
        kinds[p] = b->kind[p];
        place[b->number[p]] = p;
        forall |= (uint64_t)(b->kind[p] == FORALL) << p;
        exists |= (uint64_t)(b->kind[p] == EXISTS) << p;
    }
    memset(&all, 0, sizeof all);
    memset(by, 0, sizeof by);
    memset(dying, 0, sizeof dying);
    for (int i = 0; i < b->m; i++)
        load_rule(b, i, place);
    memset(&satisfied[0], 0, sizeof satisfied[0]);
    memset(ending, 0, sizeof ending);
    memset(held, 0, sizeof held);
    memset(oldest, 0, sizeof oldest);
    on = off = visits = lines = 0;
}

static void learn(enum verdict v, struct literals x)
{
    int at = held[v];
    if (at < ENTRIES) {
        held[v]++;
    } else {
        at = oldest[v];
        oldest[v] = (at + 1) % ENTRIES;
        ending[v][reach(learned[v][at].on | learned[v][at].off)] &= ~(1ull << at);
    }
    learned[v][at] = x;
    ending[v][reach(x.on | x.off)] |= 1ull << at;
}

// Of the entries that end at a node of k places the oldest whose literals are all false there, or all true for YES.
static int find(enum verdict v, int k, struct literals *found)
{
    uint64_t slots = ending[v][k];
    if (!slots)
        return 0;
    uint64_t no_on = v == NO ? on : off, no_off = v == NO ? off : on;
    int first = oldest[v];
    slots = first ? slots >> first | slots << (64 - first) : slots;
    for (; slots; slots &= slots - 1) {
        struct literals x = learned[v][(__builtin_ctzll(slots) + first) % ENTRIES];
        if (!((x.on & no_on) | (x.off & no_off))) {
            *found = x;
            return 1;
        }
    }
    return 0;
}

// The smallest places that satisfy all rules, one rule after another: each place that satisfies one more.
static struct literals cube(int k)
{
    struct literals x = {0, 0};
    struct rules rest = all;
    for (int p = 0; p < k; p++) {
        uint64_t more = 0;
        int value = on >> p & 1;
        for (int j = 0; j < WORDS; j++) {
            more |= rest.word[j] & by[p][value].word[j];
            rest.word[j] &= ~by[p][value].word[j];
        }
        if (more)
            *(value ? &x.on : &x.off) |= 1ull << p;
    }
    return reduced(x, exists);
}

static void add_line(uint64_t values, int places)
{
    if (lines < LINES) {
        line[lines].on = values;
        line[lines].places = places;
    }
    lines++;
}

static struct answer visit(int k);

static inline struct answer side(int k, int value)
{
    for (int j = 0; j < WORDS; j++)
        satisfied[k + 1].word[j] = satisfied[k].word[j] | by[k][value].word[j];
    uint64_t *values = value ? &on : &off, m = 1ull << k;
    *values |= m;
    struct answer a = visit(k + 1);
    *values &= ~m;
    return a;
}

static int names(struct answer a, int k)
{
    return (a.up.on | a.up.off) >> k & 1;
}

// Both sides have one verdict, and name the place of the node.
static struct answer join(enum verdict v, struct literals x, struct literals y, int k)
{
    uint64_t others = ~(1ull << k);
    struct literals z = reduced((struct literals){(x.on | y.on) & others, (x.off | y.off) & others}, dropped(v));
    learn(v, z);
    return (struct answer){v, z};
}

static struct answer at_flag(int k)
{
    int before = lines;
    struct answer x = side(k, 0);
    if (x.verdict != MIXED && !names(x, k))
        return x;
    if (x.verdict == YES)
        add_line(on, k + 1);
    struct answer y = side(k, 1);
    if (x.verdict == y.verdict && x.verdict != MIXED) {
        lines = x.verdict == YES ? before : lines;
        return names(y, k) ? join(y.verdict, x.up, y.up, k) : y;
    }
    if (y.verdict == YES)
        add_line(on | 1ull << k, k + 1);
    return (struct answer){MIXED, {0, 0}};
}

// A side with the verdict `ends` decides the node.
static struct answer quantified(int k, enum verdict ends)
{
    struct answer x = side(k, 0);
    if (x.verdict == ends) {
        x.up = reduced(x.up, dropped(ends));
        return x;
    }
    if (!names(x, k))
        return x;
    struct answer y = side(k, 1);
    if (y.verdict == ends) {
        y.up = reduced(y.up, dropped(ends));
        return y;
    }
    return names(y, k) ? join(y.verdict, x.up, y.up, k) : y;
}

static struct answer visit(int k)
{
    struct answer a = {NO, {0, 0}};
    uint64_t open = 0;
    visits++;
    for (int j = 0; j < WORDS; j++) {
        uint64_t dead = dying[k].word[j] & ~satisfied[k].word[j];
        if (dead) {
            a.up = reduced(rule[j * 64 + __builtin_ctzll(dead)], forall);
            return a;
        }
        open |= all.word[j] & ~satisfied[k].word[j];
    }
    if (find(NO, k, &a.up))
        return a;
    a.verdict = YES;
    if (!open) {
        a.up = cube(k);
        return a;
    }
    if (find(YES, k, &a.up))
        return a;
    if (kinds[k] == FLAG)
        return at_flag(k);
    return quantified(k, kinds[k] == EXISTS ? YES : NO);
}

static void write_lines(uint8_t *table)
{
    for (int i = 0; i < lines && (i + 1) * flags <= TABLE; i++)
        for (int p = 0; p < line[i].places; p++)
            table[i * flags + p] = line[i].on >> p & 1 ? BULLACETOP_ON : BULLACETOP_OFF;
}

static void card(const struct book *b, uint8_t *table)
{
    load(b);
    memset(table, 0, TABLE);
    if (visit(0).verdict == YES)
        add_line(0, 0);
    write_lines(table);
}

// ---- one table
struct times {
    double library, floor;
};

// Both sides by turns, for half a second and three times at least.
static struct times measure(struct state *s, const struct book *b, const char *name)
{
    static uint8_t one[TABLE], other[TABLE];
    struct times best = {1e300, 1e300};
    double spent = 0;
    for (int run = 0; run < 3 || spent < 5e8; run++) {
        forget(s);
        double began = thread_time();
        struct bullacetop_reply r = make_card(s, one);
        double between = thread_time();
        card(b, other);
        double ended = thread_time();
        if (r.refusal || r.visits != visits || r.lines != (size_t)lines || memcmp(one, other, TABLE)) {
            printf("%s: %zu lines and %llu visits, the floor's %d and %llu\n", name, r.lines, (unsigned long long)r.visits, lines, (unsigned long long)visits);
            exit(1);
        }
        best.library = fmin(best.library, between - began);
        best.floor = fmin(best.floor, ended - between);
        spent += ended - began;
    }
    return best;
}

int main(int count, char **words)
{
    static struct book b;
    struct state s = lend();
    double product = 0, most = 0;
    puts("| Book | Rules | Visits | Library, ns a visit | Floor, ns a visit | Ratio |\n|---|---|---|---|---|---|");
    for (int k = 1; k < count; k++) {
        read_book(words[k], &b);
        open_book(&s, &b);
        char *name = strrchr(words[k], '/') ? strrchr(words[k], '/') + 1 : words[k];
        struct times t = measure(&s, &b, name);
        double ratio = t.library / t.floor;
        printf("| %.*s | %d | %llu | %.1f | %.1f | %.2f |\n", (int)strcspn(name, "."), name, b.m, (unsigned long long)visits, t.library / visits, t.floor / visits, ratio);
        fflush(stdout);
        product += log(ratio);
        most = fmax(most, ratio);
    }
    printf("\nGeometric mean %.2f over %d books, at most %.2f.\n", exp(product / (count - 1)), count - 1, most);
}
