// A book as `bench --books` writes it, for programs in C: our own text of edition 1, and behind it the readings of a list of queries.
#include <stdint.h>
#include <stdio.h>
#include <stdlib.h>
#include <string.h>
#include <time.h>

enum { NUMBERS = 40, RULES = 255, LITERALS = 16, READINGS = 1000, TEXT = 65536 };
enum { FLAG, EXISTS, FORALL };

struct book {
    char text[TEXT]; // through its line `(end)`
    int length_of_text;
    int n, flags, m, readings;
    int16_t number[NUMBERS]; // of each place
    uint8_t kind[NUMBERS];
    int length[RULES];
    int16_t rule[RULES][LITERALS];
    int on_length[READINGS], off_length[READINGS];
    int16_t on[READINGS][NUMBERS], off[READINGS][NUMBERS];
};

// The literals of a line behind its word; `(no 3)` is -3.
static int literals(char *line, int16_t *out)
{
    int n = 0, sign = 1;
    for (char *item = strtok(line, " ()\n"); item; item = strtok(NULL, " ()\n")) {
        if (!strcmp(item, "no")) {
            sign = -1;
        } else {
            out[n++] = sign * atoi(item);
            sign = 1;
        }
    }
    return n;
}

static void declare(struct book *b, char *line, int kind)
{
    int16_t numbers[NUMBERS];
    int n = literals(line, numbers);
    for (int i = 0; i < n; i++) {
        b->number[b->n] = numbers[i];
        b->kind[b->n++] = kind;
    }
    b->flags += kind == FLAG ? n : 0;
}

// A full reading: each flag is on or off.
static void query(struct book *b, char *line)
{
    int16_t all[NUMBERS];
    int n = literals(line, all), k = b->readings++;
    for (int i = 0; i < n; i++) {
        if (all[i] > 0)
            b->on[k][b->on_length[k]++] = all[i];
        else
            b->off[k][b->off_length[k]++] = -all[i];
    }
}

static int starts(const char *line, const char *word)
{
    return !strncmp(line, word, strlen(word));
}

static void keep_text(struct book *b, const char *line)
{
    int n = strlen(line);
    if (b->length_of_text + n > TEXT)
        exit(1);
    memcpy(b->text + b->length_of_text, line, n);
    b->length_of_text += n;
}

static void read_book(const char *path, struct book *b)
{
    static char line[TEXT];
    int ended = 0;
    FILE *f = fopen(path, "r");
    if (!f) {
        perror(path);
        exit(1);
    }
    memset(b, 0, sizeof *b);
    while (fgets(line, sizeof line, f)) {
        if (!ended)
            keep_text(b, line);
        ended |= starts(line, "(end)");
        if (starts(line, "(flags")) declare(b, line + 6, FLAG);
        if (starts(line, "(exists")) declare(b, line + 7, EXISTS);
        if (starts(line, "(forall")) declare(b, line + 7, FORALL);
        if (starts(line, "(rule")) {
            b->length[b->m] = literals(line + 5, b->rule[b->m]);
            b->m++;
        }
        if (starts(line, "(query")) query(b, line + 6);
    }
    fclose(f);
}

// Nanoseconds that this thread has run.
static double thread_time(void)
{
    struct timespec t;
    clock_gettime(CLOCK_THREAD_CPUTIME_ID, &t);
    return t.tv_sec * 1e9 + t.tv_nsec;
}
