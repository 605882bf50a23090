/* Checks a certificate of a total: the lines of a plan, a line ---, and the steps (docs/STEPS.md).

       cc -std=c11 -O2 -o check_steps check_steps.c && ./check_steps [FILE]

   It reads FILE or standard input, works in 128-bit words and shares no code with decl. It writes `verified`, or
   the number of the first bad step. Status 0: verified; 1: a bad step; 2: the plan or the list is not one that it
   reads; 3: the words are not understood; 4: the input could not be read; 5: a write failed; 6: memory is short. */

#include <errno.h>
#include <stdint.h>
#include <stdio.h>
#include <stdlib.h>
#include <string.h>

typedef unsigned __int128 wide;

#define ONE ((uint64_t)1 << 56)
#define MOST_UNITS 16
#define MOST_CELLS 1024
#define MOST_INPUT 67108864             /* bytes, with the plan and the steps */
#define MOST_STEPS 32768
#define MOST_STEP_CELLS 524288          /* in all steps together */
#define MOST_PARTS ((uint64_t)1 << 30)  /* the weights of a severity together */
#define ADMITTED ((uint64_t)1 << 48)    /* above both parts of a mean or a probability */

enum status { VERIFIED, BAD_STEP, NOT_READ, BAD_WORDS, NO_INPUT, NOT_WRITTEN, NO_MEMORY };
enum kind { FIXED, BERNOULLI, BINOMIAL, POISSON, GAMMA };

/* A unit: its count, and the weight of each amount of one claim that lies in the grid. */
struct unit {
    enum kind kind;
    uint64_t number;              /* the claims, the trials or the shape */
    uint64_t num, den;            /* the mean or the probability, in lowest terms */
    uint64_t halvings;
    uint64_t target;              /* how often the base stands in the total */
    uint64_t total;               /* all weights together */
    uint64_t weight[MOST_CELLS];
};

/* A step: its ends, first all low ends and then all high ends, and how often it counts each unit. */
struct step {
    uint64_t *low, *high;
    uint32_t label[MOST_UNITS];
};

static struct unit units[MOST_UNITS];
static size_t unit_count, cells;

/* What is taken from the heap: the input, the steps that have passed and the one that is tested, and all their ends. */
static char *bytes;
static struct step *steps;
static uint64_t *ends;
static size_t step_count;

/* The text that is left of a line. */
struct text {
    const char *at, *end;
};

static void give_back(void) {
    free(bytes);
    free(steps);
    free(ends);
}

/* Ends the program with a fault: what it is, and what more is known of it, or "". */
static void stop(enum status status, const char *fault, const char *more) {
    fprintf(stderr, "%s%s\n", fault, more);
    exit(status);
}

static void refuse(const char *why) { stop(NOT_READ, "not read: ", why); }

/* Room for `count` things of `size` bytes, at least one, all 0. */
static void *room(size_t count, size_t size) {
    void *made = calloc(count ? count : 1, size);
    if (!made) stop(NO_MEMORY, "memory is short", "");
    return made;
}

/* ---- reading */

/* Takes `word` from the front where it stands there. */
static int takes(struct text *text, const char *word) {
    size_t length = strlen(word);
    if ((size_t)(text->end - text->at) < length || memcmp(text->at, word, length)) return 0;
    text->at += length;
    return 1;
}

/* Takes a whole number of 1 to `digits` digits that no further digit follows. */
static int takes_number(struct text *text, int digits, uint64_t *number) {
    int count = 0;
    *number = 0;
    while (text->at < text->end && *text->at >= '0' && *text->at <= '9') {
        if (++count > digits) return 0;
        *number = *number * 10 + (uint64_t)(*text->at++ - '0');
    }
    return count > 0;
}

/* The next line without its newline; 0 where nothing is left. */
static int takes_line(struct text *text, struct text *line) {
    if (text->at == text->end) return 0;
    const char *newline = memchr(text->at, '\n', (size_t)(text->end - text->at));
    line->at = text->at;
    line->end = newline ? newline : text->end;
    text->at = newline ? newline + 1 : text->end;
    return 1;
}

static uint64_t divisor(uint64_t a, uint64_t b) {
    while (b) {
        uint64_t rest = a % b;
        a = b;
        b = rest;
    }
    return a;
}

/* A fraction, `a` or `a/b`, both below 2^48, in lowest terms. */
static void reads_fraction(struct text *line, struct unit *unit) {
    unit->den = 1;
    if (!takes_number(line, 15, &unit->num)) refuse("a number of a unit");
    if (takes(line, "/") && (!takes_number(line, 15, &unit->den) || !unit->den)) refuse("a fraction");
    uint64_t common = divisor(unit->num, unit->den);
    unit->num /= common;
    unit->den /= common;
    if (unit->num >= ADMITTED || unit->den >= ADMITTED) refuse("a part of a fraction of 2^48 or more");
}

static void reads_whole(struct text *line, uint64_t most, uint64_t *number) {
    if (!takes_number(line, 9, number) || *number > most) refuse("the number of claims, trials or shape");
}

/* The amounts and their weights, rising, each at most once. */
static void reads_amounts(struct text *line, struct unit *unit) {
    uint64_t amount, weight, least = unit->kind >= POISSON ? 1 : 0;
    if (!takes(line, " of")) refuse("a unit without amounts");
    while (takes(line, " ")) {
        if (!takes_number(line, 9, &amount) || !takes(line, ":") || !takes_number(line, 10, &weight))
            refuse("an amount with its weight");
        if (amount < least || !weight) refuse("amounts are not rising, or without weight");
        least = amount + 1;
        unit->total += weight;
        if (unit->total > MOST_PARTS) refuse("weights above 2^30 together");
        if (amount < cells) unit->weight[amount] = weight;
    }
    if (line->at != line->end) refuse("a unit goes on");
    if (!unit->total && unit->kind < POISSON) refuse("a unit without amounts");
    if (unit->kind >= POISSON && (unit->total > 0) != (unit->num > 0)) refuse("a mean without amounts, or amounts without a mean");
}

/* `unit fixed N`, `unit bernoulli Q`, `unit binomial N Q`, `unit poisson M` or `unit gamma R M`, and ` of A:W ..` */
static void reads_unit(struct text *line, struct unit *unit) {
    unit->num = unit->den = unit->number = 1;
    if (takes(line, "fixed ")) {
        unit->kind = FIXED;
        reads_whole(line, 65536, &unit->number);
    } else if (takes(line, "bernoulli ")) {
        unit->kind = BERNOULLI;
        reads_fraction(line, unit);
    } else if (takes(line, "binomial ")) {
        unit->kind = BINOMIAL;
        reads_whole(line, 65536, &unit->number);
        if (!takes(line, " ")) refuse("trials without a probability");
        reads_fraction(line, unit);
    } else if (takes(line, "poisson ")) {
        unit->kind = POISSON;
        reads_fraction(line, unit);
    } else if (takes(line, "gamma ")) {
        unit->kind = GAMMA;
        reads_whole(line, 10000, &unit->number);
        if (!unit->number || !takes(line, " ")) refuse("a shape without a mean");
        reads_fraction(line, unit);
    } else {
        refuse("the count of a unit");
    }
    if (unit->kind < POISSON && unit->num > unit->den) refuse("a probability above 1");
    if (unit->kind >= POISSON && unit->num > 4096 * unit->den) refuse("a mean above 4,096");
    while (unit->kind == POISSON && 2 * unit->num > unit->den << unit->halvings) unit->halvings++;
    unit->target = unit->kind == POISSON ? (uint64_t)1 << unit->halvings : unit->number;
    if (unit->kind >= POISSON && !unit->num) unit->target = 0;
    reads_amounts(line, unit);
}

/* The lines of the plan, up to the line ---. */
static void reads_plan(struct text *text) {
    struct text line;
    uint64_t log2 = 0;
    if (!takes_line(text, &line) || !takes(&line, "log2 ") || !takes_number(&line, 2, &log2) || line.at != line.end)
        refuse("the first line is no log2");
    if (log2 < 1 || log2 > 10) refuse("log2 is not from 1 to 10");
    cells = (size_t)1 << log2;
    while (takes_line(text, &line)) {
        if (line.end - line.at == 3 && takes(&line, "---")) break;
        if (unit_count == MOST_UNITS) refuse("more than 16 units");
        if (!takes(&line, "unit ")) refuse("a line that is no unit");
        reads_unit(&line, &units[unit_count++]);
    }
    if (!unit_count) refuse("a plan without units");
}

/* ---- the numbers of the table */

static wide ceiling(wide above, wide below) { return above / below + (above % below != 0); }

/* 2^56 times above / below, which is at most 1, rounded down, or up with `rest`; below is under 2^100. */
static uint64_t units_of(wide above, wide below, int rest) {
    wide first = (above << 28) / below, left = (above << 28) % below;
    wide second = (left << 28) / below;
    return (uint64_t)((first << 28) + second) + (rest && (left << 28) % below != 0);
}

/* The ends of exp(-x), x = num / den: the sum of 18 terms of the series after the first, in units of 2^-63. */
static void exponential(uint64_t num, wide den, uint64_t *low_end, uint64_t *high_end) {
    wide one = (wide)1 << 63, low_term = one, high_term = one, low = one, high = one;
    for (unsigned n = 1; n <= 18; n++) {
        low_term = low_term * num / (den * n);
        high_term = ceiling(high_term * num, den * n);
        low += low_term;
        high += high_term;
    }
    *low_end = (uint64_t)(((wide)ONE << 63) / (high + high_term));
    *high_end = (uint64_t)ceiling((wide)ONE << 63, low);
}

/* The numbers of cell 0 of a Poisson or a gamma unit, and by what a sum over the total is multiplied and divided. */
static void recursion(const struct unit *unit, uint64_t *low, uint64_t *high, wide *rate_num, wide *rate_den) {
    *rate_num = unit->num;
    if (unit->kind == POISSON) {
        *rate_den = (wide)unit->den << unit->halvings;
        exponential(unit->num, *rate_den, low, high);
        return;
    }
    wide none = (wide)unit->den * unit->number;
    *rate_den = none + unit->num;
    *low = units_of(none, *rate_den, 0);
    *high = units_of(none, *rate_den, 1);
}

/* Whether each end is as the table says: a low end at most, and a high end at least, the number; 2^56 passes. */
static int is_within(const struct step *step, size_t s, wide low, wide high) {
    return step->low[s] <= low && (step->high[s] >= high || step->high[s] == ONE);
}

static int passes_one(const struct step *step) {
    for (size_t s = 0; s < cells; s++)
        if (!is_within(step, s, s ? 0 : ONE, s ? 0 : ONE)) return 0;
    return 1;
}

/* The probabilities of one claim, or of one trial: 1 - q at 0, and q times those of one claim. */
static int passes_finite(const struct unit *unit, const struct step *step) {
    wide below = (wide)unit->den * unit->total;
    for (size_t s = 0; s < cells; s++) {
        wide above = (wide)unit->num * unit->weight[s];
        if (!s) above += (wide)(unit->den - unit->num) * unit->total;
        if (!is_within(step, s, units_of(above, below, 0), units_of(above, below, 1))) return 0;
    }
    return 1;
}

/* Each cell from the step's own cells before it, by Panjer's recursion. */
static int passes_recursion(const struct unit *unit, const struct step *step) {
    uint64_t low, high;
    wide num, den;
    recursion(unit, &low, &high, &num, &den);
    if (!is_within(step, 0, low, high)) return 0;
    for (size_t s = 1; s < cells; s++) {
        wide lows = 0, highs = 0, by = unit->kind == POISSON ? s * den : den;
        for (size_t j = 1; j <= s; j++) {
            wide weight = unit->kind == POISSON ? (wide)j * unit->weight[j] : unit->weight[j];
            lows += weight * step->low[s - j];
            highs += weight * step->high[s - j];
        }
        if (!is_within(step, s, lows / unit->total * num / by, ceiling(ceiling(highs, unit->total) * num, by))) return 0;
    }
    return 1;
}

static int passes_times(const struct step *a, const struct step *b, const struct step *step) {
    for (size_t s = 0; s < cells; s++) {
        wide lows = 0, highs = 0;
        for (size_t i = 0; i <= s; i++) {
            lows += (wide)a->low[i] * b->low[s - i];
            highs += (wide)a->high[i] * b->high[s - i];
        }
        if (!is_within(step, s, lows / ONE, ceiling(highs, ONE))) return 0;
    }
    return 1;
}

/* ---- steps */

/* The ends of a line, for exactly the cells of the grid: in order, at most 1, the low ends together at most 1. */
static int takes_ends(struct text *line, struct step *step) {
    wide sum = 0;
    for (size_t s = 0; s < cells; s++) {
        uint64_t low, high;
        if (!takes(line, " ") || !takes_number(line, 17, &low) || !takes(line, ",") || !takes_number(line, 17, &high))
            return 0;
        if (low > high || high > ONE) return 0;
        step->low[s] = low;
        step->high[s] = high;
        sum += low;
    }
    return line->at == line->end && sum <= ONE;
}

static int is_below_target(const struct step *step) {
    for (size_t u = 0; u < unit_count; u++)
        if (step->label[u] > units[u].target) return 0;
    return 1;
}

/* Whether a line is a step that passes its test; then `step` is that step. */
static int is_good(struct text line, struct step *step) {
    uint64_t a, b;
    memset(step->label, 0, sizeof step->label);
    if (takes(&line, "one")) return takes_ends(&line, step) && passes_one(step);
    if (takes(&line, "start ")) {
        if (!takes_number(&line, 9, &a) || a >= unit_count || !takes_ends(&line, step)) return 0;
        step->label[a] = 1;
        if (!is_below_target(step)) return 0;
        return units[a].kind < POISSON ? passes_finite(&units[a], step) : passes_recursion(&units[a], step);
    }
    if (!takes(&line, "times ") || !takes_number(&line, 9, &a) || !takes(&line, " ") || !takes_number(&line, 9, &b))
        return 0;
    if (a >= step_count || b >= step_count || !takes_ends(&line, step)) return 0;
    for (size_t u = 0; u < unit_count; u++) step->label[u] = steps[a].label[u] + steps[b].label[u];
    return is_below_target(step) && passes_times(&steps[a], &steps[b], step);
}

/* The number of the first bad step, or of all steps where the last is not the total; -1 where the total is enclosed. */
static long first_bad(struct text *text) {
    struct text line, rest = *text;
    size_t lines = 0;
    while (takes_line(&rest, &line)) lines++;
    if (lines > MOST_STEPS) refuse("more than 32,768 steps");
    if (lines * cells > MOST_STEP_CELLS) refuse("more than 524,288 cells in all steps");
    steps = room(lines, sizeof *steps);
    ends = room(lines, 2 * cells * sizeof *ends);
    for (; takes_line(text, &line); step_count++) {
        struct step *step = &steps[step_count];
        step->low = ends + 2 * cells * step_count;
        step->high = step->low + cells;
        if (!is_good(line, step)) return (long)step_count;
    }
    for (size_t u = 0; u < unit_count; u++)
        if (!step_count || steps[step_count - 1].label[u] != units[u].target) return (long)step_count;
    return -1;
}

/* All of a file, or of standard input without one, up to the first byte that is too many. */
static struct text input(const char *name) {
    FILE *file = name ? fopen(name, "rb") : stdin;
    if (!file) stop(NO_INPUT, "the input could not be read: ", strerror(errno));
    bytes = room(MOST_INPUT + 1, 1);
    size_t length = fread(bytes, 1, MOST_INPUT + 1, file);
    if (ferror(file)) stop(NO_INPUT, "the input could not be read: ", strerror(errno));
    if (name) fclose(file);
    if (length > MOST_INPUT) refuse("more than 67,108,864 bytes");
    return (struct text){bytes, bytes + length};
}

int main(int count, char **words) {
    if (atexit(give_back)) stop(NO_MEMORY, "memory is short", "");
    if (count > 2 || (count == 2 && words[1][0] == '-')) stop(BAD_WORDS, "usage: check_steps [FILE]", "");
    struct text text = input(count == 2 ? words[1] : NULL);
    reads_plan(&text);
    long bad = first_bad(&text);
    if (bad >= 0) {
        fprintf(stderr, "step %ld: not verified\n", bad);
        return BAD_STEP;
    }
    if (puts("verified") == EOF || fflush(stdout) == EOF) stop(NOT_WRITTEN, "the output could not be written", "");
    return VERIFIED;
}
