/* A book in doubles, with no enclosure at all: what bench/bench.py measures beside `decl`. A program that includes this file says how
   the cells of a unit and of a sum are made; the rest is here: reading a book, answering what is asked, printing a line for each ask.

   Standard input has a line for each part, as bench/bench.py writes them:

     cells K                     the grid has the totals from 0 to K - 1
     common C                    the units are Poisson, and share a gamma factor of mean 1 with this coefficient of variation
     unit poisson MEAN           a unit begins, by its claim count
     unit gamma MEAN SHAPE
     unit binomial TRIALS P
     unit table W0 W1 ..         the probability of 0 claims, of 1 claim, and so on
     zero P                      that unit has no claim with probability P, and its other counts in proportion (P is 0 for `zt`)
     severity A:P A:P ..         the amounts of one claim of that unit, with their probabilities
     net L A                     of the sum of that unit's claims the layer L xs A is ceded
     ask pmf X | cdf X | mean | q P | layer L A | tail P                                     (L is -1 for no limit)
     ask joint UNIT X | kappa UNIT X | cotail UNIT P | price W P W P ..

   Distribution functions are summed once; a quantile is looked up by halving. Under a common factor the total is that of one gamma
   unit with the claims of all, and a joint mean comes from such a unit with one more in the shape. */
#define _POSIX_C_SOURCE 200809L
#include <math.h>
#include <stdio.h>
#include <stdlib.h>
#include <string.h>

enum { MOST_UNITS = 256, MOST_ASKS = 256, MOST_NUMBERS = 16 };

struct unit {
    char count[16];
    double parameter[2]; /* mean and shape, or trials and probability */
    int table_length;
    double *table;
    int is_changed; /* whether `zero` is the probability of no claim */
    double zero;
    int items;
    int *amount;
    double *probability;
    double limit, attachment; /* of the aggregate clause; no limit and no attachment: no clause */
    double mean;
    double *cell;   /* after the clause; NULL until something reads them */
    void *spectrum; /* what bench/transform.c keeps of it */
};

struct ask {
    char kind[16];
    int numbers;
    double parameter[MOST_NUMBERS];
};

/* Of a distribution: below[s] is the probability of at most s, and left[s] the mean of what of the total lies within 0 and s. */
struct sums {
    int cells;
    double *below, *left;
};

struct book {
    int cells, units, asks;
    double common; /* the coefficient of variation of the factor, 0 without one */
    double mean;
    struct unit unit[MOST_UNITS];
    struct ask ask[MOST_ASKS];
};

/* What the two programs do each in its way: the cells of the sum of a unit's claims, of the sum of all units, and of all but one. */
static double *claims_cells(struct unit *unit, int cells);
static double *total_cells(struct book *book);
static double *others_cells(struct book *book, int left_out);

/* Reads numbers into `first`, at most so many, and tells how many there are. */
static int numbers(char *rest, double *first, int most) {
    int found = 0;
    for (char *end; found < most; rest = end) {
        double value = strtod(rest, &end);
        if (end == rest)
            break;
        first[found++] = value;
    }
    return found;
}

/* How many parts the text has at most, one for each blank. */
static size_t parts_of(const char *text) {
    size_t parts = 1;
    for (; *text != 0; text++)
        parts += *text == ' ';
    return parts;
}

static void read_severity(struct unit *unit, char *rest) {
    size_t most = parts_of(rest);
    unit->amount = malloc(most * sizeof *unit->amount);
    unit->probability = malloc(most * sizeof *unit->probability);
    for (char *end;; rest = end) {
        long amount = strtol(rest, &end, 10);
        if (end == rest)
            break;
        unit->amount[unit->items] = (int)amount;
        unit->probability[unit->items++] = strtod(end + 1, &end);
    }
}

static void read_unit(struct unit *unit, char *rest) {
    int used;
    sscanf(rest, "%15s%n", unit->count, &used);
    if (strcmp(unit->count, "table") != 0) {
        numbers(rest + used, unit->parameter, 2);
        return;
    }
    size_t most = parts_of(rest);
    unit->table = malloc(most * sizeof *unit->table);
    unit->table_length = numbers(rest + used, unit->table, (int)most);
}

static void read_book(struct book *book) {
    char *line = NULL, word[16];
    size_t room = 0;
    int used, found;
    double layer[2];
    while (getline(&line, &room, stdin) > 0 && sscanf(line, "%15s%n", word, &used) == 1) {
        struct unit *last = &book->unit[book->units - 1];
        if (strcmp(word, "cells") == 0) {
            book->cells = atoi(line + used);
        } else if (strcmp(word, "common") == 0) {
            book->common = atof(line + used);
        } else if (strcmp(word, "unit") == 0) {
            read_unit(&book->unit[book->units++], line + used);
        } else if (strcmp(word, "zero") == 0) {
            last->is_changed = 1, last->zero = atof(line + used);
        } else if (strcmp(word, "severity") == 0) {
            read_severity(last, line + used);
        } else if (strcmp(word, "net") == 0) {
            numbers(line + used, layer, 2);
            last->limit = layer[0], last->attachment = layer[1];
        } else if (strcmp(word, "ask") == 0) {
            struct ask *ask = &book->ask[book->asks++];
            sscanf(line + used, "%15s%n", ask->kind, &found);
            ask->numbers = numbers(line + used + found, ask->parameter, MOST_NUMBERS);
        }
    }
    free(line);
}

static struct sums sums_of(const double *cell, int cells) {
    struct sums sums = {cells, malloc((size_t)cells * sizeof(double)), malloc((size_t)(cells + 1) * sizeof(double))};
    double below = 0;
    sums.left[0] = 0;
    for (int s = 0; s < cells; s++) {
        sums.below[s] = below += cell[s];
        sums.left[s + 1] = sums.left[s] + (1 - below);
    }
    return sums;
}

/* The mean of what lies above the attachment and within the limit. */
static double layer_mean(const struct sums *sums, double mean, double limit, double attachment) {
    double skipped = sums->left[(int)fmin(attachment, sums->cells)];
    return limit < 0 ? mean - skipped : sums->left[(int)fmin(attachment + limit, sums->cells)] - skipped;
}

/* The probability of no claim, before it is changed. */
static double none_of(const struct unit *unit) {
    double first = unit->parameter[0], second = unit->parameter[1];
    if (strcmp(unit->count, "poisson") == 0)
        return exp(-first);
    if (strcmp(unit->count, "gamma") == 0)
        return exp(-second * log1p(first / second));
    if (strcmp(unit->count, "binomial") == 0)
        return pow(1 - second, first);
    return unit->table[0];
}

static double base_mean(const struct unit *unit) {
    if (strcmp(unit->count, "binomial") == 0)
        return unit->parameter[0] * unit->parameter[1];
    if (strcmp(unit->count, "table") != 0)
        return unit->parameter[0];
    double mean = 0;
    for (int n = 0; n < unit->table_length; n++)
        mean += n * unit->table[n];
    return mean;
}

static double count_mean(const struct unit *unit) {
    return base_mean(unit) * (unit->is_changed ? (1 - unit->zero) / (1 - none_of(unit)) : 1);
}

static double unit_mean(const struct unit *unit) {
    double claim = 0;
    for (int k = 0; k < unit->items; k++)
        claim += unit->amount[k] * unit->probability[k];
    return count_mean(unit) * claim;
}

/* The aggregate clause of a unit, on its cells and its mean. */
static void cede(struct unit *unit, int cells) {
    struct sums sums = sums_of(unit->cell, cells);
    unit->mean -= layer_mean(&sums, unit->mean, unit->limit, unit->attachment);
    double *kept = calloc((size_t)cells, sizeof *kept);
    for (int s = 0; s < cells; s++)
        kept[s - (int)fmin(fmax(s - unit->attachment, 0), unit->limit)] += unit->cell[s];
    unit->cell = kept;
}

/* The unit's cells, after its clause. */
static const double *unit_cells(struct unit *unit, int cells) {
    if (unit->cell == NULL) {
        unit->cell = claims_cells(unit, cells);
        if (unit->limit != 0)
            cede(unit, cells);
    }
    return unit->cell;
}

/* The cells of one gamma unit with the claims of all units under their factor, with so much more in the shape, and the mean in
   proportion. */
static double *pooled(const struct book *book, double more) {
    static struct unit all;
    double shape = 1 / (book->common * book->common), claims = 0;
    double *chance = calloc((size_t)book->cells, sizeof *chance);
    for (int i = 0; i < book->units; i++)
        claims += book->unit[i].parameter[0];
    for (int i = 0; i < book->units; i++)
        for (int k = 0; k < book->unit[i].items; k++)
            if (book->unit[i].amount[k] < book->cells)
                chance[book->unit[i].amount[k]] += book->unit[i].parameter[0] / claims * book->unit[i].probability[k];
    all.items = 0, all.spectrum = NULL;
    all.amount = malloc((size_t)book->cells * sizeof *all.amount);
    all.probability = malloc((size_t)book->cells * sizeof *all.probability);
    for (int s = 0; s < book->cells; s++)
        if (chance[s] != 0)
            all.amount[all.items] = s, all.probability[all.items++] = chance[s];
    strcpy(all.count, "gamma");
    all.parameter[0] = claims * (1 + more / shape), all.parameter[1] = shape + more;
    free(chance);
    return claims_cells(&all, book->cells);
}

/* The mean of a unit's outcome where the total is x, under a common factor. */
static double joint_under_factor(const struct book *book, const struct unit *unit, int x) {
    static double *raised;
    double sum = 0;
    if (raised == NULL)
        raised = pooled(book, 1);
    for (int k = 0; k < unit->items; k++)
        if (unit->amount[k] <= x)
            sum += unit->amount[k] * unit->probability[k] * raised[x - unit->amount[k]];
    return unit->parameter[0] * sum;
}

/* The cells of the sum of all units but one. */
static const double *without(struct book *book, int left_out) {
    static double *made[MOST_UNITS];
    if (made[left_out] == NULL)
        made[left_out] = others_cells(book, left_out);
    return made[left_out];
}

/* The distribution function of that sum. */
static const double *below_without(struct book *book, int left_out) {
    static double *made[MOST_UNITS];
    if (made[left_out] == NULL)
        made[left_out] = sums_of(without(book, left_out), book->cells).below;
    return made[left_out];
}

/* The first total at which the distribution function is at least p. */
static int quantile(const struct sums *sums, double p) {
    int first = 0, last = sums->cells;
    while (first < last) {
        int middle = (first + last) / 2;
        if (sums->below[middle] >= p)
            last = middle;
        else
            first = middle + 1;
    }
    return first;
}

static double tail_mean(const struct sums *sums, double mean, double p) {
    int q = quantile(sums, p);
    return q + layer_mean(sums, mean, -1, q) / (1 - p);
}

/* The sum of y times the unit's probability of y times `other` at x - y. */
static double weighed(const double *own, const double *other, int x) {
    double sum = 0;
    for (int y = 0; y <= x; y++)
        sum += y * own[y] * other[x - y];
    return sum;
}

/* A unit's share of the tail mean: its mean without its part below the quantile, and without that part of it at the quantile which is
   needed to reach p. */
static double share(struct book *book, const struct sums *sums, const double *total, int unit, double p) {
    const double *own = unit_cells(&book->unit[unit], book->cells);
    int q = quantile(sums, p);
    double reached = q > 0 ? sums->below[q - 1] : 0;
    double below = q > 0 ? weighed(own, below_without(book, unit), q - 1) : 0;
    double here = p > reached ? weighed(own, without(book, unit), q) * (p - reached) / total[q] : 0;
    return (book->unit[unit].mean - below - here) / (1 - p);
}

static double answer(struct book *book, const struct sums *sums, const double *total, const struct ask *ask) {
    double mean = book->mean, first = ask->parameter[0], second = ask->parameter[1], sum = 0;
    if (strcmp(ask->kind, "pmf") == 0)
        return total[(int)first];
    if (strcmp(ask->kind, "cdf") == 0)
        return sums->below[(int)first];
    if (strcmp(ask->kind, "mean") == 0)
        return mean;
    if (strcmp(ask->kind, "q") == 0)
        return quantile(sums, first);
    if (strcmp(ask->kind, "layer") == 0)
        return layer_mean(sums, mean, first, second);
    if (strcmp(ask->kind, "tail") == 0)
        return tail_mean(sums, mean, first);
    if (strcmp(ask->kind, "price") == 0) {
        for (int term = 0; term + 1 < ask->numbers; term += 2)
            sum += ask->parameter[term] * tail_mean(sums, mean, ask->parameter[term + 1]);
        return sum;
    }
    int unit = (int)first, x = (int)second;
    if (strcmp(ask->kind, "cotail") == 0)
        return share(book, sums, total, unit, second);
    sum = book->common > 0 ? joint_under_factor(book, &book->unit[unit], x)
                           : weighed(unit_cells(&book->unit[unit], book->cells), without(book, unit), x);
    return strcmp(ask->kind, "joint") == 0 ? sum : sum / total[x];
}

int main(void) {
    static struct book book;
    read_book(&book);
    for (int i = 0; i < book.units; i++) {
        book.unit[i].mean = unit_mean(&book.unit[i]);
        if (book.unit[i].limit != 0)
            unit_cells(&book.unit[i], book.cells);
        book.mean += book.unit[i].mean;
    }
    double *total = book.common > 0 ? pooled(&book, 0) : total_cells(&book);
    struct sums sums = sums_of(total, book.cells);
    for (int i = 0; i < book.asks; i++)
        printf("%.12g\n", answer(&book, &sums, total, &book.ask[i]));
    return 0;
}
