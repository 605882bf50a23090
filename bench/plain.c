/* A book in doubles by the ways of the textbook: Panjer's recursion at the full mean for Poisson and gamma counts, with a changed
   probability of no claim too, powers by squaring and Horner's rule for the others, and plain convolutions (bench/book.h; Loss Models,
   "Aggregate loss models"). */
#include "book.h"

/* The probability of an amount. */
static double chance_of(const struct unit *claim, int amount) {
    double chance = 0;
    for (int k = 0; k < claim->items; k++)
        chance += claim->amount[k] == amount ? claim->probability[k] : 0;
    return chance;
}

/* The cells of one claim, with this weight, beside that of no claim. */
static double *one_claim(const struct unit *unit, double of_it, double of_none, int cells) {
    double *claim = calloc((size_t)cells, sizeof *claim);
    claim[0] = of_none;
    for (int k = 0; k < unit->items; k++)
        if (unit->amount[k] < cells)
            claim[unit->amount[k]] += of_it * unit->probability[k];
    return claim;
}

/* Where a recursion starts: its cell 0, and what one claim has beyond the step from no claim. Both are times exp(scale). */
struct start {
    double cell, one, scale;
};

/* The cells of a count whose weights step by a + b / n: from no claim on (class (a, b, 0), where `one` is 0), or from one claim on, of
   the claims of a count that is not 0 (class (a, b, 1)). */
static double *recursion(double a, double b, struct start start, const struct unit *claim, int cells) {
    double *cell = calloc((size_t)cells, sizeof *cell);
    double scaled = start.scale; /* each true cell is cell * exp(scaled) */
    double *one = one_claim(claim, 1, 0, cells), *probability = malloc((size_t)cells * sizeof *probability);
    int *amount = malloc((size_t)cells * sizeof *amount), items = 0;
    for (int s = 1; s < cells; s++)
        if (one[s] != 0)
            amount[items] = s, probability[items++] = one[s];
    cell[0] = start.cell;
    for (int s = 1; s < cells; s++) {
        double sum = start.one * one[s];
        for (int k = 0; k < items && amount[k] <= s; k++)
            sum += (a + b * amount[k] / s) * probability[k] * cell[s - amount[k]];
        cell[s] = sum / (1 - a * one[0]);
        if (cell[s] > 0x1p400) {
            for (int k = 0; k <= s; k++)
                cell[k] *= 0x1p-400;
            scaled += 400 * log(2);
            start.one *= 0x1p-400;
        }
    }
    free(one), free(amount), free(probability);
    for (int s = 0; s < cells; s++)
        cell[s] = cell[s] > 0 ? exp(log(cell[s]) + scaled) : 0;
    return cell;
}

static int length_of(const double *cell, int cells) {
    while (cells > 0 && cell[cells - 1] == 0)
        cells--;
    return cells;
}

static double *convolution(const double *x, const double *y, int cells) {
    double *sum = calloc((size_t)cells, sizeof *sum);
    int left = length_of(x, cells), right = length_of(y, cells);
    for (int i = 0; i < left; i++)
        if (x[i] != 0)
            for (int j = 0; j < right && i + j < cells; j++)
                sum[i + j] += x[i] * y[j];
    return sum;
}

static double *power(double *base, int n, int cells) {
    double *result = calloc((size_t)cells, sizeof *result);
    result[0] = 1;
    for (; n > 0; n /= 2) {
        if (n % 2 == 1)
            result = convolution(base, result, cells);
        if (n > 1)
            base = convolution(base, base, cells);
    }
    return result;
}

/* Horner's rule over the counts; a table of one count alone is a power. */
static double *listed(const struct unit *unit, int cells) {
    double *claim = one_claim(unit, 1, 0, cells);
    int last = unit->table_length - 1, counts = 0;
    for (int n = 0; n <= last; n++)
        counts += unit->table[n] != 0;
    if (counts == 1)
        return power(claim, last, cells);
    double *sum = calloc((size_t)cells, sizeof *sum);
    for (int n = last; n >= 0; n--) {
        if (n < last)
            sum = convolution(claim, sum, cells);
        sum[0] += unit->table[n];
    }
    return sum;
}

/* The start from the logarithms of the probabilities of no claim and of cell 0; of a changed count from those of one claim, and of cell 0
   with a claim, both of the count before it is changed. */
static struct start start_of(const struct unit *unit, double a, double b, double log_none, double log_cell) {
    if (!unit->is_changed)
        return (struct start){1, 0, log_cell};
    double log_one = log(a + b) + log_none;
    if (chance_of(unit, 0) == 0)
        return (struct start){0, 1, log_one};
    double log_nil = log_cell + log(-expm1(log_none - log_cell));
    return (struct start){1, exp(log_one - log_nil), log_nil};
}

/* Panjer's recursion for the counts that have one. */
static double *stepped(const struct unit *unit, int cells) {
    double first = unit->parameter[0], second = unit->parameter[1], some = 1 - chance_of(unit, 0);
    if (strcmp(unit->count, "poisson") == 0)
        return recursion(0, first, start_of(unit, 0, first, -first, -first * some), unit, cells);
    double beta = first / second, a = beta / (1 + beta), b = (second - 1) * a;
    return recursion(a, b, start_of(unit, a, b, -second * log1p(beta), -second * log1p(beta * some)), unit, cells);
}

static double *claims_cells(struct unit *unit, int cells) {
    int steps = strcmp(unit->count, "poisson") == 0 || strcmp(unit->count, "gamma") == 0;
    double *cell, none = none_of(unit);
    if (steps)
        cell = stepped(unit, cells);
    else if (strcmp(unit->count, "binomial") == 0)
        cell = power(one_claim(unit, unit->parameter[1], 1 - unit->parameter[1], cells), (int)unit->parameter[0], cells);
    else
        cell = listed(unit, cells);
    if (!unit->is_changed)
        return cell;
    cell[0] -= steps ? 0 : none;
    for (int s = 0; s < cells; s++)
        cell[s] *= (1 - unit->zero) / (1 - none);
    cell[0] += unit->zero;
    return cell;
}

/* The cells of the sum of all units but one, or of all where none is left out. */
static double *others_cells(struct book *book, int left_out) {
    double *sum = calloc((size_t)book->cells, sizeof *sum);
    sum[0] = 1;
    for (int i = 0; i < book->units; i++) {
        if (i == left_out)
            continue;
        double *more = convolution(unit_cells(&book->unit[i], book->cells), sum, book->cells);
        free(sum);
        sum = more;
    }
    return sum;
}

static double *total_cells(struct book *book) { return others_cells(book, -1); }
