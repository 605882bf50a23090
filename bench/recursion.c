/* Panjer's recursion at the full mean in doubles, with one exponent for all cells and no enclosure at all: what `decl` is measured
   beside (bench/recursion.py). Loss Models, "The recursive method".

     recursion poisson MEAN SHAPE AMOUNTS STEP CELLS AT     (SHAPE is not looked at)
     recursion gamma MEAN SHAPE AMOUNTS STEP CELLS AT
     recursion book CELLS AT

   The amounts are AMOUNTS many from 1 on, STEP apart, equally likely. It prints the distribution at AT. `book` is the portfolio of examples/portfolio.decl. */
#include <math.h>
#include <stdio.h>
#include <stdlib.h>
#include <string.h>

struct severity {
    int items;
    const int *amount;
    const double *probability;
};

/* The cells of a count whose weights step by a + b / n, from the logarithm of the probability of no claim. */
static double *recursion(double a, double b, double log_start, struct severity claim, int cells) {
    double *cell = malloc((size_t)cells * sizeof *cell);
    double scaled = log_start; /* each true cell is cell * exp(scaled) */
    cell[0] = 1;
    for (int s = 1; s < cells; s++) {
        double sum = 0;
        for (int k = 0; k < claim.items && claim.amount[k] <= s; k++)
            sum += (a + b * claim.amount[k] / s) * claim.probability[k] * cell[s - claim.amount[k]];
        cell[s] = sum;
        if (sum > 0x1p400) {
            for (int k = 0; k <= s; k++)
                cell[k] *= 0x1p-400;
            scaled += 400 * log(2);
        }
    }
    double factor = exp(scaled);
    for (int s = 0; s < cells; s++)
        cell[s] = factor > 0 && isfinite(factor) ? cell[s] * factor : exp(log(cell[s]) + scaled);
    return cell;
}

static double *poisson(double mean, struct severity claim, int cells) {
    return recursion(0, mean, -mean, claim, cells);
}

static double *gamma_count(double mean, double shape, struct severity claim, int cells) {
    double a = mean / (shape + mean);
    return recursion(a, (shape - 1) * a, -shape * log1p(mean / shape), claim, cells);
}

static double *convolution(const double *x, const double *y, int cells) {
    double *sum = calloc((size_t)cells, sizeof *sum);
    for (int i = 0; i < cells; i++)
        for (int j = 0; i + j < cells; j++)
            sum[i + j] += x[i] * y[j];
    return sum;
}

static double *book(int cells) {
    const int motor[] = {1, 2, 5, 10, 50}, property[] = {5, 10, 20, 60};
    const double motor_p[] = {0.4, 0.3, 0.2, 0.08, 0.02}, property_p[] = {0.5, 0.3, 0.15, 0.05};
    double *first = poisson(20, (struct severity){5, motor, motor_p}, cells);
    double *second = gamma_count(260.0 / 23, 16, (struct severity){4, property, property_p}, cells);
    double *claim = calloc((size_t)cells, sizeof *claim), *third = calloc((size_t)cells, sizeof *third);
    claim[5] = 0.5, claim[20] = 0.375, claim[30] = 0.125;
    double *two = convolution(claim, claim, cells);
    for (int s = 0; s < cells; s++) {
        int kept = s <= 30 ? s : s <= 50 ? 30 : s - 20;
        third[kept] += (s == 0 ? 0.5 : 0) + 0.3 * claim[s] + 0.2 * two[s];
    }
    return convolution(convolution(first, second, cells), third, cells);
}

int main(int words, char **word) {
    double *cell;
    int cells = atoi(word[words - 2]), at = atoi(word[words - 1]);
    if (strcmp(word[1], "book") == 0) {
        cell = book(cells);
    } else {
        double mean = atof(word[2]), shape = atof(word[3]);
        int items = atoi(word[4]), step = atoi(word[5]);
        int *amount = malloc((size_t)items * sizeof *amount);
        double *probability = malloc((size_t)items * sizeof *probability);
        for (int k = 0; k < items; k++)
            amount[k] = 1 + k * step, probability[k] = 1.0 / items;
        struct severity claim = {items, amount, probability};
        cell = strcmp(word[1], "poisson") == 0 ? poisson(mean, claim, cells) : gamma_count(mean, shape, claim, cells);
    }
    double below = 0;
    for (int s = 0; s <= at; s++)
        below += cell[s];
    printf("cdf:%d %.6f\n", at, below);
    return 0;
}
