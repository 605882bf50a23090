/* A book in doubles by the fast transform of FFTW, on a grid of twice the length: what lies past that wraps round (bench/book.h). The
   spectrum of each unit is made once, the total is the product of all, and the sum of all units but one that of those before it and of
   those after it. Where no ask names a unit, no spectrum is kept but that of the total. Cells are made of a spectrum where an ask or an
   aggregate clause reads them. */
#include "book.h"
#include <complex.h>
#include <fftw3.h>

/* The plans of a run, which has one length, and their room. */
static struct {
    double *real;
    double complex *turned;
    fftw_plan forward, back;
} room;

static int passes_points; /* whether the total of several units has its mean past all points of a transform */

static double complex *new_spectrum(int cells) { return fftw_alloc_complex((size_t)cells + 1); }

static void plan(int cells) {
    if (room.real != NULL)
        return;
    room.real = fftw_alloc_real((size_t)(2 * cells));
    room.turned = new_spectrum(cells);
    room.forward = fftw_plan_dft_r2c_1d(2 * cells, room.real, room.turned, FFTW_ESTIMATE);
    room.back = fftw_plan_dft_c2r_1d(2 * cells, room.turned, room.real, FFTW_ESTIMATE);
}

static double complex *forward(const double *cell, int cells) {
    plan(cells);
    double complex *spectrum = new_spectrum(cells);
    memcpy(room.real, cell, (size_t)cells * sizeof *cell);
    memset(room.real + cells, 0, (size_t)cells * sizeof *cell);
    fftw_execute_dft_r2c(room.forward, room.real, spectrum);
    return spectrum;
}

static double *back(const double complex *spectrum, int cells) {
    plan(cells);
    double *cell = malloc((size_t)cells * sizeof *cell);
    memcpy(room.turned, spectrum, ((size_t)cells + 1) * sizeof *spectrum);
    fftw_execute(room.back);
    for (int s = 0; s < cells; s++)
        cell[s] = room.real[s] / (2 * cells);
    return cell;
}

static double complex *product(const double complex *a, const double complex *b, int cells) {
    double complex *spectrum = new_spectrum(cells);
    for (int k = 0; k <= cells; k++)
        spectrum[k] = a[k] * b[k];
    return spectrum;
}

static double complex power(double complex x, int n) {
    double complex result = 1;
    for (; n > 0; n /= 2) {
        if (n % 2 == 1)
            result *= x;
        x *= x;
    }
    return result;
}

/* The generating function of a table, from its first count that has a weight on. */
static double complex tabled(const struct unit *unit, double complex x) {
    double complex sum = 0;
    int first = 0;
    while (unit->table[first] == 0)
        first++;
    for (int n = unit->table_length - 1; n >= first; n--)
        sum = sum * x + unit->table[n];
    return sum * power(x, first);
}

/* The generating function of the claim count, before its zero is changed. */
static double complex base(const struct unit *unit, double complex x) {
    double first = unit->parameter[0], second = unit->parameter[1];
    if (strcmp(unit->count, "poisson") == 0)
        return cexp(first * (x - 1));
    if (strcmp(unit->count, "binomial") == 0)
        return power(1 + second * (x - 1), (int)first);
    if (strcmp(unit->count, "gamma") != 0)
        return tabled(unit, x);
    double complex each = 1 - first / second * (x - 1);
    return second == (int)second ? power(1 / each, (int)second) : cexp(-second * clog(each));
}

static double complex generated(const struct unit *unit, double complex x, double none) {
    double complex plain = base(unit, x);
    return unit->is_changed ? unit->zero + (1 - unit->zero) * (plain - none) / (1 - none) : plain;
}

/* The spectrum of the sum of a unit's claims. */
static double complex *claims_spectrum(const struct unit *unit, int cells) {
    double *claim = calloc((size_t)cells, sizeof *claim);
    for (int k = 0; k < unit->items; k++)
        if (unit->amount[k] < cells)
            claim[unit->amount[k]] += unit->probability[k];
    double complex *spectrum = forward(claim, cells);
    double none = none_of(unit);
    for (int k = 0; k <= cells; k++)
        spectrum[k] = generated(unit, spectrum[k], none);
    free(claim);
    return spectrum;
}

/* Whether a unit's cells are made before its spectrum: an aggregate clause acts on them, and where a total would wrap round, each unit
   ends at the end of the grid. */
static int is_cut(const struct unit *unit) { return unit->limit != 0 || passes_points; }

static const double complex *spectrum_of(struct unit *unit, int cells) {
    if (unit->spectrum == NULL)
        unit->spectrum = is_cut(unit) ? forward(unit_cells(unit, cells), cells) : claims_spectrum(unit, cells);
    return unit->spectrum;
}

static double *claims_cells(struct unit *unit, int cells) {
    return back(is_cut(unit) ? claims_spectrum(unit, cells) : spectrum_of(unit, cells), cells);
}

static double complex *nothing(int cells) {
    double complex *spectrum = new_spectrum(cells);
    for (int k = 0; k <= cells; k++)
        spectrum[k] = 1;
    return spectrum;
}

/* The product of the spectra of the units before this one, and that of those from this one on. */
static const double complex *before(struct book *book, int unit) {
    static const double complex *made[MOST_UNITS + 1];
    if (made[unit] == NULL)
        made[unit] = unit == 0 ? nothing(book->cells)
                               : product(before(book, unit - 1), spectrum_of(&book->unit[unit - 1], book->cells), book->cells);
    return made[unit];
}

static const double complex *from(struct book *book, int unit) {
    static const double complex *made[MOST_UNITS + 1];
    if (made[unit] == NULL)
        made[unit] = unit == book->units
                         ? nothing(book->cells)
                         : product(spectrum_of(&book->unit[unit], book->cells), from(book, unit + 1), book->cells);
    return made[unit];
}

/* Whether an ask names a unit. */
static int names_units(const struct book *book) {
    for (int i = 0; i < book->asks; i++)
        if (strcmp(book->ask[i].kind, "joint") == 0 || strcmp(book->ask[i].kind, "kappa") == 0 ||
            strcmp(book->ask[i].kind, "cotail") == 0)
            return 1;
    return 0;
}

/* The product of the spectra of all units, which are not kept. */
static double complex *all_units(struct book *book) {
    double complex *all = nothing(book->cells);
    for (int i = 0; i < book->units; i++) {
        const double complex *one = spectrum_of(&book->unit[i], book->cells);
        for (int k = 0; k <= book->cells; k++)
            all[k] *= one[k];
        fftw_free(book->unit[i].spectrum);
        book->unit[i].spectrum = NULL;
    }
    return all;
}

static double *total_cells(struct book *book) {
    passes_points = book->units > 1 && book->mean > 2 * book->cells;
    return back(names_units(book) ? before(book, book->units) : all_units(book), book->cells);
}

static double *others_cells(struct book *book, int left_out) {
    double complex *others = product(before(book, left_out), from(book, left_out + 1), book->cells);
    double *cell = back(others, book->cells);
    fftw_free(others);
    return cell;
}
