"""Each figure of a page is that of a call of the program, rounded outward. A page is read, its programs are asked again, apart from the client,
and what the client works out is worked out here anew, or outside of both."""

import unittest
from fractions import Fraction

from apart import Year
from paged import Page, asked, shown_ends
from support import BOOK, ROOT, Case, decl, main

#: What the client works out of the text, without an ask of the program; tests of moments and of books have their values.
OWN = ("deviation", "skewness", "year")


def example(name):
    """The text of an example."""
    return (ROOT / "examples" / f"{name}.decl").read_text(encoding="utf-8")


class Figures(Case):
    """Reads a page and compares its figures."""

    def rounded_outward(self, page):
        """What is shown holds the exact ends, and goes past them by less than one of its last digit."""
        for cell in page.cells:
            if cell.ends == (None, None) and not cell.ask:
                continue
            (low, high), places = shown_ends(cell.shown)
            self.assertEqual([end is None for end in (low, high)], [end is None for end in cell.ends], cell)
            for shown, exact, past in ((low, cell.ends[0], 1), (high, cell.ends[1], -1)):
                self.assertTrue(shown is None or 0 <= (exact - shown) * past < Fraction(1, 10**places), cell)

    def same(self, page, cells, program):
        """The exact ends of cells are those of calls of this program."""
        for rules in {cell.rules for cell in cells}:
            chosen = [cell for cell in cells if cell.rules == rules]
            found = asked(program, [cell.ask for cell in chosen], rules)
            for cell in chosen:
                self.assertEqual(cell.ends, found[cell.ask], cell)

    def of_a_book(self, page):
        """All figures of a page on a book but those of its sides."""
        program, cells = page.programs[""], [cell for cell in page.cells if cell.ask and not cell.book]
        plain = [cell for cell in cells if cell.ask.split(":")[0] not in OWN and cell.section != "Gross, ceded and net"]
        units = [cell for cell in plain if cell.ask == "mean" and mean_of(cell, program)]
        self.same(page, [cell for cell in plain if cell not in units], program)
        for cell in units:
            self.same(page, [cell], program.alone(mean_of(cell, program)))
        self.rounded_outward(page)
        return len(plain)


def mean_of(cell, program):
    """The unit of which a cell has the mean; empty where it is that of the total."""
    name = cell.line[len("mean of ") :] if cell.line.startswith("mean of ") else cell.line
    return name if program.has(name) else ""


class OfBooks(Figures):
    def test_a_portfolio(self):
        page = Page(decl.Book(BOOK).page([10, 200, "7/2"], currency="EUR", date="2026-12-01"))
        self.assertGreater(self.of_a_book(page), 50)
        self.assertIn("Amounts are in EUR. Date: 2026-12-01.", page.told)
        sections = list(dict.fromkeys(cell.section for cell in page.cells))
        wanted = ["Return periods", "Gross, ceded and net", "Layers of the year", "Each unit's share of the TVaR", "Each unit's share of a year"]
        self.assertEqual(sections, [*wanted, "What the book is worth"])

    def test_a_book_in_large_money_and_one_of_named_severities(self):
        for name in ("money", "named", "profile"):
            self.assertGreater(self.of_a_book(Page(decl.Book(example(name)).page([10, 100]))), 20, name)

    def test_the_years_that_are_asked_are_there(self):
        page = Page(decl.Book(BOOK).page([3, 30, 300, 20000]))
        self.assertEqual(list(dict.fromkeys(line for line, _ in page.of("Return periods"))), ["3", "30", "300", "20000"])
        columns = list(dict.fromkeys(column for _, column in page.of("Each unit's share of the TVaR")))
        self.assertEqual(columns, ["mean", "3 years", "30 years", "300 years", "20,000 years"])

    def test_shares_add_up_to_the_total(self):
        """Of each column the low ends add up to at most the total, and the high ends to at least it; so do those of the extended rules."""
        for text in (BOOK, example("common")):
            page = Page(decl.Book(text).page([10, 100, 20000]))
            for section in ("Each unit's share of the TVaR", "Each unit's share of a year"):
                cells = page.of(section)
                self.assertEqual(next(iter(cells))[1], "mean", "the mean comes first")
                for column in dict.fromkeys(column for _, column in cells):
                    ends = {line: cell.ends for (line, name), cell in cells.items() if name == column}
                    total = ends.pop("total")
                    if None in {end for pair in ends.values() for end in pair}:
                        continue
                    self.assertLessEqual(sum(low for low, _ in ends.values()), total[1], column)
                    self.assertGreaterEqual(sum(high for _, high in ends.values()), total[0], column)

    def test_a_common_factor(self):
        """Shares of the TVaR by the extended rules hold what is added up here from the program's joint means, with nine digits."""
        page = Page(decl.Book(example("common")).page([10, 100]))
        self.of_a_book(page)
        program = page.programs[""]
        fine = type(program)(program.text, program.bs, program.log2, "9")
        self.assertIn("the shares are those of the program's extended rules", page.told)
        cells = [cell for cell in page.cells if cell.ask.startswith("cotail:")]
        self.assertEqual([cell.rules for cell in cells], ["extended"] * 6)
        for cell in cells:
            _, unit, p = cell.ask.split(":")
            at = asked(program, [f"q:{p}"])[f"q:{p}"][0]
            joints = list(asked(fine, [f"joint:{unit}:{x}" for x in range(int(at) + 1)]).values())
            reached, chance = asked(fine, [f"cdf:{at}", f"pmf:{at}"]).values()
            mean, left, p = asked(fine.alone(unit), ["mean"])["mean"], sum(reached) / 2 - Fraction(p), Fraction(p)
            value = (sum(mean) / 2 - sum(sum(ends) / 2 for ends in joints) + left * sum(joints[-1]) / sum(chance)) / (1 - p)
            self.assertTrue(abs(value - sum(cell.ends) / 2) < Fraction(1, 1000) > cell.ends[1] - cell.ends[0] >= 0, cell)


class Sides(Figures):
    """Gross, ceded and net: of calls of each program, and worked outside."""

    CLAIM = {10: 50, 20: 25, 50: 15, 100: 8, 300: 2}
    START, END = "agg Fire 3 claims dsev [10 20 50 100 300] [0.5 0.25 0.15 0.08 0.02]", "poisson"

    def sides(self, text, years=(10, 100)):
        """The page on a book, and its cells of the three sides, compared with calls of their programs."""
        page = Page(decl.Book(text).page(years))
        cells = page.of("Gross, ceded and net")
        for side in ("gross", "ceded", "net"):
            if side in page.programs:
                program = page.programs[side]
                own = [cell for cell in cells.values() if cell.column == side and not cell.line.startswith("mean of ")]
                self.same(page, own, program)
                for cell in cells.values():
                    if cell.column == side and cell.line.startswith("mean of "):
                        unit = cell.line[len("mean of ") :]
                        self.assertEqual(cell.ends, asked(program.alone(unit), ["mean"])["mean"] if program.has(unit) else (0, 0), cell)
        self.rounded_outward(page)
        return page, cells

    def holds(self, cells, line, values):
        """The cells of a line hold the values of its columns."""
        for column, value in values.items():
            low, high = cells[line, column].ends
            self.assertTrue(low <= value <= high, (line, column, low, high, value))

    def year(self, kept):
        """The year of what is kept of each claim, in tens."""
        severity = {}
        for amount, weight in self.CLAIM.items():
            severity[kept(amount) // 10] = severity.get(kept(amount) // 10, 0) + weight
        return Year.poisson(3, severity, 512)

    def test_an_occurrence_clause(self):
        """80 xs 20 of each claim: three years worked by the second opinion's cells, whichever side the text declares."""
        years = {
            "gross": self.year(lambda x: x),
            "ceded": self.year(lambda x: min(max(x - 20, 0), 80)),
            "net": self.year(lambda x: x - min(max(x - 20, 0), 80)),
        }
        for way, side in (("net of", "net"), ("ceded to", "ceded")):
            page, cells = self.sides(f"{self.START} occurrence {way} 80 xs 20 {self.END}")
            self.holds(cells, "mean", {name: 10 * year.mean for name, year in years.items()})
            for n in (10, 100):
                p = 1 - Fraction(1, n)
                self.holds(cells, f"VaR {n} years", {name: 10 * year.q(p) for name, year in years.items()})
                self.holds(cells, f"TVaR {n} years", {name: 10 * year.tail(p) for name, year in years.items()})
            self.assertIn(f"All else on this page is {side}.", page.told)
            self.assertNotIn("not declared", page.told)

    def test_an_aggregate_clause_of_one_of_two_units(self):
        """A stop loss of 150 xs 150 over the year of Fire, beside two dice without a clause: those are in gross and net, and nothing of
        them is ceded."""
        text = f"port Two\n{self.START} {self.END} aggregate net of 150 xs 150\nagg Dice dfreq [2] dsev [10:60:10]"
        page, cells = self.sides(text)
        fire = self.year(lambda x: x)
        dice = Year([0] * 512, 7)
        for one in range(1, 7):
            for other in range(1, 7):
                dice.cells[one + other] += Year.poisson(0, {1: 1}, 1).cells[0] // 36
        ceded = fire.after(lambda x: min(max(x - 15, 0), 15), fire.layer(15, 15))
        net = fire.after(lambda x: x - min(max(x - 15, 0), 15), fire.mean - fire.layer(15, 15)) + dice
        years = {"gross": fire + dice, "ceded": ceded, "net": net}
        self.holds(cells, "mean of Fire", {"gross": 10 * fire.mean, "ceded": 10 * ceded.mean, "net": 10 * (fire.mean - ceded.mean)})
        self.holds(cells, "mean of Dice", {"gross": 70, "ceded": 0, "net": 70})
        self.holds(cells, "mean", {name: 10 * year.mean for name, year in years.items()})
        for n in (10, 100):
            p = 1 - Fraction(1, n)
            self.holds(cells, f"VaR {n} years", {name: 10 * year.q(p) for name, year in years.items()})
        self.assertNotIn("agg Dice", page.programs["ceded"].text)

    def test_both_clauses(self):
        """Two claims of 0, 40 or 80 with 1 in 4, 1 in 2 and 1 in 4, half of what lies above 40 ceded, then 40 xs 40 of the year. Claims leave 0,
        40 or 60, and years 0, 40, 60, 80, 100 or 120 with 1, 4, 2, 4, 4 and 1 in 16, of which the stop loss leaves 40, 40, 40, 60 and 80."""
        text = "agg A dfreq [2] dsev [0 40 80] [1/4 1/2 1/4] occurrence net of 0.5 so inf xs 40 aggregate net of 40 xs 40"
        page, cells = self.sides(text, [4])
        self.assertEqual(sorted(page.programs), ["", "gross", "net"])
        net = Fraction(40 * (4 + 2 + 4) + 60 * 4 + 80, 16)
        self.holds(cells, "mean", {"gross": 80, "net": net, "ceded": 80 - net})
        self.assertEqual(cells["VaR 4 years", "ceded"].shown, "not declared")
        self.holds(cells, "VaR 4 years", {"gross": 120, "net": 60})
        self.assertIn("an occurrence and an aggregate clause act in one unit", page.told)

    def test_a_treaty_with_a_limit_of_the_year(self):
        """What the occurrence clause cedes, up to 20 of the year: one claim of 10 or 50 with 1 in 2 each, 40 xs 10 of it."""
        page, cells = self.sides("agg A dfreq [1] dsev [10 50] occurrence ceded to 40 xs 10 aggregate ceded to 20 xs 0", [4])
        self.holds(cells, "mean", {"gross": 30, "ceded": 10, "net": 20})
        self.assertEqual(cells["VaR 4 years", "net"].shown, "not declared")
        self.holds(cells, "VaR 4 years", {"gross": 50, "ceded": 20})
        self.assertIn("All else on this page is ceded.", page.told)

    def test_layers(self):
        """Before layers: two claims of 5, 15 or 30 above an attachment of 10 are 20 each, where `!` counts all claims they are 50/3; with half a
        claim of 100 below a limit of 50 the expected loss of 25 is half a claim in the layer too."""
        units = ["agg A 2 claims 10 xs 10 dsev [5 15 25]", "agg B 2 claims 10 xs 10 dsev [5 15 30] !", "agg C 25 loss 50 xs 0 dsev [100]"]
        values = {"A": (40, 15), "B": (Fraction(100, 3), 10), "C": (50, 25)}
        text = "port Three\n" + "\n".join(f"{unit} occurrence net of 5 xs 5 poisson" for unit in units)
        _, cells = self.sides(text, [10])
        for name, (before, gross) in values.items():
            self.holds(cells, f"mean of {name}", {"before layers": before, "gross": gross})
        self.holds(cells, "mean", {"before layers": 90 + Fraction(100, 3), "gross": 50})

    def test_under_a_common_factor(self):
        """Clauses of units that share a factor: claims above 40 of A are ceded in half."""
        text = "port C common 0.5\nagg A 1 claims dsev [40 80] occurrence net of 0.5 so inf xs 40 poisson\nagg B 2 claims dsev [20] poisson"
        page, cells = self.sides(text, [10])
        self.holds(cells, "mean of A", {"gross": 60, "ceded": 10, "net": 50})
        self.holds(cells, "mean", {"gross": 100, "ceded": 10, "net": 90})
        self.assertTrue(page.programs["ceded"].text.startswith("port C common 0.5\nagg A"))

    def test_units_that_differ_in_what_is_declared(self):
        """One unit whose ceded side no program declares and one whose net side none does: means add up, and VaR and TVaR are gross alone."""
        one = "agg A dfreq [1] dsev [40 80] occurrence net of 0.5 so inf xs 40 aggregate net of 20 xs 20"
        other = "agg B dfreq [1] dsev [10 50] occurrence ceded to 40 xs 10 aggregate ceded to 20 xs 0"
        page, cells = self.sides(f"port Two\n{one}\n{other}", [4])
        self.holds(cells, "mean of A", {"gross": 60, "net": 30, "ceded": 30})
        self.holds(cells, "mean of B", {"gross": 30, "net": 20, "ceded": 10})
        self.holds(cells, "mean", {"gross": 90, "net": 50, "ceded": 40})
        self.assertEqual([cells["VaR 4 years", side].shown for side in ("ceded", "net")], ["not declared"] * 2)
        self.assertIn("All else on this page is what the program itself declares.", page.told)

    def test_none(self):
        """A program without clauses has no such table; nor have pooled lines, whose clauses are in their amounts."""
        self.assertFalse(Page(decl.Book(example("dice")).page([10])).of("Gross, ceded and net"))
        rows = [{"name": f"L{at}", "claims": 0.25, "amounts": [1, 2], "occurrence": "net of 1 xs 1"} for at in range(257)]
        page = Page(decl.from_frame(rows).page([10]))
        self.assertFalse(page.of("Gross, ceded and net"))
        self.assertIn("Lines are pooled after their clauses", page.told)


class OfTwoPrograms(Figures):
    """A book between two programs: the low end of a figure is that of one, and its high end that of the other."""

    def held(self, page):
        """The figures of the page are those of calls of the two programs."""
        self.assertEqual(list(page.programs)[:2], ["below", "above"])
        for cell in page.cells:
            unit = cell.line[len("mean of ") :] if cell.line.startswith("mean of ") else ""
            names = [f"{cell.book}, {end}" if cell.book else end for end in ("below", "above")]
            if not cell.ask or cell.ask.split(":")[0] in OWN or names[0] not in page.programs or (cell.book and unit):
                continue
            below, above = (page.programs[name].alone(unit) if unit else page.programs[name] for name in names)
            first, last = (above, below) if cell.ask.startswith("cdf:") else (below, above)
            self.assertEqual(cell.ends[0], asked(first, [cell.ask])[cell.ask][0], cell)
            self.assertTrue(cell.ends[1] is None or cell.ends[1] == asked(last, [cell.ask])[cell.ask][1], cell)
        self.rounded_outward(page)

    def test_a_coarser_bucket(self):
        """Two dice and a coin of 0 or 1/2 on buckets of 1: each figure holds its value, worked over all outcomes."""
        page = Page(decl.coarser("port T agg Dice dfreq [2] dsev [1:6] agg Coin dfreq [1] dsev [0 1/2]", 1).page([2, 10], currency="EUR"))
        self.held(page)
        totals = [Fraction(one + other) + Fraction(coin, 2) for one in range(1, 7) for other in range(1, 7) for coin in (0, 1)]
        for n in (2, 10):
            worst = sorted(totals)[len(totals) - len(totals) // n :] if len(totals) % n == 0 else None
            values = {"VaR": sorted(totals)[-(-len(totals) * (n - 1) // n) - 1]}
            if worst:
                values["TVaR"] = sum(worst) / len(worst)
            for column, value in values.items():
                low, high = page.of("Return periods")[str(n), column].ends
                self.assertTrue(low <= value <= high, (n, column))
        self.assertIn("The book lies between two programs on buckets of 1:", page.told)
        self.assertIn("Shares of the units are not here", page.told)

    def test_a_continuous_severity(self):
        page = Page(decl.between("agg C 3 claims 500 xs 0 sev lognorm 50 cv 1.75 poisson", 10).page([10, 100]))
        self.held(page)
        self.assertNotIn("or more", "".join(cell.shown for cell in page.cells))

    def test_gross_ceded_and_net(self):
        """Of a claim of 10 or 37 half of what lies above 20 is ceded, and nothing of two dice; and of lognormal claims 100 xs 100."""
        text = "port T agg A dfreq [1] dsev [10 37] # half of 17\n occurrence net of 0.5 so inf xs 20 agg B dfreq [2] dsev [1:6]"
        page = Page(decl.coarser(text, 2).page([2, 10]))
        self.held(page)
        self.assertEqual(len(page.programs), 8)
        cells = page.of("Gross, ceded and net")
        for line, values in (("mean of A", (23.5, 4.25, 19.25)), ("mean of B", (7, 0, 7)), ("mean", (30.5, 4.25, 26.25))):
            for side, value in zip(("gross", "ceded", "net"), values):
                low, high = cells[line, side].ends
                self.assertTrue(low <= Fraction(value) <= high < low + 5, (line, side))
        for clause in ("occurrence net of 100 xs 100", "occurrence ceded to 100xs  100"):
            page = Page(decl.between(f"agg C 1 claims sev lognorm 50 cv 1.75 {clause} poisson", 10, log2=8).page([10]))
            self.held(page)
            cells = page.of("Gross, ceded and net")
            gross, ceded, net = (cells["VaR 10 years", side].ends for side in ("gross", "ceded", "net"))
            self.assertTrue(ceded[1] <= gross[1] and net[1] <= gross[1])
            self.assertIn(f"All else on this page is {'net' if 'net' in clause else 'ceded'}.", page.told)
            self.assertTrue(cells["mean", "gross"].shown.endswith("or more") and " to " in cells["mean", "ceded"].shown)

    def test_claims_without_a_limit(self):
        """What rests on claims of any size has no high end, and a sentence says why."""
        page = Page(decl.between("agg C 1 claims sev lognorm 50 cv 1 poisson", 20, log2=8).page([10]))
        self.held(page)
        self.assertTrue(page.of("Return periods")["10", "TVaR"].shown.endswith(" or more"))
        self.assertIn("Claims have no limit, and the program from above holds the total below", page.told)


class Compared(Figures):
    """Books side by side."""

    def test_structures(self):
        """Each figure is that of its own program, and each difference that of two of them."""
        start = "agg Fire 3 claims dsev [10 20 50 100 300] [0.5 0.25 0.15 0.08 0.02]"
        books = {"gross": f"{start} poisson", "80 xs 20": decl.Book(f"{start} occurrence net of 80 xs 20 poisson")}
        books["held"] = decl.coarser(books["gross"], 25)
        written = decl.compare_page(books, [10, 100], title="Three", currency="EUR", date="2026-12-01")
        page = Page(written)
        self.assertEqual(list(page.programs), ["gross", "80 xs 20", "held, below", "held, above"])
        cells = page.of("Side by side")
        for name in ("gross", "80 xs 20"):
            self.same(page, [cell for cell in cells.values() if cell.column == name], page.programs[name])
        for cell in page.of("Less gross").values():
            one, other = cells[cell.line, cell.column].ends, cells[cell.line, "gross"].ends
            self.assertEqual(cell.ends, (one[0] - other[1], one[1] - other[0]), cell)
        self.assertEqual(cells["VaR 100 years", "gross"].shown, "440")
        self.assertEqual(page.of("Less gross")["VaR 100 years", "80 xs 20"].shown, "-150")
        self.rounded_outward(page)
        self.assertEqual(written.count('aria-label="exceedance curves"'), 2)
        self.assertEqual(written.count('class="book" data-book="80 xs 20"'), 2)

    def test_one_book_and_none(self):
        self.assertNotIn("Less", Page(decl.compare_page({"one": example("dice")}, [10])).told)
        self.assertRaises(ValueError, decl.compare_page, {})

    def test_a_book_that_is_refused(self):
        fault = self.raises(decl.RuleFault, decl.compare_page, {"good": example("dice"), "bad": "agg D dfreq [1] dsev [1 2] [1/3 1/3]"})
        self.assertTrue(str(fault).startswith("book bad: decl: 1:28"), str(fault))


class Rounding(unittest.TestCase):
    """How a figure is shown."""

    def test_figures(self):
        from decl.sheets import figure

        rows = [(("mean", "465.6967", "465.6968"), "465.69 to 465.70"), (("q:0.9", 425, 425), "425"), (("mean", "1.25", "1.25"), "1.25")]
        rows += [(("mean", "12345678.2", "12345678.3"), "12,345,678 to 12,345,679"), (("mean", "43875", "43875.01"), "43,875 to 43,876")]
        rows += [(("mean", "0.0000432", "0.0000433"), "0.0000432 to 0.0000433"), (("mean", 0, "0.000001"), "0.000000 to 0.000001")]
        rows += [(("sf:1", "0.0099999", "0.01"), "0.9999% to 1.0000%"), (("cdf:1", "0.9999994", 1), "99.99994% to 100.00000%")]
        rows += [(("cdf:1", 1, 1), "100%"), (("cdf:1", "1/3", "1/3"), "33.333% to 33.334%"), (("sf:1", 0, 0), "0%")]
        rows += [(("mean less gross", "-37.50002", "-37.49998"), "-37.501 to -37.499"), (("tail:0.9", "39.87832", None), "39.878 or more")]
        for (ask, low, high), shown in rows:
            ends = [None if end is None else Fraction(end) for end in (low, high)]
            row = decl.Row(ask, *ends, ("low", "beyond" if high is None else "high"), True)
            self.assertEqual(figure(row), shown)
        self.assertEqual(figure(decl.Row("tail:0.9", None, None, ("beyond", "beyond"), True)), "past the grid")
        self.assertEqual(figure(decl.Row("kappa:A:1", None, None, ("-", "-"), True)), "none")


if __name__ == "__main__":
    main()
