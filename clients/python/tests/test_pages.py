"""The command `python -m decl`, and what it draws on a page. Each figure of a page is compared with calls of the program in
test_page_figures.py, and pages are opened in Chromium in test_browser.py."""

import html
import math
import os
import pathlib
import re
import subprocess
import sys
from fractions import Fraction
from xml.etree import ElementTree

from support import ROOT, Case, decl, main
from decl import areas, drawing, pages, pictures

DICE = str(ROOT / "examples" / "dice.decl")
SOURCE = str(ROOT / "clients" / "python" / "src")
SVG = "{http://www.w3.org/2000/svg}"


def command(*words, given=""):
    """The status and both outputs of `python -m decl`."""
    world = {**os.environ, "PYTHONPATH": SOURCE, "PYTHONIOENCODING": "utf-8"}
    done = subprocess.run([sys.executable, "-m", "decl", *words], input=given, env=world, capture_output=True, text=True)
    return done.returncode, done.stdout, done.stderr


class Commands(Case):
    def test_rules(self):
        given = "agg G 2 claims dsev [100 300] mixed gamma 0.25"
        for words in (["mean"], ["--money", "mean"], ["--table", "10"], ["--coarser", "100", "mean"], ["--between", "--bs", "100", "mean"]):
            standard, extended = (command("-", *words, "--rules", rules, given=given) for rules in ("standard", "extended"))
            self.assertEqual((standard[0], standard), (0, extended), words)
            other = given.replace("0.25", "0.3")
            self.assertEqual(command("-", *words, "--rules", "extended", given=other)[0], 0, words)
            self.assertEqual(command("-", *words, given=other)[0], 3, words)
        self.assertEqual(command("check", "-", "--rules", "extended", given=other)[0], 0)
        self.assertEqual(command("-", "mean", "--rules", "wide", given=given)[0], 2)

    def test_help_and_version(self):
        status, written, _ = command("--help")
        self.assertEqual(status, 0)
        for word in ("--money", "--table", "report FILE -o book.html", "kappa:NAME:x", "price:W@P+W@P..", "cotail:NAME:p", "compare FILE FILE"):
            self.assertIn(word, written)
        self.assertEqual(command("--version"), (0, f"decl-client {decl.__version__}\n", ""))

    def test_asks_of_a_file(self):
        self.assertEqual(command(DICE, "pmf:2", "mean", "q:0.99"), (0, "pmf:2 0.027777 0.027778\nmean 7.000000 7.000000\nq:0.99 12 12\n", ""))
        text = pathlib.Path(DICE).read_text()
        self.assertEqual(command("-", "--digits", "2", "pmf:2", given=text), (0, "pmf:2 0.02 0.03\n", ""))
        self.assertEqual(command(DICE, "--format", "csv", "q:0.9")[1], "ask,low,high\nq:0.9,10,10\n")
        self.assertEqual(command(DICE, "--rules", "extended", "cotail:Dice:0")[1], "cotail:Dice:0 7.000000 7.000000\n")

    def test_money(self):
        """Two dice in thousands: 3.5 of each, and of what lies above 11,500 the 500 of one outcome in 36."""
        text = "agg Dice dfreq [2] dsev [1000:6000:1000]"
        asks = ["mean", "q:0.9", "cdf:4500", "sf:4500", "pmf:7000", "layer:infxs11500", "joint:Dice:7000"]
        asks += ["price:1/2@0+1/2@0.9", "cotail:Dice:0.9"]
        status, written, told = command("-", "--money", *asks, given=text)
        self.assertEqual((status, told), (0, ""))
        rows = [line.split() for line in written.splitlines()]
        self.assertEqual([row[0] for row in rows], asks)
        values = (7000, 10000, Fraction(1, 6), Fraction(5, 6), Fraction(1, 6), Fraction(500, 36), Fraction(7000, 6))
        values += (Fraction(163000, 18), Fraction(100000, 9))
        for (ask, low, high), value in zip(rows, values):
            self.assertTrue(Fraction(low) <= value <= Fraction(high), ask)

    def test_a_coarser_bucket(self):
        """Four claims of 17 or 230 and more: their mean of 1,960 lies between those of the two programs."""
        text = "agg Exact 4 claims dsev [17 230 1150 4800] [0.5 0.3 0.15 0.05] poisson"
        status, written, _ = command("-", "--coarser", "50", "mean", "q:0.99", given=text)
        self.assertEqual((status, written), (0, "mean 1889.99995 2050\nq:0.99 10000 10250\n"))
        self.assertIn("10 ", command("-", "--coarser", "50", "--table", "10", given=text)[1])
        self.assertEqual(command("-", "--coarser", "50", "pmf:5", given=text)[0], 1)
        self.assertIn("<h2>The two programs</h2>", command("report", "-", "--coarser", "50", given=text)[1])

    def test_a_table(self):
        status, written, _ = command("-", "--table", "10,100", given="agg Dice dfreq [2] dsev [1000:6000:1000]")
        self.assertEqual((status, written.split()[:6]), (0, ["years", "VaR", "TVaR", "10", "10000", "11111.11"]))

    def test_faults(self):
        status, written, told = command("-", "mean", given="agg D dfreq [1] dsev [1 2] [1/3 1/3]")
        self.assertEqual((status, written), (3, ""))
        self.assertIn("\n  agg D dfreq [1] dsev [1 2] [1/3 1/3]\n                             ^\n", told)
        rows = [((DICE, "wat"), 2), ((DICE, "--money", "wat"), 2), ((DICE, "--money", "q:2"), 2), ((DICE, "pmf:5000"), 8)]
        rows += [((DICE, "--table", "x"), 2), ((DICE, "--table", "1/2"), 2), (("/nowhere/x.decl", "mean"), 1), ((DICE,), 2)]
        rows += [((DICE, "--money", "kappa:Q:1"), 8), (("report", DICE, "mean"), 2), ((DICE, "--log2", "17", "mean"), 2)]
        rows += [(("compare", DICE), 2), (("compare", DICE, DICE), 2), (("compare", DICE, "/nowhere/x.decl"), 1)]
        for words, wanted in rows:
            status, written, told = command(*words)
            self.assertEqual((status, written), (wanted, ""), words)
            self.assertNotIn("Traceback", told, words)

    def test_a_title_and_a_page_on_the_output(self):
        words = ("--title", "Dice & more", "--table", "2,4", "--currency", "EUR <1>", "--date", "31 December 2026")
        status, written, _ = command("report", DICE, *words)
        self.assertEqual(status, 0)
        self.assertIn("<title>Dice &amp; more</title>", written)
        self.assertIn('<p class="facts">Amounts are in EUR &lt;1&gt;. Date: <span class="whole">31 December 2026</span>.</p>', written)
        self.assertIn('<th scope="row">4</th>', written)
        self.assertIn(">total of a year, in EUR &lt;1&gt;</text>", written)

    def test_a_page_on_two_files(self):
        status, written, _ = command("compare", DICE, str(ROOT / "examples" / "money.decl"), "--table", "10", "--title", "Two")
        self.assertEqual(status, 0)
        self.assertIn("<title>Two</title>", written)
        self.assertIn("<h2>Less dice</h2>", written)


class Pages(Case):
    """Three books: two with several units and a single one, with a limit that a VaR meets."""

    BOOKS = ("portfolio", "money", "profile")

    @classmethod
    def setUpClass(cls):
        os.environ["DECL"] = decl.program.find()
        cls.books = {name: decl.Book((ROOT / "examples" / f"{name}.decl").read_text()) for name in cls.BOOKS}
        cls.pages = {name: book.page() for name, book in cls.books.items()}

    def pictures(self, name, frame="wide"):
        """The pictures of a page for a wide or a narrow window, by their names."""
        found = [ElementTree.fromstring(text) for text in re.findall(r"<svg xmlns.*?</svg>", self.pages[name], re.S)]
        return {picture.get("aria-label"): picture for picture in found if picture.get("data-frame") == frame}

    def test_a_page_fetches_nothing_and_is_of_modest_size(self):
        for name, page in self.pages.items():
            self.assertNotRegex(page.replace('xmlns="http://www.w3.org/2000/svg"', ""), r"https?:|//|<script|@import|url\(|src=", name)
            self.assertEqual(re.findall(r'href="([^"]*)"', page), ["data:,"])
            self.assertLess(len(page), 150_000, name)

    def test_marks_stand_at_their_places(self):
        """By the labels of the axes alone: each mark lies at its total and at its probability, in both pictures."""
        for name in self.BOOKS:
            for frame in ("wide", "narrow"):
                picture = self.pictures(name, frame)["exceedance curve"]
                ticks, powers = ticks_of(picture), powers_of(picture)
                self.assertGreater(min(len(ticks), len(powers)), 2)
                found = marks_of(picture)
                self.assertEqual(len(found), 10, name)
                for mark in found:
                    x, y = float(mark.get("x")), float(mark.get("y")) + 5
                    self.assertAlmostEqual(x + 5, on_line(ticks, float(Fraction(mark.get("data-low")))), delta=0.05)
                    self.assertAlmostEqual(x + float(mark.get("width")) - 5, on_line(ticks, float(Fraction(mark.get("data-high")))), delta=0.05)
                    self.assertAlmostEqual(y, on_line(powers, -math.log10(float(mark.get("data-years")))), delta=0.05)

    def test_the_curve_runs_through_the_marks(self):
        """The curve falls: before a VaR it is above the height of its probability, and behind it no longer."""
        for name in self.BOOKS:
            picture = self.pictures(name)["exceedance curve"]
            (band,) = (it for it in picture.iter(f"{SVG}polygon") if it.get("class") == "band")
            upper, lower = edges(band)
            for edge in (upper, lower):
                self.assertEqual([x for x, _ in edge], sorted(x for x, _ in edge))
                self.assertEqual([y for _, y in edge], sorted(y for _, y in edge))
            for mark in marks_of(picture):
                if "VaR" in mark.get("class").split():
                    x, y = float(mark.get("x")) + 5, float(mark.get("y")) + 5
                    self.assertLess(height(upper, x - 2), y + 0.2, name)
                    self.assertGreater(height(lower, x + 2), y - 0.2, name)

    def test_shares_fill_the_total(self):
        self.assertNotIn("each unit's share of the total", self.pictures("money"))
        for name, units in (("portfolio", ["Motor", "Property", "Liability"]), ("profile", ["Small", "Large"])):
            picture = self.pictures(name)["each unit's share of the total"]
            found = [it for it in picture.iter(f"{SVG}polygon")]
            self.assertEqual([it.get("data-unit") for it in found], units)
            self.assertIn(units[0] + "</th>", self.pages[name])
            sides = [halves(it) for it in found]
            top, base = {y for _, y in sides[-1][0]}, {y for _, y in sides[0][1]}
            self.assertTrue(max(top) - min(top) < 0.11 and len(base) == 1 and abs(max(top) - drawing.WIDE.top) < 0.11, name)
            for (upper, _), (_, lower) in zip(sides, sides[1:]):
                self.assertEqual(upper, lower)
            self.assertGreater(len(sides[0][0]), 10)

    def test_shares_fill_the_tail_mean(self):
        """By the labels of the axes alone: the areas lie one on the other at the shares of each return period, and their top is the TVaR."""
        self.assertNotIn("each unit's share of the TVaR", self.pictures("money"))
        for name, units in (("portfolio", ["Motor", "Property", "Liability"]), ("profile", ["Small", "Large"])):
            picture = self.pictures(name)["each unit's share of the TVaR"]
            labels = list(picture.iter(f"{SVG}text"))
            years = [(math.log10(float(it.get("data-years"))), float(it.get("x"))) for it in labels if it.get("class") == "tick"]
            amounts = [(float(it.get("data-total")), float(it.get("y")) - 4) for it in labels if it.get("class") == "amount"]
            self.assertEqual([float(it.text) for it in labels if it.get("class") == "amount"], [amount for amount, _ in amounts])
            found = list(picture.iter(f"{SVG}polygon"))
            self.assertEqual([it.get("data-unit") for it in found], units)
            sides = [halves(it) for it in found]
            for (upper, _), (_, lower) in zip(sides, sides[1:]):
                self.assertEqual(upper, lower)
            (curve,) = picture.iter(f"{SVG}polyline")
            there = [int(each) for each in curve.get("data-years").split()]
            self.assertTrue({1, 2, 10, 50, 100, 200, 250} <= set(there) and len(there) > 20, name)
            book = self.books[name]
            for each in (1, 2, 10, 100, 250):
                at, p = there.index(each), 1 - Fraction(1, each)
                means = [book.unit(unit).mean() for unit in units] if each == 1 else [book.share_of_tail(unit, p) for unit in units]
                below = 0.0
                for (upper, lower), row in zip(sides, means):
                    self.assertAlmostEqual(lower[at][1], on_line(amounts, below), delta=0.11)
                    below += float(row.low)
                    self.assertAlmostEqual(upper[at][0], on_line(years, math.log10(each)), delta=0.11)
                    self.assertAlmostEqual(upper[at][1], on_line(amounts, below), delta=0.11)
                self.assertAlmostEqual(below, float(book.tail(p).low), delta=1e-3)

    def test_periods_whose_shares_are_of_the_extended_rules(self):
        """One loss of 1 to 10: at 1/2, 4/5 and 9/10 the distribution is exactly at the level; and 20,000 years have a level of five digits.
        There the shares are those of the extended rules. Half the years bring 8, as the worst of them."""
        drawn = decl.Book("port P agg A dfreq [1] dsev [1:10] agg B dfreq [1] dsev [0]").page([2, "7/2", 5, 250, 20000])
        wide = [text for text in re.findall(r"<svg xmlns.*?</svg>", drawn, re.S) if 'data-frame="wide"' in text and "share of the TVaR" in text][0]
        runs = [found.split() for found in re.findall(r'data-unit="A" data-years="([^"]*)"', wide)]
        self.assertEqual([(run[0], run[-1]) for run in runs], [("1", "20000")])
        self.assertLessEqual({"1", "2", "3", "3.5", "5", "10", "250", "20000"}, set(runs[0]))
        told = html.unescape(re.sub(r"<[^>]*>", "", drawn))
        self.assertIn("At 2, 5, 10 and 10,000 to 20,000 years the shares are those of the program's extended rules (--rules extended), since", told)
        self.assertNotIn("No share is drawn", told)
        low, high = re.search(r'data-ask="cotail:A:0.5" data-rules="extended" data-low="(.*?)" data-high="(.*?)"', drawn).groups()
        self.assertTrue(Fraction(low) <= 8 <= Fraction(high) < Fraction(low) + Fraction(1, 1000))

    def test_periods_without_shares_are_white(self):
        """One loss of 1, or in one year of a hundred of 70,000, which is past the grid: so is the TVaR of more than 100 years."""
        book = decl.Book("port P agg A dfreq [1] dsev [1 70000] [0.99 0.01] agg B dfreq [1] dsev [0]", bs=1, log2=16)
        found = areas_of_tail(book, [Fraction(10), Fraction(101), Fraction(200)])
        self.assertEqual(found.missing, [101, 200])
        self.assertEqual(areas.told_of_tail(found)[-1], "No share is drawn at 101 to 200 years: the TVaR may lie past the grid.")

    def test_shares_of_a_long_grid(self):
        """65,000 buckets up to the VaR, in half the years, and 1 else."""
        book = decl.Book("port P agg A dfreq [1] dsev [1 65000] [0.5 0.5] agg B dfreq [1] dsev [0]")
        for years, value in ((Fraction(10), 65000), (Fraction(20000), 65000), (Fraction(4, 3), 1 / Fraction(3) + 65000 * Fraction(2, 3))):
            row = areas_of_tail(book, [years]).rows[years][0]
            self.assertTrue(row.holds(value) and row.high - row.low < 1, row)

    def test_shares_at_a_rare_total(self):
        """Each of 90,000 totals is equally likely, and so too rare for shares of the standard rules. In the worst 10/11 of the years the total is
        above 8,181, or 8,181 in 2/11 of the years with it; its hundreds of 3 are those of A, and what is left is that of B."""
        book = decl.Book("port P agg A dfreq [1] dsev [0:89700:300] agg B dfreq [1] dsev [0:299]", bs=1, log2=16)
        years = Fraction(11, 10)
        found = areas_of_tail(book, [years, Fraction(2)])
        self.assertEqual((found.extended, found.missing), ([years, 2], []))
        parts = {8181: Fraction(2, 11), **dict.fromkeys(range(8182, 90000), 1)}
        for row, outcome in zip(found.rows[years], (lambda x: x - x % 300, lambda x: x % 300)):
            value = sum(outcome(total) * part for total, part in parts.items()) / Fraction(90000 * 10, 11)
            self.assertTrue(row.holds(value) and row.high - row.low < Fraction(1, 10), row)

    def test_totals_without_shares_are_white(self):
        """Totals of 2 to 5 and of 22 to 25 are there, and 1 in 4 of both is 1 of the second unit; up to the VaR of 5 years, which is 24."""
        book = decl.Book("port P agg A dfreq [1] dsev [1 2 3 21 22 23] agg B dfreq [1] dsev [1 2]")
        found = areas.year_shares(book, Fraction(5))
        picture = ElementTree.fromstring(found.picture(pages.colours_of(book), drawing.WIDE, ""))
        drawn = list(picture.iter(f"{SVG}polygon"))
        self.assertEqual([it.get("data-totals") for it in drawn], ["2 5", "2 5", "22 24", "22 24"])
        labels = list(picture.iter(f"{SVG}text"))
        percents = [(float(it.text.rstrip("%")), float(it.get("y")) - 4) for it in labels if (it.text or "").endswith("%")]
        worked = {2: Fraction(1, 2), 3: Fraction(1, 2), 4: Fraction(5, 8), 5: Fraction(3, 5)}
        worked.update({22: Fraction(21, 22), 23: Fraction(43, 46), 24: Fraction(45, 48)})
        for area, places in ((drawn[0], (2, 3, 4, 5)), (drawn[2], (22, 23, 24))):
            self.assertEqual(area.get("data-unit"), "A")
            for (x, y), total in zip(halves(area)[0], places):
                self.assertAlmostEqual(x, on_line(ticks_of(picture), total), delta=0.11)
                self.assertAlmostEqual(y, on_line(percents, float(100 * worked[total])), delta=0.11)
        self.assertTrue(found.told[0].endswith("in percent of that total, up to 24, the VaR of 5 years."), found.told)
        self.assertIn("No share is drawn at totals of 1 and 6 to 21: such a total cannot occur, or is not sure", found.told[1])

    def test_one_total_is_a_bar(self):
        """So is a total between two that are not there; and a picture with no total says so."""
        twins = decl.Book("port P agg A dfreq [1] dsev [2] agg B dfreq [1] dsev [1]")
        picture = areas.year_shares(twins, Fraction(10)).picture(pages.colours_of(twins), drawing.WIDE, "")
        (first, last), _ = halves(ElementTree.fromstring(picture).find(f"{SVG}polygon"))
        self.assertTrue(last[0] - first[0] == 2 and first[1] == last[1])
        spread = decl.Book("port P agg A dfreq [1] dsev [0:89700:300] agg B dfreq [1] dsev [0:299]")  # each total is 1 in 90,000
        found = areas.year_shares(spread, Fraction(2))
        self.assertEqual(found.drawn, [])
        self.assertIn("is not sure to have a probability of at least 1 in 65,536", found.told[1])

    def test_marks_of_long_periods(self):
        """Ten million years are past the digits of the curve: their marks stand at their probability all the same, and their labels inside
        the picture."""
        book = {"": decl.Book("agg D dfreq [2] dsev [1:6]")}
        for frame in drawing.FRAMES:
            picture = ElementTree.fromstring(pictures.exceedances(book, [Fraction(10), Fraction(10**7)], frame))
            found = marks_of(picture)
            self.assertEqual(len(found), 4)
            for mark in found:
                place = on_line(powers_of(picture), -math.log10(float(mark.get("data-years"))))
                self.assertAlmostEqual(float(mark.get("y")) + 5, place, delta=0.05)
            (years,) = (it for it in picture.iter(f"{SVG}text") if it.text == "10000000")
            self.assertLess(float(years.get("x")) + 8 * frame.letter, frame.width)

    def test_units_of_an_axis_of_amounts(self):
        million = (2.5e6, "TVaR, in millions of EUR", ["0", "0.5", "1", "1.5", "2", "2.5"])
        for high, name, labels in (million, (300, "TVaR, in EUR", ["0", "50", "100", "150", "200", "250", "300"])):
            parts = drawing.amount_axis(drawing.WIDE, drawing.Scale(0, high, 360, 30), "TVaR", "EUR")
            self.assertEqual(re.findall(r">([^<]+)</text>", "".join(parts)), [name, *labels])

    def test_a_book_of_named_severities(self):
        """Units that refer to a severity: the page has the mean of each."""
        page = decl.Book((ROOT / "examples" / "named.decl").read_text()).page()
        self.assertIn("<title>Book</title>", page)
        self.assertIn('<th scope="row">mean of Vans</th>', page)

    def test_books_at_the_edge(self):
        """No loss at all, a grid that is too small, and one total: a page is there, and a TVaR past the grid has no mark. So it is without
        periods, with one year, and with very many."""
        for text, marks in (("agg Z dfreq [1] dsev [0]", 8), ("agg Wide dfreq [2] dsev [1 80000]", 4), ("agg One dfreq [1] dsev [7]", 8)):
            page = decl.Book(text).page([10, 100])
            self.assertEqual(page.count('class="mark'), marks, text)
            self.assertIn("past the grid" if marks == 4 else "<svg", page)
        twins = decl.Book("port Twins agg A dfreq [1] dsev [1] agg B dfreq [1] dsev [1]").page()
        self.assertIn("<title>Twins</title>", twins)
        rare = decl.Book("port R agg A dfreq [0 1] [0.999 0.001] dsev [5] agg B dfreq [0 1] [0.999 0.001] dsev [7]")
        for years in ([], [1], [1, "3/2"], [2, 10**8]):
            self.assertIn("the mean, and shares of the TVaR by return period", rare.page(years))


def areas_of_tail(book, years):
    """The shares of the TVaR at these return periods."""
    return pages.tail_shares(book, book.units, years)


def ticks_of(picture):
    """The totals of the axis below, with their places."""
    labels = (it for it in picture.iter(f"{SVG}text") if it.get("class") == "tick")
    return [(float(it.get("data-total")), float(it.get("x"))) for it in labels]


def powers_of(picture):
    """The powers of ten on the left, with their places."""
    labels = (it for it in picture.iter(f"{SVG}text") if it.get("class") == "power")
    return [(float(it.get("data-power")), float(it.get("y")) - 4) for it in labels]


def marks_of(picture):
    """The marks of VaR and TVaR."""
    return [it for it in picture.iter(f"{SVG}rect") if "mark" in (it.get("class") or "").split()]


def points(polygon):
    """The corners of an area."""
    return [tuple(map(float, point.split(","))) for point in polygon.get("points").split()]


def halves(polygon):
    """The upper and the lower edge of an area, from left to right."""
    found = points(polygon)
    half = len(found) // 2
    return found[:half], found[half:][::-1]


def edges(polygon):
    """The upper and the lower edge of a band, from left to right, which may have unlike numbers of corners."""
    found = points(polygon)
    turn = next(at for at in range(1, len(found)) if found[at][0] == max(x for x, _ in found))
    return found[: turn + 1], found[turn + 1 :][::-1]


def height(edge, x):
    """The height of an edge at a place: that of the last corner before it."""
    return [y for at, y in edge if at <= max(x, edge[0][0])][-1]


def on_line(known, value):
    """The place of a value on the straight line through the first and the last known ones."""
    (low, start), (high, end) = known[0], known[-1]
    return start + (value - low) * (end - start) / (high - low)


if __name__ == "__main__":
    main()
