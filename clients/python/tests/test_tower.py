"""Towers of layers. Values come from `apart`, or from all outcomes in exact fractions, without the client."""

import itertools
from fractions import Fraction

from apart import Year
from support import Case, decl, main

CLAIM = {10: 50, 20: 25, 50: 15, 100: 8, 300: 2}
FIRE = "agg Fire 3 claims dsev [10 20 50 100 300] [0.5 0.25 0.15 0.08 0.02] poisson"
CELLS = 128


def ceded(limit, attachment, claims=3):
    """A year of cessions of 10 each, of claims of fire and layers that are multiples of 10."""
    paid = {}
    for amount, weight in CLAIM.items():
        part = min(max(amount - attachment, 0), limit) // 10
        paid[part] = paid.get(part, 0) + weight
    return Year.poisson(claims, paid, CELLS)


class Towers(Case):
    def holds(self, row, value):
        self.assertTrue(row.holds(value), f"{row} does not hold {float(value)}")

    def test_layers_with_reinstatements(self):
        layers = [(80, 20), (200, 100)]
        for reinstatements, at in ((1, 1), (2, ["50%", 1]), (0, 1)):
            tower = decl.Book(FIRE).tower(["80 xs 20", (200, "100")], reinstatements, at=at)
            parts = [Fraction(1)] * reinstatements if at == 1 else [Fraction(1, 2), Fraction(1)]
            for (limit, attachment), (name, loss, attaches, exhausts, again, paid, pure) in zip(layers, tower):
                year, cells = ceded(limit, attachment), limit // 10
                expected = 10 * year.layer(cells * (reinstatements + 1))
                more = sum(part * year.layer(cells, at * cells) / cells for at, part in enumerate(parts))
                self.assertEqual(name, f"{limit} xs {attachment}")
                self.holds(loss, expected)
                self.holds(attaches, 1 - year.cdf(0))
                self.holds(exhausts, 1 - year.cdf(cells * (reinstatements + 1) - 1))
                self.holds(again, more)
                self.holds(pure, expected / (1 + more))
                self.holds(paid, expected / (1 + more) * more)
                self.assertTrue(all(row.high - row.low < Fraction(1, 100) for row in (loss, again, paid, pure)))

    def test_without_a_limit_of_the_year(self):
        tower = decl.Book(FIRE).tower(["80 xs 20", "200 xs 100"])
        for (limit, attachment), line in zip([(80, 20), (200, 100)], tower):
            mean = 10 * ceded(limit, attachment).mean
            self.holds(line[1], mean)
            self.holds(line[6], mean)
            self.assertEqual((line[3], line[4].low, line[5].high), ("", 0, 0))
        net = tower.net()
        kept = {}
        for amount, weight in CLAIM.items():
            left = (amount - min(max(amount - 20, 0), 280)) // 10
            kept[left] = kept.get(left, 0) + weight
        year = Year.poisson(3, kept, CELLS)
        self.holds(net.mean(), 10 * year.mean)
        self.holds(tower.net_mean(), 10 * year.mean)
        for p in (0.5, 0.9, 0.99):
            self.assertEqual(int(net.q(p)), 10 * year.q(Fraction(str(p))))

    def test_reinstatements_of_each_layer(self):
        lines = decl.Book(FIRE).tower(["80 xs 20", "200 xs 100"], [None, 0])
        self.holds(lines[0][1], 10 * ceded(80, 20).mean)
        self.holds(lines[1][1], 10 * ceded(200, 100).layer(20))

    def test_a_net_that_cannot_be_declared(self):
        tower = decl.Book(FIRE).tower(["80 xs 20"], 1)
        mean = Fraction(189, 2) - 10 * ceded(80, 20).layer(16)
        self.holds(tower.net_mean(), mean)
        fault = self.raises(decl.NotDeclared, tower.net)
        low, high = tower.net_mean().written
        for told in ("the net of 80 xs 20", "the gross mean less the expected losses", f"from {low} to {high}", "Its quantiles are at least"):
            self.assertIn(told, str(fault))

    def test_units_of_each_kind(self):
        """Two claims of A and at most one of B, over all outcomes."""
        text = (
            "sev S dsev [10 40] [1/2 1/2]\nport P\nagg A dfreq [2] sev.S note{two}\n"
            "agg B 1/2 claims 30 xs 10 dsev [20 60] dsev [40] wts [2/3 1/3] ! bernoulli note{one}"
        )
        outcomes = {}
        b = {0: Fraction(1, 2), 10: Fraction(1, 6), 30: Fraction(1, 3)}
        for one, two, (three, part) in itertools.product([10, 40], [10, 40], b.items()):
            year = sum(min(max(amount - 15, 0), 20) for amount in (one, two, three))
            outcomes[year] = outcomes.get(year, 0) + part / 4
        name, loss, attaches, exhausts, again, paid, pure = decl.Book(text).tower([(20, 15)], 1)[0]
        expected = sum(min(year, 40) * part for year, part in outcomes.items())
        more = sum(Fraction(min(year, 20), 20) * part for year, part in outcomes.items())
        self.holds(loss, expected)
        self.holds(attaches, 1 - outcomes[0])
        self.holds(exhausts, sum(part for year, part in outcomes.items() if year >= 40))
        self.holds(pure, expected / (1 + more))

    def test_a_table_of_a_frame(self):
        """A tower over a book of a table, and the table as HTML."""
        book = decl.from_frame([{"name": "A", "claims": 2, "count": "fixed", "amounts": [10, 30]}])
        tower = book.tower(["10 xs 10"], 0)
        self.holds(tower[0][1], Fraction(10 * 3, 4))
        self.assertIn("<th>pure premium</th>", tower._repr_html_())

    def test_what_is_refused(self):
        book = decl.Book(FIRE)
        for layers, reinstatements, at in (
            (["80"], 1, 1),
            (["0 xs 5"], 1, 1),
            ([(5, -1)], 1, 1),
            (["x xs 5"], 1, 1),
            (["5 xs 5"], -1, 1),
            (["5 xs 5"], 1.5, 1),
            (["5 xs 5"], [1, 1], 1),
            (["5 xs 5"], 2, [1]),
            (["5 xs 5"], 1, -1),
        ):
            self.assertRaises(ValueError, book.tower, layers, reinstatements, at)
        for clause, told in (("occurrence net of 5 xs 5 poisson", "an occurrence clause"), ("poisson aggregate net of 5 xs 5", "an aggregate clause")):
            fault = self.raises(decl.NotDeclared, decl.Book(f"agg A 1 claims dsev [10] {clause}").tower, ["5 xs 5"])
            self.assertIn(told, str(fault))
        self.assertEqual(self.raises(decl.RuleFault, book.tower(["80 xs 20", "80 xs 50"]).net).name, "Overlap")


if __name__ == "__main__":
    main()
