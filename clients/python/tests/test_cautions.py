"""Mistakes that pass in silence are told, and faults say what may be meant."""

import contextlib
import io
import pathlib
import tempfile
import warnings
from fractions import Fraction

from support import Case, decl, main
from decl.__main__ import main as command


def told_by(call, *words, **settings):
    """The warnings of a call."""
    with warnings.catch_warnings(record=True) as found:
        warnings.simplefilter("always")
        call(*words, **settings)
    return found


class Warned(Case):
    def is_told(self, text, *instead):
        """What is told of a text, each with the text that it would be."""
        found = told_by(decl.run, text, ["mean"])
        self.assertEqual(tuple(each.message.instead for each in found), instead, text)
        for each in found:
            self.assertIs(each.category, decl.DeclWarning)
            self.assertEqual(each.filename, __file__)
        return [each.message for each in found]

    def test_commas_in_numbers(self):
        for text, *instead in (
            ("agg D dfreq [1] dsev [10,000 20,000] [1/4 1/4 1/4 1/4]", "10000", "20000"),
            ("agg D dfreq [1,000] dsev [1]", "1000"),
            ("agg D dfreq [1] dsev [1,000,000]", "1000000"),
            ("agg D dfreq [1] dsev [1,250 2]", "1250"),
            ("agg D dfreq [1] dsev [1,5 2,5]", "1.5", "2.5"),
            ("agg D dfreq [1] dsev [100,200,300]",),
            ("agg D dfreq [1] dsev [1,2,3] [1/3,1/3,1/3]",),
            ("agg D dfreq [1] dsev [1, 2, 300]",),
            ("agg D dfreq [1] dsev [1 2 3] [0.25,0.25 0.5] # [10,000]",),
            ("agg D dfreq [1] dsev [1] note{[10,000 5]}",),
        ):
            try:
                self.is_told(text, *instead)
            except decl.RuleFault:
                self.fail(text)

    def test_its_place(self):
        message = self.is_told("# é\nagg D dfreq [1] note{é}\ndsev [10,000]".replace("note{é}", ""), "10000")[0]
        self.assertEqual((message.line, message.column), (3, 7))
        self.assertIn("3:7: `10,000` is read as 10 and 000: is it `10000`?\n  dsev [10,000]\n        ^", str(message))

    def test_a_loss_ratio_that_is_no_percent(self):
        self.is_told("agg D 10 premium at 65 lr dsev [1] poisson", "65%")
        self.is_told("agg D 10 prem at 10.5 lr dsev [1] poisson", "10.5%")
        for ratio in ("65%", "0.65", "10", "1100%", "13/20"):
            self.is_told(f"agg D 10 premium at {ratio} lr dsev [1] poisson")

    def test_a_grid_that_loses_much(self):
        text = "agg W 30 claims dsev [1 25000] poisson"
        found = told_by(decl.Book, text)
        self.assertEqual(len(found), 1)
        message = found[0].message
        self.assertIn("65,536 buckets of 1 lose up to", str(message))
        self.assertEqual((message.instead, found[0].filename), ("decl.coarser(text, 50)", __file__))
        self.assertTrue(told_by(decl.coarser(text, 50).q, 0.999) == [])
        self.assertEqual(told_by(decl.Book, text, log2=4), [])
        self.assertEqual(told_by(decl.Book, "agg W 30 claims dsev [1 250] poisson"), [])

    def test_each_is_told_once_and_nothing_is_changed(self):
        text = "agg D dfreq [1] dsev [10,000]"
        for call, words in ((decl.Book, ()), (decl.check, ()), (decl.report, ("mean",)), (decl.run, ("mean",))):
            self.assertEqual(len(told_by(call, text, *words)), 1, call)
        self.assertEqual(len(told_by(decl.compare, {"a": text}, "mean")), 1)
        self.assertEqual(len(told_by(decl.run_many, [text], "mean")), 1)
        with warnings.catch_warnings():
            warnings.simplefilter("ignore")
            self.assertTrue(decl.Book(text).mean().holds(5))

    def test_the_command(self):
        with tempfile.TemporaryDirectory() as folder:
            path = pathlib.Path(folder) / "book.decl"
            for text, status, out, err in (
                ("agg D dfreq [1] dsev [10,000]", 0, "D: 1 unit, 2 buckets of 10\n", "decl: 1:23: `10,000` is read as"),
                ("port P agg D dfreq [1] dsev [5] agg E dfreq [1] dsev [5]", 0, "P: 2 units, 4 buckets of 5\n", ""),
                ("agg D dfreq [1] dsev [10,000] [1]", 3, "", "rule 5 LengthsDiffer"),
                ("agg W 30 claims dsev [1 25000] poisson", 0, "W: 1 unit, 65,536 buckets of 1\n", "decl.coarser(text, 50)"),
            ):
                path.write_text(text)
                with contextlib.redirect_stdout(io.StringIO()) as written, contextlib.redirect_stderr(io.StringIO()) as told:
                    self.assertEqual(command(["check", str(path)]), status, text)
                self.assertEqual(written.getvalue(), out)
                self.assertIn(err, told.getvalue())
                self.assertTrue(err or not told.getvalue())


class Hints(Case):
    def says(self, told, kind, call, *words, **settings):
        self.assertIn(told, str(self.raises(kind, call, *words, **settings)))

    def test_what_a_list_adds_up_to(self):
        for weights, told in (("[1/3 1/3]", "These add up to 2/3: 1/3 too little."), ("[0.5 0.51]", "add up to 1.01: 0.01 too much.")):
            self.says(told, decl.RuleFault, decl.check, f"agg D dfreq [1] dsev [1 2] {weights}")
        self.says("add up to 0.7: 0.3 too little", decl.RuleFault, decl.check, "agg D dfreq [1 2 3] [0.1:0.3:0.1, 10%] dsev [1]".replace("1 2 3]", "1 2 3 4]"))
        self.says("add up to 0.9", decl.RuleFault, decl.check, "sev S dsev [1] dsev [2] wts [0.5 0.4] # [1 2]\nagg D dfreq [1] sev.S")

    def test_how_many_values_there_are(self):
        self.says("The list before it has 6 values, and this one 2.", decl.RuleFault, decl.check, "agg D dfreq [1] dsev [1:6] # [9]\n[1/2, 1/2]")
        self.says("There are 3 weights.", decl.RuleFault, decl.check, "agg D dfreq [1] dsev [1] dsev [2] wts [1/3 1/3 1/3]")

    def test_units_that_there_are(self):
        text = "port P agg Motor dfreq [1] dsev [1] # agg No\nagg Property dfreq [1] dsev [2]"
        for ask in ("kappa:Moter:3", "joint:motor:3", "cotail:Motr:0.5"):
            self.says("The text has the units Motor, Property. Did you mean `Motor`?", decl.AskFault, decl.run, text, [ask])
        self.says("The text has the unit D.", decl.AskFault, decl.run, "agg D dfreq [1] dsev [1]", ["kappa:Q:1"])

    def test_beyond_the_grid_in_money(self):
        fault = self.raises(decl.AskFault, decl.Book("agg D dfreq [2] dsev [1000:6000:1000]").kappa, "D", 40000)
        self.assertIn("\n  kappa:D:40000\nThe grid ends at 15000, with 16 buckets of 1000: take a larger log2,", str(fault))
        other = self.raises(decl.AskFault, decl.Book("agg Die dfreq [2] dsev [1000:6000:1000]").joint, "D", 4000)
        self.assertIn("\n  joint:D:4000\n", str(other))
        self.assertIn("The text has the unit Die.", str(other))
        self.assertEqual((fault.ask, fault.reason, fault.status), (0, "beyond the grid", 8))

    def test_words_that_are_meant(self):
        for text, told in (
            ("agg D 2 claims dsev [1] poison", "Did you mean `poisson`?"),
            ("agg D 2 claims dsev [1] occurence net of 1 xs 0 poisson", "Did you mean `occurrence`?"),
            ("agg D 2 clams dsev [1] poisson", "Did you mean `claims`?"),
            ("agg D 10,000 claims dsev [1] poisson", "A number has no comma in it: 10000."),
            ("agg D 2 claims dsev [1] poisson occurrence net of 1 xs 0", "A unit goes in the order: name, exposure, layer, severity,"),
            ("agg D 2 claims poisson dsev [1]", "A unit goes in the order:"),
            ("agg D 2 claims dsev [1] aggregate net of 1 xs 0 poisson", "A unit goes in the order:"),
            ("agg A dfreq [1] dsev [1]\nagg B dfreq [1] dsev [1]", "Several units need `port NAME` before the first one."),
        ):
            self.says(told, decl.SyntaxFault, decl.check, text)
        fault = self.raises(decl.SyntaxFault, decl.check, "port P agg A dfreq [1] dsev [1] agg agg")
        self.assertNotIn("port NAME", str(fault))

    def test_asks_that_are_meant(self):
        for ask, told in (
            ("q:99", "Did you mean `q:99%`?"),
            ("tail:99,5%", "A decimal has a point: `tail:99.5%`."),
            ("cotail:D:99.5", "Did you mean `cotail:D:99.5%`?"),
            ("tvar:0.99", "Did you mean `tail:0.99`?"),
            ("VaR:0.99", "Did you mean `q:0.99`?"),
            ("maen", "Did you mean `mean`?"),
            ("layr:5xs5", "Did you mean `layer`?"),
        ):
            self.says(told, decl.UsageFault, decl.run, "agg D dfreq [1] dsev [1]", [ask])

    def test_continuous_severities_that_are_not_taken(self):
        self.says("decl.between takes lognorm, gamma, expon, weibull, pareto, and not norm.", decl.ContinuousSeverity, decl.check, "agg D 1 claims sev norm 5 poisson")

    def test_steps_of_another_grid(self):
        text = "agg F 1 claims dsev [1] fixed"
        steps = decl.certify(text, log2=3)
        self.says("The steps have 8 cells, and the grid of this call 16: give log2=3.", decl.BadStep, decl.verify, text, steps, log2=4)
        self.says("The steps have 8 cells, and the grid of this call 1,024", decl.BadStep, decl.verify, text, steps)
        bad = steps.replace(" 0,0", " 1,1", 1)
        self.assertNotIn("cells", str(self.raises(decl.BadStep, decl.verify, text, bad, log2=3)))

    def test_a_chance_is_a_fraction_of_all_that_is_lost(self):
        """Half of the years lie beyond the largest grid, so no less is told."""
        found = told_by(decl.Book, "port W agg A dfreq [0 1] dsev [1 200000] agg B dfreq [1] dsev [1]")
        self.assertIn("lose up to 25% of the years", str(found[0].message))
        self.assertEqual(Fraction(1, 4), Fraction(1, 2) * Fraction(1, 2))


if __name__ == "__main__":
    main()
