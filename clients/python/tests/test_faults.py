"""Each status, each fault of a text, and what does not come from the program at all."""

import os
import pathlib
import pickle
import tempfile
import time
import unittest

from support import Case, decl, main
from decl import magic

DIE = "agg D dfreq [1] dsev [1:6]"


class Statuses(Case):
    def test_words_that_the_system_does_not_give(self):
        fault = self.raises(decl.NoWords, decl.run, DIE, ["\udcff"])
        self.assertEqual(fault.status, 1)

    def test_words_that_are_not_understood(self):
        fault = self.raises(decl.UsageFault, decl.run, DIE, ["mean"], log2=17)
        self.assertEqual((fault.status, fault.ask), (2, None))
        fault = self.raises(decl.UsageFault, decl.run, DIE, ["pmf:1", "pmf"])
        self.assertEqual(fault.ask, 1)
        self.assertIn("\n  pmf:1 pmf\n        ^^^\n", str(fault))
        self.raises(decl.UsageFault, decl.run, DIE, [])

    def test_an_ask_is_no_option(self):
        """Words that begin as options do are asks, which are not understood."""
        for call in (decl.run, decl.report):
            for asks, at in ((["mean", "--log2=4"], 1), (["--bs", "7", "mean"], 0), (["--", "mean"], 0)):
                told = str(self.raises(decl.UsageFault, call, DIE, asks))
                self.assertIn(f"\n{asks[at]} is no ask, and no option where asks stand", told)
        self.raises(decl.UsageFault, decl.Book("agg D dfreq [1] dsev [2]").ask, "--bs=1")

    def test_too_many_asks(self):
        self.raises(decl.UsageFault, decl.run, DIE, ["mean"] * 257)

    def test_too_little_width(self):
        fault = self.raises(decl.NeedsWidth, decl.run, DIE, ["mean", "pmf:3"], width=1, log2=4)
        self.assertEqual((fault.status, fault.ask, fault.needed, fault.option), (4, 1, 2, "width"))
        self.assertIn("decl: ask 1: needs width 2", str(fault))
        fault = self.raises(decl.NeedsWidth, decl.run, DIE, ["layer:2xs2"], mwidth=1)
        self.assertEqual((fault.needed, fault.option), (2, "mwidth"))

    def test_an_input_that_cannot_be_read(self):
        self.instead('exec "$BUILT" "$@" < /')
        self.assertEqual(self.raises(decl.ReadFault, decl.run, DIE, ["mean"]).status, 5)

    @unittest.skipUnless(os.path.exists("/dev/full"), "there is no /dev/full")
    def test_a_write_that_fails(self):
        self.instead('exec "$BUILT" "$@" > /dev/full')
        self.assertEqual(self.raises(decl.WriteFault, decl.run, DIE, ["mean"]).status, 6)

    def test_want_of_memory(self):
        self.instead('cat > /dev/null; exit 7')
        self.assertEqual(self.raises(decl.OutOfMemory, decl.run, DIE, ["mean"]).status, 7)

    def test_want_of_memory_of_the_built_program(self):
        for limit in range(2000, 6001, 250):
            self.instead(f'ulimit -v {limit} || exit 77; exec "$BUILT" "$@"')
            try:
                decl.run("", ["mean", "cdf:3"], make=0, log2=12)
            except decl.OutOfMemory as fault:
                self.assertEqual(fault.status, 7)
                return
            except (decl.BadAnswer, decl.Killed, decl.NoWords):
                continue
        raise unittest.SkipTest("no limit of memory was met here")

    def test_an_ask_that_cannot_be_answered(self):
        fault = self.raises(decl.AskFault, decl.run, DIE, ["pmf:16"], log2=4)
        self.assertEqual((fault.status, fault.ask, fault.reason), (8, 0, "beyond the grid"))
        fault = self.raises(decl.AskFault, decl.run, DIE, ["kappa:Q:4"])
        self.assertEqual(fault.reason, "no such unit")


class Texts(Case):
    def refused(self, kind, text, line, column):
        fault = self.raises(kind, decl.check, text)
        self.assertEqual((fault.status, fault.line, fault.column), (3, line, column))
        return fault

    def test_places(self):
        self.refused(decl.SyntaxFault, "", 1, 1)
        self.refused(decl.SyntaxFault, "agg", 1, 4)
        fault = self.refused(decl.BadByte, "agg D dfreq [1] dsev [1;6]", 1, 24)
        self.assertIn("\n  agg D dfreq [1] dsev [1;6]\n                         ^\n", str(fault))
        fault = self.refused(decl.ContinuousSeverity, "agg C 10 claims sev lognorm 50 cv 1.75 poisson", 1, 21)
        self.assertEqual(fault.word, "lognorm")

    def test_a_caret_behind_letters_of_several_bytes_and_tabs(self):
        fault = self.refused(decl.SyntaxFault, "# one\nagg D\tnote{é} dsev", 2, 7)
        self.assertIn("\n  agg D\tnote{é} dsev\n       \t^\n", str(fault))

    def test_a_long_line_is_cut_round_the_place(self):
        text = "agg D dfreq [1] dsev [" + "1 " * 500 + "; 2]"
        fault = self.refused(decl.BadByte, text, 1, 1023)
        self.assertLess(max(len(line) for line in str(fault).splitlines()), 140)
        shown, caret = str(fault).splitlines()[1:3]
        self.assertEqual(shown[caret.index("^")], ";")

    def test_rules(self):
        rows = [
            ("port P agg A dfreq [1] dsev [1] agg A dfreq [1] dsev [2]", 37, 1, 1, "DuplicateName"),
            ("agg D dfreq [1] dsev [1 2] [1/3 1/3]", 28, 0, 6, "NotOne"),
            ("agg D dfreq [1] dsev [1.5]", 23, 0, 7, "OffGrid"),
            ("agg N dfreq [1] dsev [1 3] occurrence net of 0.5 so 4 xs 0", 28, 0, 13, "OffGridCession"),
            ("agg F 2.5 claims dsev [1] fixed", 7, 0, 15, "CountNotWhole"),
        ]
        for text, column, unit, rule, name in rows:
            fault = self.refused(decl.RuleFault, text, 1, column)
            self.assertEqual((fault.unit, fault.rule, fault.name), (unit, rule, name))
            self.assertTrue(str(fault).splitlines()[-1].endswith("."), str(fault))

    def test_seventeen_units(self):
        text = "port P " + " ".join(f"agg A{i} dfreq [1] dsev [1]" for i in range(17))
        fault = self.raises(decl.RuleFault, decl.check, text)
        self.assertEqual((fault.unit, fault.rule), (16, 22))

    def test_a_text_of_more_than_a_mebibyte(self):
        fault = self.raises(decl.TooLong, decl.check, " " * 1048577)
        self.assertEqual((fault.status, fault.line), (3, None))

    def test_a_nul_byte(self):
        fault = self.raises(decl.NotText, decl.run, "agg D\ndf\0req", ["mean"])
        self.assertEqual((fault.line, fault.column), (2, 3))
        self.raises(decl.NotText, decl.run, DIE, ["me\0an"])

    def test_no_utf_8(self):
        fault = self.raises(decl.NotText, decl.run, b"agg D \xff", ["mean"])
        self.assertEqual((fault.line, fault.column), (1, 7))
        fault = self.raises(decl.NotText, decl.run, "agg \ud800", ["mean"])
        self.assertEqual((fault.line, fault.column), (1, 5))

    def test_what_is_no_text_at_all(self):
        self.raises(TypeError, decl.run, 5, ["mean"])
        self.raises(TypeError, decl.run, DIE, ["mean"], grid=4)


class Sentences(Case):
    """What a fault says was expected, by the grammar of docs/LANGUAGE.md."""

    def goes_on_with(self, text, *names):
        fault = self.raises(decl.SyntaxFault, decl.fmt, text)
        self.assertEqual(set(fault.expected), set(names), text)
        self.assertEqual(len(fault.expected), len(names))
        return fault

    def test_the_tokens_that_can_stand_there(self):
        end = "the end of the text"
        self.goes_on_with("", "agg", "port", "sev")
        fault = self.goes_on_with("port 5", "a name")
        self.assertTrue(str(fault).endswith("\nA program goes on here with a name."), str(fault))
        self.goes_on_with("port P", "agg", "common", "a note")
        self.goes_on_with("agg D 5 dsev [1]", "claims", "loss", "premium")
        self.goes_on_with("agg D 5 claims 4 dsev", "xs")
        fault = self.goes_on_with("agg D dfreq [1] dsev [1 2", "a numeral", "]", ":", ",")
        self.assertIn("with a numeral, `]`, `:` or `,`.", str(fault))
        self.goes_on_with("agg D dfreq [1] dsev [1] poisson", "[", "!", "dsev", "sev", "wts", "occurrence", "aggregate", "a note", end)
        self.goes_on_with("agg D 1 claims dsev [1] mixed # gamma\nbeta 2", "gamma")
        self.goes_on_with("agg D 1 claims dsev [1] ! # the end", "occurrence", "fixed", "poisson", "geometric", "bernoulli", "binomial", "mixed")

    def test_a_place_behind_letters_of_several_bytes(self):
        self.goes_on_with("# é\nagg D note{é} dfreq [1]", "a numeral", "dfreq")
        self.goes_on_with("port P note{é} note{é}", "agg")

    def test_a_place_that_is_far_behind(self):
        fault = self.raises(decl.SyntaxFault, decl.fmt, "# " + "long " * 20000 + "\nagg agg")
        self.assertEqual(fault.expected, ())
        self.assertIn("docs/LANGUAGE.md", str(fault))

    def test_a_program_that_fails_while_tokens_are_tried(self):
        self.instead('case $1 in fmt) exit 7;; esac; exec "$BUILT" "$@"')
        self.assertEqual(self.raises(decl.SyntaxFault, decl.check, "agg").expected, ())

    def test_expected_tokens_are_pickled(self):
        fault = self.raises(decl.SyntaxFault, decl.fmt, "port 5")
        self.assertEqual(pickle.loads(pickle.dumps(fault)).expected, ("a name",))

    def test_the_name_of_a_file(self):
        for name in ("dice.decl", "my book.decl", "examples/dice.decl", "../dice", "C:\\books\\dice.txt"):
            with self.assertRaises(decl.TextFault) as raised:
                decl.fmt(name)
            self.assertIn("looks like the name of a file", str(raised.exception), name)
        for text in ("agg", "1/2", "agg D dfreq [1/2]", "agg D.decl dfreq [1]\n"):
            with self.assertRaises(decl.TextFault) as raised:
                decl.fmt(text)
            self.assertNotIn("name of a file", str(raised.exception), text)
        self.assertIn("No word names a file", str(self.raises(decl.UsageFault, decl.run, DIE, ["mean", "examples/dice.decl"])))

    def test_byte_order_marks(self):
        fault = self.raises(decl.BadByte, decl.fmt, "\ufeff" + DIE)
        self.assertIn('encoding="utf-8-sig"', str(fault))
        self.raises(decl.BadByte, decl.fmt, ("\ufeff" + DIE).encode())
        self.assertIn('encoding="utf-16"', str(self.raises(decl.NotText, decl.fmt, DIE.encode("utf-16"))))

    def test_words_out_of_their_range(self):
        rows = [
            ({"log2": 17}, "log2 is a whole number from 1 to 16, not 17."),
            ({"digits": 0}, "digits is a whole number from 1 to 9, not 0."),
            ({"width": 10**9 + 1}, "width is a whole number from 1 to 1,000,000,000, not 1000000001."),
            ({"mwidth": 10**12 + 1}, "mwidth is a whole number from 1 to 1,000,000,000,000, not"),
            ({"make": 2**32}, "make is a whole number from 0 to 4,294,967,295, not"),
            ({"rules": "wide"}, "rules is standard or extended, not wide."),
            ({"bs": 0}, "bs is the size of a bucket, a numeral above 0"),
            ({"bs": "123456789012"}, "bs is the size of a bucket, a numeral above 0"),
        ]
        for settings, told in rows:
            self.assertIn(f"\n{told}", str(self.raises(decl.UsageFault, decl.run, DIE, ["mean"], **settings)))
        for form, told in (("html", "format is text, csv or json, not html."), ("", "format is text, csv or json, not .")):
            self.assertIn(told, str(self.raises(decl.UsageFault, decl.report, DIE, ["mean"], form)))
        for asks, told in (([], "There are 1 to 256 asks, not 0."), (["mean"] * 257, "There are 1 to 256 asks, not 257.")):
            self.assertIn(told, str(self.raises(decl.UsageFault, decl.run, DIE, asks)))
        for words, told in (("mean --size 4", "There is no option size;"), ("mean --bs", "The option bs has no value.")):
            self.assertIn(told, str(self.raises(decl.UsageFault, magic.answer, words, DIE)))
        self.assertIn("The option log2 stands twice.", str(self.raises(decl.UsageFault, magic.answer, "--log2=4 --log2 5 mean", DIE)))

    def test_sizes_that_are_taken_are_not_called_wrong(self):
        """The program and the sentence have one range of sizes."""
        for size in ("1", "0.5", ".5", "5.", "1/2", "50%", "12345678901", "0.1234567890", "123456789%", "12345678901/12345678901"):
            self.assertTrue(decl.words.is_size(size), size)
            try:
                decl.check("agg D dfreq [1] dsev [0]", bs=size)
            except decl.RuleFault:
                pass
        for size in ("0", "0.0", "1/0", "0/1", "x", "-1", "123456789012", "0.12345678901", "1234567890%", "1 2", ""):
            self.assertFalse(decl.words.is_size(size), size)
            self.raises(decl.UsageFault, decl.check, DIE, bs=size)

    def test_asks_that_are_none(self):
        rows = [("q:1", "In q:p, p is below 1"), ("pmf:1.5", "In pmf:x, x is a whole number"), ("mean:2", "Nothing stands behind mean.")]
        rows += [("layer:5", "In layer:LxsA, L and A"), ("kappa:D", "In kappa:NAME:x, NAME"), ("var", "Asks are pmf:x")]
        rows += [("price:1/2@0", "In price:W@P+W@P.., there are 1 to 8 terms"), ("cotail:D:0.99995", "In cotail:NAME:p, NAME is a unit")]
        for ask, told in rows:
            self.assertIn(f"\n{told}", str(self.raises(decl.UsageFault, decl.run, DIE, [ask])))
        for settings, cells in (({}, 1024), ({"log2": 4}, 16)):
            fault = self.raises(decl.AskFault, decl.run, DIE, ["pmf:5000"], **settings)
            self.assertIn(f"The grid has {cells} buckets, so an amount is at most {cells - 1},", str(fault))


class Programs(Case):
    def test_a_program_that_is_not_found(self):
        os.environ["DECL"] = "/nowhere/decl"
        fault = self.raises(decl.ProgramNotFound, decl.run, DIE, ["mean"])
        self.assertIn("/nowhere/decl", str(fault))

    def test_a_program_that_cannot_run(self):
        self.instead("")
        with open(os.environ["DECL"], "w") as script:
            script.write("#!/nowhere/shell\n")
        self.raises(decl.ProgramNotFound, decl.run, DIE, ["mean"])

    def test_a_program_that_is_killed(self):
        self.instead('"$BUILT" "$@"; kill -KILL $$')
        fault = self.raises(decl.Killed, decl.run, DIE, ["mean"])
        self.assertEqual(fault.signal, 9)
        self.assertIn("SIGKILL", str(fault))

    def test_a_program_that_takes_too_long(self):
        self.instead("exec sleep 20")
        self.raises(decl.TookTooLong, decl.run, DIE, ["mean"], timeout=0.2)

    def test_what_a_program_has_started_ends_with_it(self):
        """A shell that waits for a child which holds its outputs, and one whose child would go on alone."""
        with tempfile.TemporaryDirectory() as folder:
            left = pathlib.Path(folder) / "left"
            begun = time.monotonic()
            for body in (f"sleep 1.5; touch '{left}'; sleep 20", f"(sleep 1.5; touch '{left}') & sleep 20"):
                self.instead(body)
                self.raises(decl.TookTooLong, decl.run, DIE, ["mean"], timeout=0.2)
            self.assertLess(time.monotonic() - begun, 1.4)
            time.sleep(2)
            self.assertFalse(left.exists())

    def test_half_a_report_is_no_report(self):
        self.instead("""cat > /dev/null; printf '{"bs":"1","cells":16,"rows":[{"ask":"mean","high":"3.5'""")
        self.raises(decl.BadAnswer, decl.run, DIE, ["mean"])

    def test_a_report_with_a_row_too_few(self):
        self.instead('exec "$BUILT" run --format json mean')
        self.raises(decl.BadAnswer, decl.run, DIE, ["mean", "pmf:1"])

    def test_a_status_that_is_not_known(self):
        self.instead("cat > /dev/null; exit 77")
        self.assertIn("77", str(self.raises(decl.BadAnswer, decl.run, DIE, ["mean"])))

    def test_exceptions_can_be_pickled(self):
        fault = self.raises(decl.RuleFault, decl.check, "agg D dfreq [1] dsev [1.5]")
        again = pickle.loads(pickle.dumps(fault))
        self.assertEqual((type(again), str(again), again.rule), (decl.RuleFault, str(fault), 7))


if __name__ == "__main__":
    main()
