"""Certificates: written, verified, and what keeps a text from having one."""

import unittest

from support import Case, decl, main

BOOK = "port T\nagg A 3 claims dsev [1:3] poisson\nagg B 2 claims dsev [1 2] [2/3 1/3] binomial 1/2\nagg C 1 claims dsev [2] mixed gamma 1/2"


class Certificates(Case):
    def test_what_is_certified_is_verified(self):
        for text in (BOOK, BOOK + "\n", "agg F 1 claims dsev [1] fixed"):
            steps = decl.certify(text, log2=5)
            self.assertIsNone(decl.verify(text, steps, log2=5))
            self.assertIsNone(decl.verify(text.encode(), steps.encode(), log2=5))

    def test_one_claim(self):
        steps = decl.certify("agg F 1 claims dsev [1] fixed", log2=1)
        self.assertEqual(steps, f"start 0 0,0 {2**56},{2**56}\n")

    def test_a_made_program(self):
        steps = decl.certify("", make=0, log2=4)
        self.assertIsNone(decl.verify(decl.made(0), steps, log2=4))

    def test_a_lower_high_end_is_a_bad_step(self):
        fault = self.raises(
            decl.BadStep, decl.verify, "agg F 1 claims dsev [1] fixed", f"start 0 0,0 {2**56 - 1},{2**56 - 1}\n", log2=1
        )
        self.assertEqual((fault.status, fault.step, fault.line), (3, 0, None))

    def test_steps_of_another_text(self):
        steps = decl.certify(BOOK, log2=5)
        self.raises(decl.BadStep, decl.verify, BOOK.replace("3 claims", "4 claims"), steps, log2=5)
        self.raises(decl.BadStep, decl.verify, BOOK, steps, log2=6)

    def test_no_steps(self):
        self.assertEqual(self.raises(decl.BadStep, decl.verify, BOOK, "", log2=5).step, 0)

    def test_a_text_without_a_certificate(self):
        for call in (decl.certify, lambda text, **given: decl.verify(text, "one", **given)):
            fault = self.raises(decl.NotCovered, call, BOOK + " zt", log2=5)
            self.assertEqual((fault.status, fault.unit), (3, 2))

    def test_faults_of_the_text_come_first(self):
        fault = self.raises(decl.RuleFault, decl.verify, BOOK.replace("[2]", "[1/2]"), "one", log2=5)
        self.assertEqual(fault.rule, 7)

    def test_a_grid_that_is_too_large(self):
        self.raises(decl.UsageFault, decl.certify, BOOK, log2=11)


if __name__ == "__main__":
    main()
