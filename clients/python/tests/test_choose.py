"""The size of a bucket and the number of buckets."""

from fractions import Fraction

from support import Case, decl, main


class Buckets(Case):
    def test_the_greatest_that_divides_all(self):
        self.assertEqual(decl.bucket("agg A 2 claims 20000 xs 1500 dsev [500 1750 4000] poisson"), 250)
        self.assertEqual(decl.bucket("agg A dfreq [1] dsev [0.5 1 1.5]"), Fraction(1, 2))
        self.assertEqual(decl.bucket("agg A dfreq [1] dsev [1/3 1/2]"), Fraction(1, 6))
        self.assertEqual(decl.bucket("sev A dsev [4 6] sev B dsev [3] agg D dfreq [1] sev.A"), 2)

    def test_the_number_of_a_common_factor_does_not_count(self):
        self.assertEqual(decl.bucket("port P common 1/3 agg A 2 claims dsev [4 6] poisson"), 2)

    def test_ranges_count_by_first_amount_and_step(self):
        self.assertEqual(decl.bucket("agg A dfreq [1] dsev [100:600:50]"), 50)
        self.assertEqual(decl.bucket("agg A dfreq [1] dsev [100:149:50]"), 100)
        self.assertEqual(decl.bucket("agg A dfreq [1] dsev [2:6]"), 1)

    def test_counts_probabilities_and_notes_do_not_count(self):
        text = "agg A dfreq [1 3] [0.25 0.75] sev dhistogram xps [4, 8] [1/2 1/2] note{7 xs 3} # 5 xs 1"
        self.assertEqual(decl.bucket(text), 4)

    def test_limits_of_clauses_count(self):
        text = "agg A dfreq [1] dsev [40 80] occurrence net of 30 xs 20 aggregate ceded to inf xs 25"
        self.assertEqual(decl.bucket(text), 5)

    def test_shares_ask_for_finer_buckets(self):
        text = "agg N dfreq [1] dsev [1 3] occurrence net of 0.5 so 4 xs 0"
        self.assertEqual(decl.bucket(text), Fraction(1, 2))
        self.assertEqual(decl.bucket(text, shares=False), 1)
        decl.check(text, bs=decl.bucket(text))
        self.assertEqual(decl.bucket("agg N dfreq [1] dsev [2 4 6] occurrence net of 0.5 so 4 xs 2"), 1)
        self.assertEqual(decl.bucket("agg N dfreq [1] dsev [6] occurrence net of 1 po 4 xs 2"), 1)

    def test_all_amounts_nothing(self):
        self.assertEqual(decl.bucket("agg A dfreq [1] dsev [0]"), 1)

    def test_a_text_that_is_refused(self):
        self.raises(decl.SyntaxFault, decl.bucket, "agg")
        self.raises(decl.RuleFault, decl.bucket, "agg D dfreq [1] dsev [1 2] [1/3 1/3]")


class Grids(Case):
    def test_the_least_that_holds_all(self):
        dice = "agg Dice dfreq [2] dsev [1:6]"
        self.assertEqual(decl.grid(dice, inside="0.999999"), 4)
        self.assertEqual(decl.grid(dice, inside="50%"), 3)
        self.assertEqual(decl.grid(dice, inside=Fraction(1, 6)), 3)

    def test_poisson(self):
        self.assertEqual(decl.grid("agg P 10 claims dsev [1] poisson", inside=0.97), 5)
        self.assertEqual(decl.grid("agg P 10 claims dsev [1] poisson", inside=0.95), 4)

    def test_no_grid_is_large_enough(self):
        fault = self.raises(decl.GridTooSmall, decl.grid, "agg A dfreq [1] dsev [0 100000]", inside=0.9)
        self.assertTrue(fault.row.holds(Fraction(1, 2)))
        self.assertEqual(fault.log2, 16)
        self.assertIn("the largest grid, of 65,536 buckets, holds", str(fault))

    def test_long_grids(self):
        """Nothing or one loss, each with 1/2: the least grid that reaches the loss."""
        for loss, log2 in ((4095, 12), (4096, 13), (8191, 13), (8192, 14), (16384, 15), (32768, 16), (65535, 16)):
            self.assertEqual(decl.grid(f"agg A dfreq [1] dsev [0 {loss}]", inside=0.9), log2, loss)

    def test_amounts_that_long_grids_alone_take(self):
        """Amounts past 2^20 buckets, and past 2^22, which no grid takes."""
        self.assertEqual(decl.grid("agg A dfreq [1] dsev [0 2000000]", inside=0.4), 13)
        self.assertEqual(decl.bucket("agg A dfreq [1] dsev [1 2000000]"), 1)
        for call in (decl.bucket, decl.grid):
            self.assertEqual(self.raises(decl.RuleFault, call, "agg A dfreq [1] dsev [1 4194305]").rule, 8)

    def test_a_clause_that_long_grids_alone_take(self):
        """Nothing or 20,000 is left, so 15 is the least grid; 20,000 and more buckets before the clause are there from 13 on."""
        late = "agg A dfreq [1] dsev [0 40000] aggregate net of 20000 xs 0"
        self.assertEqual(self.raises(decl.RuleFault, decl.check, late, log2=12).rule, 21)
        self.assertEqual(decl.grid(late, inside=0.9), 15)
        self.assertEqual(decl.bucket(late), 20000)

    def test_a_clause_that_the_longest_grids_do_not_take(self):
        """Nothing or 40,000 is left of 90,000: 50,000 and 8,192 buckets before the clause are there, 50,000 and 16,384 are not."""
        fault = self.raises(decl.GridTooSmall, decl.grid, "agg A dfreq [1] dsev [0 90000] aggregate net of 50000 xs 0", inside=0.9)
        self.assertEqual(fault.log2, 13)
        self.assertIn("the largest grid that takes the text, of 8,192 buckets, holds", str(fault))
        self.assertTrue(fault.row.holds(Fraction(1, 2)))


if __name__ == "__main__":
    main()
