"""Pages as Chromium draws them, where it is installed: in windows of 360 and 1,200 pixels, light and dark, and on paper of A4."""

import html
import itertools
import json
import pathlib
import re
import shutil
import subprocess
import tempfile
import unittest

from support import ROOT, Case, decl, main

#: Looks: the width of the window, and what stands in the page's style in place of what Chromium would ask the system.
PAPER = {"@media print": "@media screen", "@media screen and": "@media print and"}
DARK = {"(prefers-color-scheme: dark)": "(min-width: 1px)"}
LOOKS = {"360 light": (360, {}), "360 dark": (360, DARK), "1200 light": (1200, {}), "1200 dark": (1200, DARK), "paper": (688, PAPER)}
#: The least ratio of the luminances of a text and of what is behind it.
CONTRAST = 4.5
#: In each frame: the boxes of texts, marks and pictures, the contrast of each text, whether anything is wider than its window, and the units
#: whose areas are met along the middle of each picture of shares, at so many places between its first and its last total or year.
LOOKED = """
const channel = c => (c /= 255) <= 0.03928 ? c / 12.92 : ((c + 0.055) / 1.055) ** 2.4;
const numbers = colour => colour.match(/[\\d.]+/g).map(Number);
const luminance = colour => { const [r, g, b] = numbers(colour); return 0.2126 * channel(r) + 0.7152 * channel(g) + 0.0722 * channel(b); };
const behind = it => { for (; it; it = it.parentElement) {
    const colour = getComputedStyle(it).backgroundColor, found = numbers(colour);
    if (found.length < 4 || found[3] > 0) return colour; } return "rgb(255, 255, 255)"; };
const contrast = it => {
  const style = getComputedStyle(it), one = luminance(it instanceof SVGElement ? style.fill : style.color), other = luminance(behind(it));
  return (Math.max(one, other) + 0.05) / (Math.min(one, other) + 0.05); };
const box = it => { const {left, right, top, bottom} = it.getBoundingClientRect(); return {left, right, top, bottom}; };
const seen = it => it.getClientRects().length > 0;
function met(page, svg) {
  const ticks = [...svg.querySelectorAll(".tick")], first = box(ticks[0]), last = box(ticks[ticks.length - 1]), found = {};
  const middle = it => (it.left + it.right) / 2, low = Number(ticks[0].dataset.total), high = Number(ticks[ticks.length - 1].dataset.total);
  const y = box(svg).top + 0.45 * (box(svg).bottom - box(svg).top);
  for (let total = low; total <= high; total += Math.ceil((high - low) / 500)) {
    const x = middle(first) + (middle(last) - middle(first)) * (total - low) / (high - low), hit = page.elementFromPoint(x, y);
    found[total] = hit && hit.classList.contains("share") ? hit.dataset.unit : ""; }
  return found; }
function looked(frame) {
  const page = frame.contentDocument, root = page.documentElement;
  frame.style.height = root.scrollHeight + "px";
  const texts = [...page.querySelectorAll("h1, h2, p, pre, caption, th, td, li, figcaption, svg text")].filter(seen);
  return {
    width: root.clientWidth, wide: root.scrollWidth,
    texts: texts.map(it => ({told: it.tagName + " " + it.textContent.slice(0, 30), contrast: contrast(it), full: it.scrollWidth > it.clientWidth + 1
      && it.clientWidth > 0, picture: it instanceof SVGElement ? box(it.ownerSVGElement) : null, size: parseFloat(getComputedStyle(it).fontSize)
      * (it instanceof SVGElement ? it.ownerSVGElement.clientWidth / it.ownerSVGElement.viewBox.baseVal.width : 1), ...box(it)})),
    marks: [...page.querySelectorAll(".mark")].filter(seen).map(it => ({kind: it.getAttribute("class"), years: it.dataset.years, ...box(it)})),
    shares: [...page.querySelectorAll("svg")].filter(it => seen(it) && it.querySelector("[data-totals]")).map(it => met(page, it)),
    paper: getComputedStyle(page.body).backgroundColor }; }
window.onload = () => {
  const found = {};
  for (const frame of document.querySelectorAll("iframe")) found[frame.title] = looked(frame);
  const told = document.createElement("textarea");
  told.id = "looked"; told.textContent = JSON.stringify(found); document.body.append(told); };
"""


def example(name):
    """The book of an example."""
    return decl.Book((ROOT / "examples" / f"{name}.decl").read_text(encoding="utf-8"))


def made():
    """Pages of each kind: of a book with clauses, in large money, with stretches without shares, under a common factor, between two programs,
    with and without a limit of claims, and of several books."""
    yield "portfolio", example("portfolio").page(currency="EUR", date="31 December 2026")
    yield "money", example("money").page([10, 100, 1000])
    gaps = decl.Book("port P agg A dfreq [1] dsev [1 2 3 21 22 23] agg B dfreq [1] dsev [1 2]")
    yield "gaps", gaps.page([2, "7/2", 5, 20, 50, 100, 250, 20000], title="Two stretches of totals", currency="CHF")
    long = "Professional-Indemnity-of-Architects-and-Engineers"
    text = f"port Large agg {long} 2 claims dsev [1000000000 2000000000] poisson agg Marine 1 claims dsev [1000000000] poisson"
    yield "large", decl.Book(text).page([10, 20, 50, 100, 200, 250, 500, 1000], currency="JPY")
    yield "common", example("common").page()
    rows = [{"name": f"Line of business {at}", "claims": at + 1, "amounts": [1000, 2000], "limit": 1500, "attachment": 0} for at in range(18)]
    yield "pooled", decl.from_frame(rows).page([10, 200])
    yield "between", decl.between("agg C 3 claims 500 xs 0 sev lognorm 50 cv 1.75 poisson", 10, log2=8).page([10, 100])
    yield "open", decl.between("agg C 1 claims sev lognorm 50 cv 1 poisson", 20, log2=7).page([10, 100])
    start = "agg Fire 3 claims dsev [10 20 50 100 300] [0.5 0.25 0.15 0.08 0.02]"
    clauses = {"gross": "poisson", "80 xs 20": "occurrence net of 80 xs 20 poisson", "40 % quota share": "occurrence net of 0.4 so inf xs 0 poisson"}
    clauses.update({"stop loss": "poisson aggregate net of 150 xs 150", "a higher stop loss": "poisson aggregate net of 200 xs 200"})
    yield "compared", decl.compare_page({name: f"{start} {clause}" for name, clause in clauses.items()}, currency="EUR thousand")


class Browser(Case):
    """What Chromium draws, looked at once for each page."""

    @classmethod
    def setUpClass(cls):
        cls.browser = next(filter(None, map(shutil.which, ("chromium", "chromium-browser", "google-chrome"))), None)
        if cls.browser is None:
            raise unittest.SkipTest("Chromium is not installed")
        folder = tempfile.TemporaryDirectory()
        cls.addClassCleanup(folder.cleanup)
        cls.folder = pathlib.Path(folder.name)
        cls.pages = dict(made())
        cls.looked = {name: cls.looked_at(page) for name, page in cls.pages.items()}

    @classmethod
    def run_browser(cls, *words):
        """A finished run of Chromium without a window."""
        with tempfile.TemporaryDirectory() as room:
            fixed = ["--headless", "--no-sandbox", "--disable-gpu", "--hide-scrollbars", "--enable-logging=stderr", f"--user-data-dir={room}"]
            return subprocess.run([cls.browser, *fixed, *words], capture_output=True, text=True, timeout=180)

    @classmethod
    def looked_at(cls, page):
        """What is seen of a page in each look."""
        frames = []
        for look, (width, changes) in LOOKS.items():
            text = page
            for old, new in changes.items():
                assert old in text
                text = text.replace(old, new)
            style = f"border: 0; width: {width}px; height: 800px"
            frames.append(f'<iframe title="{look}" style="{style}" srcdoc="{html.escape(text)}"></iframe>')
        place = cls.folder / "opened.html"
        place.write_text(f"<!DOCTYPE html><body>{''.join(frames)}<script>{LOOKED}</script></body>", encoding="utf-8")
        done = cls.run_browser("--dump-dom", place.as_uri())
        assert done.returncode == 0 and "CONSOLE" not in done.stderr, done.stderr
        return json.loads(html.unescape(re.search(r'<textarea id="looked">(.*?)</textarea>', done.stdout, re.S)[1]))

    def each(self):
        """Each page in each look."""
        return [(name, look, found) for name, looks in self.looked.items() for look, found in looks.items()]

    def test_a_message_on_the_console_is_seen(self):
        place = self.folder / "told.html"
        place.write_text("<script>console.log('seen')</script>", encoding="utf-8")
        self.assertIn("CONSOLE", self.run_browser("--dump-dom", place.as_uri()).stderr)

    def test_nothing_overflows_and_nothing_is_cut(self):
        """No page is wider than its window, each text lies inside it, and each one of a picture inside of that."""
        for name, look, found in self.each():
            self.assertEqual(found["width"], LOOKS[look][0])
            self.assertGreater(len(found["texts"]), 40)
            self.assertEqual(self.faults_of(found), [], (name, look))

    @staticmethod
    def faults_of(found):
        """What overflows, and texts that are cut."""
        faults = [f"{found['wide']} pixels wide"] if found["wide"] > found["width"] else []
        for text in found["texts"]:
            outer = text["picture"] or {"left": 0, "right": found["width"], "top": 0, "bottom": float("inf")}
            across = outer["left"] - 1 <= text["left"] and text["right"] <= outer["right"] + 1
            down = outer["top"] - 1 <= text["top"] and text["bottom"] <= outer["bottom"] + 1
            faults += [] if across and down and not text["full"] else [text["told"]]
        return faults

    def test_what_overflows_and_what_is_pale_are_seen(self):
        """A word that is wider than its window, a label outside of its picture, and gray on gray."""
        page = self.pages["gaps"]
        for old, new in (("</h1>", "n" * 400 + "</h1>"), ("overflow-wrap: anywhere", "overflow-wrap: normal"), ('x="2.00"', 'x="-20.00"'),
                         ("</body>", '<p style="color: #777; background: #888">pale</p></body>')):  # fmt: skip
            page = page.replace(old, new)
        for found in self.looked_at(page).values():
            faults = self.faults_of(found)
            self.assertTrue(any(each.endswith("pixels wide") for each in faults), faults)
            self.assertIn("text probability of more", faults)
            self.assertEqual([text["told"] for text in found["texts"] if text["contrast"] < CONTRAST], ["P pale"])

    def test_texts_are_readable(self):
        """Against what is behind them, and in their size on the screen; dark is dark, and paper white."""
        for name, look, found in self.each():
            for text in found["texts"]:
                self.assertGreaterEqual(text["contrast"], CONTRAST, (name, look, text))
                self.assertGreaterEqual(text["size"], 10, (name, look, text))
            dark = int(re.search(r"\d+", found["paper"])[0]) < 64
            self.assertEqual(dark, look.endswith("dark"), found["paper"])

    def test_no_two_texts_overlap(self):
        for name, look, found in self.each():
            for one, other in itertools.combinations(found["texts"], 2):
                across = min(one["right"], other["right"]) - max(one["left"], other["left"])
                down = min(one["bottom"], other["bottom"]) - max(one["top"], other["top"])
                self.assertFalse(across > 1 and down > 1, (name, look, one["told"], other["told"]))

    def test_marks_go_down_and_to_the_right(self):
        for name, look, found in self.each():
            self.assertEqual(len(found["marks"]) == 0, name == "compared")
            for kind in ("VaR", "TVaR"):
                ordered = sorted((mark for mark in found["marks"] if kind in mark["kind"].split()), key=lambda mark: eval_years(mark["years"]))
                for one, other in zip(ordered, ordered[1:]):
                    self.assertTrue(one["top"] < other["top"] and one["left"] <= other["left"] + 0.1, (name, look, kind))

    def test_areas_break(self):
        """Two stretches of totals, of 2 to 5 and of 22 to 25, are filled, and what lies between them and before them is not."""
        for look, found in self.looked["gaps"].items():
            (met,) = found["shares"]
            there = sorted(int(total) for total, unit in met.items() if unit)
            inside = [total for total in there if total not in (2, 5, 22, 25)]
            self.assertEqual(set(inside), {3, 4, 23, 24} & {*map(int, met)}, look)
        for look, found in self.looked["portfolio"].items():
            (met,) = found["shares"]
            self.assertFalse(any(met[str(total)] for total in range(1, 38)), look)
            self.assertTrue(all(met[str(total)] for total in range(42, 400)), look)

    def test_on_paper(self):
        """Printed on A4: a file of a few sheets, on which every figure stands."""
        for name in ("portfolio", "compared"):
            place, paper = self.folder / f"{name}.html", self.folder / f"{name}.pdf"
            place.write_text(self.pages[name], encoding="utf-8")
            done = self.run_browser("--no-pdf-header-footer", f"--print-to-pdf={paper}", place.as_uri())
            self.assertTrue(paper.is_file() and paper.read_bytes().startswith(b"%PDF"), done.stderr)
            if shutil.which("pdftotext") is None:
                raise unittest.SkipTest("pdftotext is not installed")
            told = subprocess.run(["pdftotext", "-layout", str(paper), "-"], capture_output=True, text=True).stdout
            self.assertLess(told.count("\f"), 9, name)
            words = " ".join(told.split())
            shown = re.findall(r"<td data-name[^>]*data-low[^>]*>([^<]*)</td>", self.pages[name])
            self.assertGreater(len(shown), 50)
            for end in {end for each in shown for end in re.split(r"&nbsp;to |\s", each) if end}:
                self.assertIn(end, words, name)


def eval_years(told):
    """A return period as a number, from a decimal or a fraction."""
    first, _, last = told.partition("/")
    return float(first) / float(last or 1)


if __name__ == "__main__":
    main()
