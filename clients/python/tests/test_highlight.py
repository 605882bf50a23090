"""Colours of the language, for Pygments and for Vim: the words are those of docs/LANGUAGE.md, and each token has its kind."""

import importlib.util
import re
import shutil
import subprocess
import sys
import unittest

from support import ROOT, Case, main

PAGE = (ROOT / "docs" / "LANGUAGE.md").read_text(encoding="utf-8")
VIM = ROOT / "share" / "vim"
TEXT = """# a book
sev Small dsev [1:6] port Two common 1/2
agg sev-x 2.5 claims inf xs 0 sev.Small! poisson zt note{as of
2026} agg B 9% loss sev dhistogram xps [.5] sev lognorm net
"""


def listed(pattern):
    """The words of the page between back quotes behind this pattern."""
    return set(re.search(pattern + r"`([^`]*)`", PAGE)[1].split())


KEYWORDS, CONTINUOUS = listed("\nKeywords: "), listed("\nWords of continuous severities: ")


@unittest.skipIf(importlib.util.find_spec("pygments") is None, "Pygments is not installed")
class Pygments(Case):
    def test_the_words_of_the_page(self):
        from decl import highlight

        parts = (highlight.DECLARE, highlight.COUNTS, highlight.OTHERS)
        self.assertEqual(sorted(word for part in parts for word in part), sorted(KEYWORDS))
        self.assertEqual(set(highlight.REFUSED), CONTINUOUS - KEYWORDS)

    def test_each_token_has_its_kind(self):
        from decl.highlight import DeclLexer

        found = [(str(kind)[6:], text) for kind, text in DeclLexer().get_tokens(TEXT) if text.strip()]
        kinds = dict((text, kind) for kind, text in found)
        self.assertEqual("".join(text for _, text in DeclLexer().get_tokens(TEXT)), TEXT)
        wanted = {"# a book": "Comment.Single", "Small": "Name.Class", "sev-x": "Name.Class", "B": "Name.Class", "sev.Small": "Name.Variable"}
        wanted |= {"note{as of\n2026}": "Literal.String.Doc", "poisson": "Keyword.Type", "lognorm": "Name.Exception", "net": "Keyword"}
        wanted |= {"dhistogram": "Keyword", "common": "Keyword.Declaration", "sev": "Keyword.Declaration", "!": "Punctuation"}
        wanted |= {each: "Literal.Number" for each in ("1/2", "2.5", "9%", ".5", "0")}
        self.assertEqual({text: kinds.get(text) for text in wanted}, wanted)

    def test_no_token_begins_with_another_sign(self):
        from decl.highlight import DeclLexer

        self.assertIn("Token.Error", [str(kind) for kind, text in DeclLexer().get_tokens("agg A [1;6]") if text == ";"])

    def test_no_other_module_needs_it(self):
        done = [sys.executable, "-c", "import sys, decl; sys.exit('pygments' in sys.modules)"]
        source = str(ROOT / "clients" / "python" / "src")
        self.assertEqual(subprocess.run(done, env={"PYTHONPATH": source}).returncode, 0)


class Vim(Case):
    def test_the_words_of_the_page(self):
        written = (VIM / "syntax" / "decl.vim").read_text(encoding="utf-8")
        words = {name: [] for name in ("Declare", "Count", "Word", "Refused")}
        for name, rest in re.findall(r"(?m)^syntax keyword decl(\w+) (.*)$", written):
            words[name] += rest.partition(" nextgroup")[0].split()
        found = words["Declare"] + words["Count"] + words["Word"] + ["sev"]  # which is a match there
        self.assertEqual(sorted(found), sorted(KEYWORDS))
        self.assertEqual(set(words["Refused"]), CONTINUOUS - KEYWORDS)

    def test_each_token_has_its_group(self):
        """Asks Vim for the group at some places of the text, in a file whose name ends in .decl."""
        vim = shutil.which("vim")
        if vim is None or "+syntax" not in subprocess.run([vim, "--version"], capture_output=True, text=True).stdout:
            raise unittest.SkipTest("Vim with syntax is not installed")
        wanted = {"# a": "Comment", "sev Small": "Declare", "Small": "Name", "dsev": "Word", "1/2": "Number", "sev-x": "Name"}
        wanted |= {"sev.Small": "Reference", "poisson": "Count", "zt": "Count", "note": "Note", "2026": "Note", "B 9": "Name", "9%": "Number"}
        wanted |= {"dhist": "Word", "xps": "Word", ".5": "Number", "lognorm": "Refused", "net": "Word", "common": "Declare", "!": "Sign"}
        room = self.new_folder()
        (room / "book.decl").write_text(TEXT)
        lines = ["set nocompatible", f"set runtimepath^={VIM}", "filetype on", "syntax on", f"edit {room / 'book.decl'}", "let found = []"]
        for piece in wanted:
            before = TEXT[: TEXT.index(piece)]
            place = f"{before.count(chr(10)) + 1}, {len(before) - before.rfind(chr(10))}"
            lines.append(f"call add(found, synIDattr(synID({place}, 1), 'name'))")
        lines += [f"call writefile(found, '{room / 'found'}')", "qa!"]
        (room / "ask.vim").write_text("\n".join(lines) + "\n")
        words = [vim, "-es", "-N", "-u", "NONE", "-i", "NONE", "-S", str(room / "ask.vim")]
        subprocess.run(words, stdin=subprocess.DEVNULL, capture_output=True, timeout=60)
        found = (room / "found").read_text().split()
        self.assertEqual(dict(zip(wanted, found)), {piece: f"decl{group}" for piece, group in wanted.items()})


if __name__ == "__main__":
    main()
