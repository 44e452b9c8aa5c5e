"""Tests of the pages: each link leads to a file and a heading that are there, and README is short."""

import glob
import hashlib
import os
import re
import unittest

TOP = os.path.dirname(os.path.dirname(os.path.dirname(os.path.realpath(__file__))))
PLACES = ("*.md", "*/*.md", "*/*/README.md", "tools/*/tests/data/README.md")
PAGES = sorted(it for place in PLACES for it in glob.glob(f"{TOP}/{place}"))
LINK = re.compile(r"\]\(([^)\s]*)\)")
# A page below docs/ that a text names, also one without a folder beside a heading of it.
NAMED = re.compile(r"\bdocs/([A-Za-z_]+\.(?:md|txt))(#[\w-]+)?")


def text_of(path):
    with open(path, encoding="utf-8") as it:
        return it.read()


def anchors_of(text):
    """The anchors of a page's headings, as forges make them."""
    told = re.sub(r"(?ms)^ *```.*?^ *```$", "", text)
    return {re.sub(r"[^\w -]", "", it.lower()).replace(" ", "-") for it in re.findall(r"(?m)^#+ (.+)$", told)}


class Pages(unittest.TestCase):
    def test_each_link_leads_somewhere(self):
        self.assertGreater(len(PAGES), 40)
        for page in PAGES:
            for link in LINK.findall(text_of(page)):
                if "://" in link:
                    continue
                path, _, anchor = link.partition("#")
                to = os.path.normpath(os.path.join(os.path.dirname(page), path)) if path else page
                with self.subTest(f"{os.path.relpath(page, TOP)}: {link}"):
                    self.assertTrue(os.path.exists(to))
                    self.assertTrue(not anchor or anchor in anchors_of(text_of(to)))

    def test_each_page_that_is_named_is_there(self):
        for above, folders, names in os.walk(TOP):
            folders[:] = [it for it in folders if it not in (".git", "out", "data", "__pycache__")]
            for path in (os.path.join(above, it) for it in names):
                with open(path, encoding="utf-8", errors="replace") as it:
                    found = NAMED.findall(it.read())
                for page, anchor in found:
                    with self.subTest(f"{os.path.relpath(path, TOP)}: docs/{page}{anchor}"):
                        self.assertTrue(os.path.exists(f"{TOP}/docs/{page}"))
                        self.assertTrue(not anchor or anchor[1:] in anchors_of(text_of(f"{TOP}/docs/{page}")))

    def test_the_first_page_is_short(self):
        text = text_of(f"{TOP}/README.md")
        self.assertLessEqual(len(text.split()), 900)
        self.assertLessEqual(text.count("\n"), 130)
        named = {os.path.basename(it) for it in glob.glob(f"{TOP}/docs/*.md")} - set(re.findall(r"\(docs/(\w+\.md)", text))
        self.assertEqual(named, set(), "README names each document")

    def test_the_pages_are_short(self):
        """All words of README and docs/, as `wc -w` counts them."""
        pages = [f"{TOP}/README.md", *glob.glob(f"{TOP}/docs/*.md")]
        words = sum(len(text_of(it).split()) for it in pages)
        self.assertLessEqual(words, 15200, "what stands twice goes; what one crate or tool alone needs goes to its README")


class Pictures(unittest.TestCase):
    """The pictures of docs/pictures, each made of the text beside it by tools/pictures.sh."""

    TEXTS = sorted(glob.glob(f"{TOP}/docs/pictures/*.dot"))

    def test_each_is_made_of_the_text_beside_it(self):
        self.assertGreater(len(self.TEXTS), 3)
        made = [it.replace(".dot", ".svg") for it in self.TEXTS]
        self.assertEqual(made, sorted(glob.glob(f"{TOP}/docs/pictures/*.svg")))
        for text, picture in zip(self.TEXTS, made):
            with open(text, "rb") as it:
                hashed = hashlib.sha256(it.read()).hexdigest()
            with self.subTest(os.path.basename(picture)):
                last = f"<!-- made of {os.path.basename(text)}, SHA-256 {hashed} -->"
                self.assertEqual(text_of(picture).splitlines()[-1], last, "tools/pictures.sh makes it anew")

    def test_each_is_shown_on_a_page(self):
        shown = {os.path.basename(link) for page in PAGES for link in LINK.findall(text_of(page))}
        self.assertEqual([it for it in self.TEXTS if os.path.basename(it).replace(".dot", ".svg") not in shown], [])

    def test_the_layers_are_those_of_the_crates(self):
        uses = dict(it.partition(":")[::2] for it in text_of(f"{TOP}/crates.txt").splitlines() if not it.startswith("#"))
        text = re.sub(r"(?m)^//.*", "", text_of(f"{TOP}/docs/pictures/layers.dot"))
        chains = [re.findall(r"\w+", it) for it in re.findall(r"(?m)^  (\w+(?: -> \w+)+)$", text)]
        for above, below in (pair for chain in chains for pair in zip(chain, chain[1:])):
            with self.subTest(f"{above} stands on {below}"):
                self.assertIn(below, uses[above].split())
        apart = {"benchmark", "exchange"} | {it for it in uses if it.startswith("test_")}
        self.assertEqual({it for chain in chains for it in chain}, set(uses) - apart)
