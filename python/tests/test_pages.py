"""The commands and the page: figures that add up, and marks that browsers and screen readers need."""

from __future__ import annotations

import contextlib
import dataclasses
import io
import json
import pathlib
import re
import tempfile
import unittest
from html.parser import HTMLParser
from typing import Dict, List, Optional, Tuple

import speedex
from speedex import charts, report
from speedex.__main__ import main
from tests.cases import TOP, stored

VOID = {"meta", "br", "img", "hr", "link", "input"}
TRADE = TOP / "examples" / "trade"


class Page(HTMLParser):
    """A page, with its elements counted and the cells of its tables by caption."""

    def __init__(self, text: str) -> None:
        super().__init__()
        self.open: List[str] = []
        self.ids: List[str] = []
        self.refers: List[str] = []
        self.heads: List[Dict[str, Optional[str]]] = []
        self.pictures: List[List[str]] = []
        self.tables: Dict[str, List[List[str]]] = {}
        self.caption = ""
        self.faults: List[str] = []
        self.feed(text)
        self.close()
        self.faults += self.open

    def handle_starttag(self, tag: str, attrs: List[Tuple[str, Optional[str]]]) -> None:
        given = dict(attrs)
        self.ids += [given["id"] or ""] if "id" in given else []
        for name in ("aria-labelledby", "href"):
            self.refers += (given.get(name) or "").replace("#", "").split()
        if tag == "th":
            self.heads.append(given)
        if tag == "svg" and given.get("role") == "img":
            self.pictures.append([])
        if tag in ("title", "desc") and self.pictures and "svg" in self.open:
            self.pictures[-1].append(tag)
        if tag == "caption":
            self.caption = ""
        if tag == "tr" and self.caption:
            self.tables.setdefault(self.caption, []).append([])
        if tag in ("td", "th") and self.caption:
            self.tables[self.caption][-1].append("")
        if tag not in VOID:
            self.open.append(tag)

    def handle_startendtag(self, tag: str, attrs: List[Tuple[str, Optional[str]]]) -> None:
        self.handle_starttag(tag, attrs)
        if tag not in VOID:
            self.handle_endtag(tag)

    def handle_endtag(self, tag: str) -> None:
        if not self.open or self.open.pop() != tag:
            self.faults.append(f"</{tag}>")
        if tag == "table":
            self.caption = ""

    def handle_data(self, data: str) -> None:
        if "caption" in self.open:
            self.caption += data
        elif self.caption and self.open and ("td" in self.open or "th" in self.open):
            self.tables[self.caption][-1][-1] += data


def number(cell: str) -> int:
    return int(cell.replace(",", ""))


class Reports(unittest.TestCase):
    def pages(self) -> "List[Tuple[str, speedex.State, speedex.Block, str]]":
        found = []
        for case in stored("check"):
            if case.code == 0:
                state, block = speedex.decode_all(case.input)
                assert isinstance(state, speedex.State) and isinstance(block, speedex.Block)
                found.append((case.name, state, block, report.page(state, block)))
        return found

    def test_marks(self) -> None:
        pages = self.pages()
        self.assertGreater(len(pages), 15)
        for name, _, block, text in pages:
            with self.subTest(name):
                page = Page(text)
                self.assertEqual(page.faults, [])
                self.assertEqual(len(page.ids), len(set(page.ids)))
                self.assertLessEqual(set(page.refers), set(page.ids))
                self.assertTrue(all(head.get("scope") in ("col", "row", "colgroup") for head in page.heads))
                self.assertGreaterEqual(len(page.tables), 6)
                self.assertGreater(len(page.pictures), 0)
                self.assertTrue(all(marks == ["title", "desc"] for marks in page.pictures))
                self.assertIn('<html lang="en">', text)
                self.assertIn('name="viewport"', text)
                self.assertIn("prefers-color-scheme: dark", text)
                self.assertNotRegex(text.replace("http://www.w3.org/2000/svg", ""), r"https?://|<script|url\(")
                self.assertEqual("Why lower bounds were dropped" in text, block.cut is not None)

    def test_totals_add_up(self) -> None:
        for name, state, block, text in self.pages():
            with self.subTest(name):
                tables = Page(text).tables
                rows = tables["All units of each asset"][2:]
                self.assertEqual(len(rows), len(block.prices))
                for row in rows:
                    cells = [number(cell) for cell in row[1:]]
                    self.assertEqual(sum(cells[0:3]), cells[3])
                    self.assertEqual(sum(cells[4:7]), cells[7])
                    self.assertEqual((cells[3], cells[8]), (cells[7], 0))
                for row in tables["What rounding keeps, in units"][1:]:
                    _, gives, gets, kept, before, after = map(number, row)
                    self.assertEqual((gives - gets, before + kept), (kept, after))

    def test_a_refused_block_has_no_page(self) -> None:
        refused = 0
        for case in stored("check"):
            if case.code == 6:
                state, block = speedex.decode_all(case.input)
                assert isinstance(state, speedex.State) and isinstance(block, speedex.Block)
                with self.assertRaises(speedex.RefusedError) as caught:
                    report.page(state, block)
                self.assertEqual(str(caught.exception), case.line)
                refused += 1
        self.assertGreater(refused, 15)

    def test_a_curve_of_many_offers_has_few_steps(self) -> None:
        curve = charts.Curve([(1 + place / 10**6, 3.0) for place in range(100_000)], 5.0)
        steps = curve.steps()
        self.assertLessEqual(len(steps), charts.MOST_STEPS + 1)
        self.assertEqual(steps[-1][1], curve.total)
        self.assertEqual(sorted(steps), steps)


class Commands(unittest.TestCase):
    def run_main(self, *words: str) -> Tuple[int, str, str]:
        out, err = io.StringIO(), io.StringIO()
        with contextlib.redirect_stdout(out), contextlib.redirect_stderr(err):
            try:
                code = main(list(words))
            except SystemExit as ended:
                code = int(ended.code or 0)
        return code, out.getvalue(), err.getvalue()

    def test_commands_on_the_trade(self) -> None:
        files = str(TRADE / "state.record"), str(TRADE / "block.record")
        code, text, _ = self.run_main("explain", *files)
        self.assertEqual((code, text.splitlines()[-1]), (0, "valid height 1 value 1006632960 bounds kept"))
        code, text, _ = self.run_main("fills", *files, "--json")
        self.assertEqual((code, json.loads(text)["height"]), (0, 1))
        fills = len(json.loads(text)["fills"])
        self.assertEqual(fills, 2)
        code, text, _ = self.run_main("fills", *files, "--csv")
        self.assertEqual((code, text.count("\n")), (0, 1 + fills))
        with tempfile.TemporaryDirectory() as folder:
            page = pathlib.Path(folder) / "market.html"
            self.assertEqual(self.run_main("report", *files, "-o", str(page)), (0, "", ""))
            self.assertTrue(page.read_text(encoding="utf-8").startswith("<!doctype html>"))

    def test_what_is_wrong_has_its_code(self) -> None:
        state, block = str(TRADE / "state.record"), str(TRADE / "block.record")
        self.assertEqual(self.run_main("fills", state, state), (5, "", "malformed at 151: 2 Tag\n"))
        code, _, line = self.run_main("explain", state, "no-such-file")
        self.assertEqual(code, 3)
        self.assertIn("no-such-file", line)
        self.assertEqual(self.run_main("explain", state)[0], 2)
        with tempfile.TemporaryDirectory() as folder:
            forged = pathlib.Path(folder) / "forged"
            made = speedex.decode((TRADE / "block.record").read_bytes(), speedex.Block)
            forged.write_bytes(speedex.encode(dataclasses.replace(made, height=7)))
            line = "refused block 0: 2 WrongHeight have 0 said 7"
            self.assertEqual(self.run_main("fills", state, str(forged)), (6, "", f"{line}\n"))
            code, text, _ = self.run_main("explain", state, str(forged))
            self.assertEqual((code, text.splitlines()[-1]), (6, line))
            self.assertRegex(text, re.compile(r"^ 2 NextHeight  BROKEN", re.M))
            self.assertEqual(self.run_main("report", state, block, "-o", folder)[0], 4)


if __name__ == "__main__":
    unittest.main()
