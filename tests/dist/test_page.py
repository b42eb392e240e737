"""The page of dist/ opens, and answers as the program does."""
import json
import os
import unittest

import browser
from asks import DIST, asks, differs
from pages import PageTest
from support import BAY, HAS_PROGRAM

PAGE = os.path.join(DIST, "mapf.html")
CALLS = """(async (asks) => { const replies = [];
  for (const [grid, scen, agents, rule, below, texts] of asks) {
    const files = [grid, scen].map(bytesOf), ask = async (call, more, ...numbers) =>
      (await engine.call(call, [...files, ...more.map(bytesOf)], CALLS[call](...numbers))).text;
    const plans = [await ask("mapf_solve", [], agents, 1e6, 0, rule), await ask("mapf_solve", [], agents, below, 0, rule)];
    const lines = [];
    for (const text of texts) lines.push((await ask("mapf_check", [text], agents, rule)).trim());
    replies.push([...plans, lines]); }
  return replies; })"""


@unittest.skipUnless(os.path.isfile(PAGE), "no dist/: bindings/release makes it")
@unittest.skipUnless(browser.PROGRAM, "no chromium")
@unittest.skipUnless(HAS_PROGRAM, "no program: ./mapf --version builds it")
class Page(PageTest):
    @classmethod
    def setUpClass(cls):
        super().setUpClass()
        cls.browser.open(PAGE)

    def test_files_are_chosen_and_solved(self):
        self.load(map=BAY[0], scen=BAY[1])
        self.browser.value("$('count').value = 2")
        self.browser.click("#solve")
        self.browser.until("$('name-plan').textContent === 'solved.plan'")
        self.assertEqual(self.shown(), ("Valid, cost 4", "valid 4"))

    def test_the_programs_answers(self):
        given = json.dumps([ask.given() for ask in asks()])
        for ask, answers in zip(asks(), self.browser.value(f"{CALLS}({given})")):
            self.assertEqual(differs(ask, *answers), [], ask)
