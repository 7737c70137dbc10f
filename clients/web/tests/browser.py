"""Tries the page in headless Chromium, for trials/web: browser.py ADDRESS --folder FOLDER [--program PROGRAM] [--shots FOLDER].

FOLDER has the page, which one trial serves itself. With `--pictures FOLDER` the pictures of the manual are made, and nothing is tried.

Each trial is a function whose name begins with `try_`; it is handed a page that was opened anew, and fails by an exception. Printed is a
line for each and their count. Where the page has no parser for JavaScript, trials that need it are left out; in a run with `CI=true` they fail.
"""

import argparse
import base64
import functools
import http.server
import json
import os
import re
import subprocess
import sys
import tempfile
import threading
import time
import traceback

from selenium import webdriver
from selenium.common.exceptions import StaleElementReferenceException
from selenium.webdriver.chrome.service import Service
from selenium.webdriver.common.by import By
from selenium.webdriver.common.keys import Keys

TOP = os.path.realpath(f"{os.path.dirname(__file__)}/../../..")
sys.path.append(f"{TOP}/clients/python/tests")
from packages import left_out  # noqa: E402

DESK, PHONE, NARROW = (1280, 900), (390, 844), (320, 640)
TOUR, DONE = 'Plus(Times(Plus(2,3),Var("x")),Times(4,0))', 'Times(5,Var("x"))'
WAIT = 60
# A comparison of two long lists that are equal, again and again: a million steps of it take minutes.
ENDLESS = "repeat({x: ?(x,x)})"
# A pattern so deep that a worker's stack, which is smaller than that of a program, runs out.
DEEPEST = "?" + "(" * 1995 + "1" + ")" * 1995
LONG = "[" + ",".join(["a"] * 20000) + "]"
SOURCE = ".source-pane"


# Finds the editor of a pane, and sets a field as somebody would.
EDITOR = """const set = (field, value, event) => { field.value = value; field.dispatchEvent(new Event(event)); };
const pane = document.querySelector(arguments[0]);
const cm = pane.querySelector('.CodeMirror')?.CodeMirror;
const field = pane.querySelector('textarea');
"""


class Page:
    """The page in a browser."""

    def __init__(self, driver, address):
        self.driver, self.address = driver, address

    def size(self, width, height, dark=False, height_of_page=False):
        if height_of_page:
            height = self.js("return document.documentElement.scrollHeight")
        told = {"width": width, "height": height, "deviceScaleFactor": 1, "mobile": width < 600}
        self.driver.execute_cdp_cmd("Emulation.setDeviceMetricsOverride", told)
        colours = [{"name": "prefers-color-scheme", "value": "dark" if dark else "light"}]
        self.driver.execute_cdp_cmd("Emulation.setEmulatedMedia", {"features": colours})

    def open(self, hash_=""):
        self.driver.get("about:blank")
        self.driver.get_log("browser")
        self.driver.get(self.address + hash_)
        self.until(lambda: self.ready(), "the page starts")
        self.until_idle()

    def has_parser(self):
        return self.driver.execute_async_script("const [done] = arguments; fetch('examples.json').then(it => it.json()).then(it => done('javascript' in it.languages))")

    def ready(self):
        return self.js("return Number(document.documentElement.dataset.ready || 0)")

    def processor_time(self):
        """The seconds that the page's own thread has worked."""
        return next(it["value"] for it in self.driver.execute_cdp_cmd("Performance.getMetrics", {})["metrics"] if it["name"] == "TaskDuration")

    def js(self, text, *words):
        return self.driver.execute_script(text, *words)

    def until(self, holds, what, seconds=WAIT):
        end = time.monotonic() + seconds
        while time.monotonic() < end:
            found = holds()
            if found:
                return found
            time.sleep(0.02)
        raise AssertionError(f"not within {seconds} seconds: {what}")

    def until_idle(self):
        self.until(lambda: not self.js("return document.body.classList.contains('running')"), "the run ends")

    def one(self, selector):
        return self.driver.find_element(By.CSS_SELECTOR, selector)

    def all(self, selector):
        return self.driver.find_elements(By.CSS_SELECTOR, selector)

    def click(self, selector, waits=True):
        if waits and selector != "#stop":
            self.until_idle()
        self.until(lambda: self.clicked(selector), f"{selector} is clicked")
        if waits:
            self.until_idle()

    def clicked(self, selector):
        """Clicks on an element, if it isn't drawn anew at this very moment."""
        try:
            self.one(selector).click()
        except StaleElementReferenceException:
            return False
        return True

    def press(self, *keys):
        webdriver.ActionChains(self.driver).send_keys(*keys).perform()

    def press_with(self, modifier, key):
        webdriver.ActionChains(self.driver).key_down(modifier).send_keys(key).key_up(modifier).perform()
        self.until_idle()

    def text(self, selector):
        return self.js("return document.querySelector(arguments[0]).innerText", selector).strip()

    def editor(self, pane, text=None):
        """The text of an editor, which becomes `text` as if it was typed."""
        if text is not None:
            self.js(EDITOR + "cm ? cm.setValue(arguments[1]) : set(field, arguments[1], 'input')", pane, text)
        return self.js(EDITOR + "return cm ? cm.getValue() : field.value", pane)

    def type_into(self, pane, text):
        """Types into the editor of a pane, when the page has put the focus there, and waits until the editor has read it. A dialog that
        closes first gives the focus back to the button that opened it, which may be in the pane, too."""
        self.until(lambda: self.js("""const it = document.activeElement;
            return document.querySelector(arguments[0]).contains(it) && it.matches('textarea, [contenteditable]')""", pane),
            f"the focus is in the editor of {pane}")
        self.driver.switch_to.active_element.send_keys(text)
        self.until(lambda: text in self.editor(pane), f"what was typed is in {pane}")

    def field(self, name, value):
        self.js("const it = document.getElementById(arguments[0]); it.value = arguments[1]; it.dispatchEvent(new Event('input'))",
            name, value)

    def strategy(self, text):
        self.editor(".strategy-pane", text)

    def tree(self):
        """The tree that is shown, as its dump has it."""
        name = self.text("#tree-tabs [aria-selected=true]")
        return re.search(rf"^tree {re.escape(name)} (.*)$", self.shown("#dump"), re.MULTILINE)[1]

    def shown(self, selector):
        """The text of the dialog that a button opens, once it is open: an address is deflated first, and a dump is a run."""
        self.click(selector)
        self.until(lambda: self.js("return document.getElementById('text-dialog').open"), f"{selector} opens a dialog")
        text = self.js("return document.getElementById('text-shown').value")
        self.js("document.getElementById('text-dialog').close()")
        return text

    def read_out(self):
        """What a screen reader is told of: the role and the name of each node."""
        nodes = self.driver.execute_cdp_cmd("Accessibility.getFullAXTree", {})["nodes"]
        return [(it["role"]["value"], it.get("name", {}).get("value", "")) for it in nodes if not it["ignored"] and "role" in it]

    def texts(self, selector):
        """The texts of all these elements, read at once: the page may draw them anew at any time."""
        return self.js("return [...document.querySelectorAll(arguments[0])].map(it => it.innerText)", selector)

    def steps(self):
        return self.texts("#steps button")

    def current(self):
        return self.js("return [...document.querySelectorAll('#steps button')].findIndex(it => it.hasAttribute('aria-current'))")

    def said(self, pane):
        return self.text(f"#{pane}-said")

    def marks(self):
        return self.js("return Object.fromEntries([...document.querySelectorAll('#outline .marked')].map(it => [it.dataset.path, it.className]))")

    def apply(self, strategy=None):
        if strategy is not None:
            self.strategy(strategy)
        self.click("#apply")


# The constructors of the rewrites, for the module of a case.
NAMES = "\n  ".join(f"{name} : {' * '.join(['a'] * count)}{' -> ' if count else ''}a" for name, count in {
    "Absent": 0, "BinaryExpression": 3, "BlockStatement": 1, "ConditionalExpression": 3, "ExpressionStatement": 1, "Identifier": 1, "IfStatement": 3, "LogicalExpression": 3,
    "Null": 0, "Number": 1, "NumberLiteral": 1, "ReturnStatement": 1, "String": 1, "StringLiteral": 1, "ThrowStatement": 1, "TypedIdentifier": 3,
}.items())  # fmt: skip


def case(language, text, strategy="id", **more):
    """The address of a case whose tree `t` is that of a source."""
    state = {"sources": [["t", language, text]], "trees": [], "modules": [["own", f"signature constructors\n  {NAMES}"]], "tree": "t", "path": "/", "budget": 100000}
    written = json.dumps({**state, "strategy": strategy, **more}).encode()
    return "#j=" + base64.urlsafe_b64encode(written).decode().rstrip("=")


def same(got, wanted):
    if got != wanted:
        raise AssertionError(f"{got!r}\n  wanted: {wanted!r}")


def has(text, *parts):
    for part in parts:
        if part not in text:
            raise AssertionError(f"{part!r} isn't in {text!r}")


# ---- trials


def try_apply_undo_redo(page):
    same(page.tree(), TOUR)
    same([page.one("#undo").is_enabled(), page.one("#redo").is_enabled()], [False, False])
    page.click("#apply")
    has(page.said("strategy"), "Applied", "1 place changed")
    same(page.tree(), DONE)
    same((page.steps(), page.current()), (["start", "normalise"], 1))
    same(list(page.marks()), ["/"])
    has(page.text("#outline"), "before", "now")
    page.click("#undo")
    same((page.tree(), page.current()), (TOUR, 0))
    page.click("#redo")
    same((page.tree(), page.current()), (DONE, 1))
    page.one("h1").click()
    page.press_with(Keys.CONTROL, "z")
    same((page.tree(), page.current()), (TOUR, 0))
    page.press_with(Keys.CONTROL, "y")
    same((page.tree(), page.current()), (DONE, 1))


def try_timeline(page):
    for strategy in ("all(!1)", "all(!2)", "all(!3)"):
        page.apply(strategy)
    same(page.steps(), ["start", "all(!1)", "all(!2)", "all(!3)"])
    for at, wanted in ((1, "Plus(1,1)"), (3, "Plus(3,3)"), (0, TOUR), (2, "Plus(2,2)")):
        page.all("#steps button")[at].click()
        page.until_idle()
        same((page.current(), page.tree()), (at, wanted))
    same(len(page.all("#steps .later")), 1)
    page.apply("all(!4)")
    same(page.steps(), ["start", "all(!1)", "all(!2)", "all(!4)"])


def try_characters(page):
    """Strings that are UTF-8 are shown as texts, with a switch for their bytes."""
    page.click("#tree-text")
    page.editor(".tree-pane", 'Plus("Grüße, 世界","a\\303","\\303","\\342\\200\\256x","\\"ü\\n")')
    page.field("path", "/")
    page.apply("id")
    shown = ['"Grüße, 世界"', '"a\\303"', '"\\303"', '"\\342\\200\\256x"', '"\\"ü\\n"']
    has(page.text("#outline"), *shown)
    bytes_ = '"Gr\\303\\274\\303\\237e, \\344\\270\\226\\347\\225\\214"'
    has(page.tree(), bytes_)
    page.strategy('1(!"ö")')
    page.click("#preview")
    has(page.text("#outline .pair .new"), '"ö"')
    page.click("#tree-bytes")
    has(page.text("#outline"), bytes_)
    assert "ü" not in page.text("#outline"), "a string is shown as text"
    page.click("#tree-text")
    has(page.editor(".tree-pane"), bytes_)
    page.click("#tree-bytes")
    has(page.editor(".tree-pane"), *shown)
    # what is shown spells the same tree
    before = page.tree()
    page.editor(".tree-pane", page.editor(".tree-pane") + " ")
    page.apply("id")
    same(page.tree(), before)


def try_preview(page):
    page.strategy("alltd(Fold)")
    page.click("#preview")
    has(page.said("strategy"), "Would replace 2 places")
    same(sorted(page.marks()), ["/0/0", "/1"])
    same([it.text for it in page.all("#outline .pair h4")], ["now", "after"] * 2)
    same([it.text for it in page.all("#outline .pair .new pre")], ["5", "0"])
    same((page.tree(), page.steps()), (TOUR, ["start"]))
    page.click("#outline .badge")
    same(len(page.all("#outline .pair")), 1)
    page.strategy("?_")
    page.click("#preview")
    has(page.said("strategy"), "Would replace nothing")


def try_while_typing(page):
    """A strategy is tried as it is typed, and nothing is changed."""
    page.strategy("alltd(Fold)")
    page.until(lambda: "Would replace 2 places" in page.said("strategy"), "what it would replace is said")
    same(sorted(page.marks()), ["/0/0", "/1"])
    for strategy, said in (("Fold", "It would be refused (fails)"), ("rec x(id; x)", "It takes more than 20,000 steps"), ("id", "Would replace nothing")):
        page.strategy(strategy)
        page.until(lambda: said in page.said("strategy"), f"{said} is said of {strategy}")
        same(page.marks(), {})
    page.strategy("topdown(try(Fould)); Foold")
    page.until(lambda: "Refused (unknown)" in page.said("strategy"), "the fault is said")
    same(page.texts(".strategy-pane .cm-fault"), ["Fould", "Foold"])
    for number, name in enumerate(("Fould", "Foold")):
        has(page.all(".strategy-pane .cm-fault")[number].get_attribute("title"), name)
    same((page.tree(), page.steps()), (TOUR, ["start"]))
    # in a text that isn't loaded, whether it would be refused
    page.editor(".module-pane", page.editor(".module-pane") + "\n  twice(s) = s; s")
    page.strategy("twice(id, id)")
    page.until(lambda: "Refused (unknown)" in page.said("strategy"), "the fault is said of what isn't loaded")


def try_names_of_tokens(page):
    """A name is completed, and what it means is shown where the mouse rests on it."""
    page.strategy("")
    page.js("document.querySelector('.strategy-pane .CodeMirror').CodeMirror.focus()")
    page.type_into(".strategy-pane", "inn")
    page.press_with(Keys.CONTROL, Keys.SPACE)
    page.until(lambda: page.texts(".CodeMirror-hint"), "names are offered")
    same(page.texts(".CodeMirror-hint"), ["innermost(s): a strategy of library"])
    page.press(Keys.ENTER)
    same(page.editor(".strategy-pane"), "innermost")
    for text, said in (("normalise", "normalise: a strategy of arith, line "), ("Fold", "Fold: a rule of arith, line "), ("Plus", "Plus : exp * exp -> exp: a constructor"), ("id", "succeeds")):
        page.strategy(f"{text} ")
        token = page.one(".strategy-pane .CodeMirror-line span span")
        webdriver.ActionChains(page.driver).move_to_element(token).perform()
        page.until(lambda: said in (page.one(".strategy-pane .CodeMirror").get_attribute("title") or ""), f"what {text} means is shown", 5)


def try_find(page):
    """Names, strings and integers are found in the tree, by the mouse and by keys."""
    field = page.one("#find")
    value = lambda: page.js("return document.getElementById('path').value")
    field.send_keys("Plus")
    same((page.text("#found"), value()), ("1 of 2", "/"))
    field.send_keys(Keys.ENTER)
    same((page.text("#found"), value()), ("2 of 2", "/0/0"))
    field.send_keys(Keys.SHIFT, Keys.ENTER)
    same((page.text("#found"), value()), ("1 of 2", "/"))
    page.click("#find-before")
    same((page.text("#found"), value()), ("2 of 2", "/0/0"))
    page.strategy("Fold")
    page.click("#apply")
    same(page.tree(), 'Plus(Times(5,Var("x")),Times(4,0))')
    same(page.text("#found"), "1")
    field.send_keys("!")
    same(page.text("#found"), "no match")
    field.send_keys(Keys.ESCAPE)
    same((field.get_attribute("value"), page.text("#found")), ("", ""))
    # one that isn't drawn yet
    page.click("#tree-text")
    page.editor(".tree-pane", "[" + ",".join(f"g({it},a)" for it in range(13000)) + "]")
    page.click("#tree-text")
    field.send_keys("12999")
    same((page.text("#found"), value()), ("1 of 1", "/12999/0"))
    seen = page.js("""const it = document.querySelector('#outline [data-path="/12999/0"] .label').getBoundingClientRect();
        const box = document.getElementById('outline-box').getBoundingClientRect();
        return it.top >= box.top && it.bottom <= box.bottom + 1""")
    same(seen, True)


def try_path(page):
    page.strategy("Fold")
    page.click("#outline [data-path='/1'] .label")
    same(page.js("return document.getElementById('path').value"), "/1")
    page.click("#apply")
    same(page.tree(), 'Plus(Times(Plus(2,3),Var("x")),0)')
    same(list(page.marks()), ["/1"])
    # a subterm of a closed row
    page.click("#outline [data-path='/0/0/0']")
    same(page.js("return document.getElementById('path').value"), "/0/0/0")
    page.field("path", "/7/1")
    page.click("#apply")
    has(page.said("strategy"), "Refused (path)", "leads only as far as")
    same(page.one("#path").get_attribute("aria-invalid"), "true")


def try_fault_in_module(page):
    text = page.editor(".module-pane")
    page.editor(".module-pane", text.replace("Plus(x,0) -> x", "Plus(x,0)) -> x"))
    # said while somebody types, too
    page.until(lambda: "Refused (syntax)" in page.said("module"), "the fault is shown as the text is typed")
    page.click("#apply")
    line = text[: text.index("Plus(x,0)")].count("\n") + 1
    has(page.said("module"), "Refused (syntax)", f"line {line}, column ")
    same(page.text(".module-pane .cm-fault"), ")")
    has(page.one("#module-tabs [aria-selected=true]").get_attribute("aria-label"), "arith, edited, has a fault")
    same((page.tree(), page.steps()), (TOUR, ["start"]))
    page.click("#module-said button")
    same(page.js(EDITOR + "return [cm.hasFocus(), cm.getCursor().line + 1]", ".module-pane"), [True, line])
    page.editor(".module-pane", text.replace("Fold <+ Unit", "Unit"))
    page.click("#apply")
    same(page.steps(), ["start", "edit arith", "normalise"])
    page.click("#undo")
    page.click("#undo")
    same(page.editor(".module-pane"), text)


def try_fault_of_names(page):
    page.apply("topdown(try(Fould))")
    has(page.said("strategy"), "Refused (unknown)", "nothing defines Fould", "did you mean Fold?")
    same(page.text(".strategy-pane .cm-fault"), "Fould")
    page.apply("id;\n  foo")
    has(page.said("strategy"), "line 2, column 3")
    same(page.text(".strategy-pane .cm-fault"), "foo")
    # a module that another one needs
    page.click("#module-tabs button:first-child")
    page.click("#module-remove")
    has(page.said("module"), "Refused (unknown)", "innermost")
    same(page.text("#module-tabs [aria-selected=true]"), "arith")
    same(page.steps(), ["start"])


def try_fault_in_tree(page):
    page.click("#tree-text")
    page.editor(".tree-pane", "Plus(1,\n  Times(2,,3))")
    page.click("#apply")
    has(page.said("tree"), "Refused (term)", "line 2, column 11")
    same(page.text(".tree-pane .cm-fault"), ",")
    page.editor(".tree-pane", "Plus(1,\n  Times(2,3))")
    page.click("#apply")
    same(page.steps(), ["start", "edit e", "normalise"])
    same(page.tree(), "7")
    same(page.one("#outline-box").is_displayed(), True)


def try_fails_and_spent(page):
    page.apply("Fold; Fold")
    has(page.said("strategy"), "Refused (fails)", "Nothing was changed.")
    page.field("budget", 20)
    page.apply("normalise")
    has(page.said("strategy"), "Refused (spent)", "20 steps")
    page.click("#strategy-said button")
    has(page.said("strategy"), "Applied")
    same(page.tree(), DONE)
    for path, budget, strategy, said in (("x", 10, "id", "A path is"), ("/", 0, "id", "The budget is"), ("/", 10, " ", "Write a strategy")):
        page.field("path", path)
        page.field("budget", budget)
        page.apply(strategy)
        has(page.said("strategy"), said)


def try_trees_and_modules(page):
    page.click("#tree-add", waits=False)
    page.js("document.getElementById('add-from').value = 1")
    name = page.one("#add-name")
    for text, said in (("9t", "A name is"), ("e", "There is a tree of this name")):
        name.clear()
        name.send_keys(text, Keys.ENTER)
        has(page.text("#add-said"), said)
    name.clear()
    name.send_keys("copied", Keys.ENTER)
    page.until(lambda: page.steps()[-1] == "copy e to copied", "the tree is copied")
    page.apply("all(!1)")
    same(page.tree(), "Plus(1,1)")
    page.click("#tree-tabs button:first-child")
    same(page.tree(), TOUR)
    page.click("#tree-remove")
    same(page.texts("#tree-tabs button"), ["copied"])
    page.click("#undo")
    same(page.texts("#tree-tabs button"), ["e", "copied"])
    page.click("#module-add", waits=False)
    page.js("""const it = document.getElementById('add-from');
        it.value = [...it.options].findIndex(o => o.text.endsWith(' lists'));
        it.dispatchEvent(new Event('change'))""")
    page.one("#add-name").send_keys(Keys.ENTER)
    page.until(lambda: page.steps()[-1] == "add lists", "the module is added")
    page.apply("!([1,2],[3]); conc")
    has(page.said("strategy"), "Applied")


def try_first_module(page):
    """A tree and a module are written from nothing, with what the page says of a mistake."""
    page.click("#tree-add", waits=False)
    page.one("#add-name").send_keys(Keys.ENTER)
    page.type_into(".tree-pane", 'Call("f",[Call("g",[])])')
    page.click("#module-add", waits=False)
    page.one("#add-name").send_keys(Keys.ENTER)
    page.type_into(".module-pane", 'Rename : Call("f",xs) -> Call("h",xs)')
    same(page.editor(".module-pane").split("\n")[2:4], ["rules", '  Rename : Call("f",xs) -> Call("h",xs)'])
    page.size(*PHONE)
    page.apply("topdown(try(Rename))")
    has(page.said("module"), "undeclared", "write Call : a * a -> a below signature constructors")
    has(page.said("strategy"), "Not run, since the module m is refused.")
    seen = "const it = document.querySelector(arguments[0]).getBoundingClientRect(); return it.top > -1 && it.bottom < innerHeight + 1"
    same(page.js(seen, "#strategy-said"), True)
    page.click("#strategy-said button")
    same(page.js(seen, "#module-said"), True)
    page.size(*DESK)
    page.editor(".module-pane", page.editor(".module-pane").replace("constructors\n  ", "constructors\n  Call : a * a -> a"))
    page.apply()
    same(page.tree(), 'Call("h",[Call("g",[])])')


def try_stop(page):
    page.apply("all(!1)")
    page.click("#tree-text")
    page.editor(".tree-pane", f"({LONG},{LONG})")
    page.click("#tree-text")
    page.field("budget", 1000000)
    page.strategy(ENDLESS)
    page.click("#apply", waits=False)
    page.until(lambda: page.one("#stop").is_displayed(), "the button to stop is shown")
    # the page goes on meanwhile
    page.click("footer summary", waits=False)
    same(page.one("dl.keys").is_displayed(), True)
    page.editor(".module-pane", page.editor(".module-pane") + "\n")
    page.click("#stop")
    has(page.text("#notice"), "The run was stopped.", "nothing is lost")
    same((page.steps(), page.current()), (["start", "all(!1)", "edit e"], 2))
    same(page.one("#stop").is_displayed(), False)
    page.click("#undo")
    same(page.tree(), "Plus(1,1)")
    page.strategy(ENDLESS)
    page.click("#redo")
    page.click("#apply", waits=False)
    page.until(lambda: page.one("#stop").is_displayed(), "the button to stop is shown")
    page.press(Keys.ESCAPE)
    page.until_idle()
    has(page.text("#notice"), "The run was stopped.")


def try_trap(page):
    page.apply("all(!1)")
    page.apply(DEEPEST)
    has(page.text("#notice"), "The engine ran out of stack", "nothing is lost")
    same((page.tree(), page.steps()), ("Plus(1,1)", ["start", "all(!1)"]))
    page.apply("all(!2)")
    same((page.tree(), page.steps()), ("Plus(2,2)", ["start", "all(!1)", "all(!2)"]))
    same(page.one("#notice").is_displayed(), False)
    page.click("#undo")
    page.click("#undo")
    same(page.tree(), TOUR)


def try_address(page):
    page.apply("all(!1)")
    page.editor(".module-pane", page.editor(".module-pane") + "\n  twice(s) = s; s")
    page.strategy("all(twice(\\ x -> [x] \\))")
    address = page.shown("#share")
    has(address, "#z=")
    page.open()
    same(page.tree(), TOUR)
    page.open("#" + address.partition("#")[2])
    same(page.tree(), "Plus(1,1)")
    same(page.editor(".strategy-pane"), "all(twice(\\ x -> [x] \\))")
    page.click("#apply")
    same(page.tree(), "Plus([[1]],[[1]])")
    # an address that comes while the page is open, and one that holds nothing
    page.js("location.hash = arguments[0]", "#example=polynomials")
    page.until(lambda: page.text("#tree-tabs").startswith("left"), "the example is opened")
    page.until_idle()
    page.open("#z=nonsense")
    has(page.text("#notice"), "no case that this page can read")
    same(page.tree(), TOUR)


def try_address_in_mid_run(page):
    """Another example, or another case, at ten moments of a run: what is shown is what the session has."""
    page.click("#tree-text")
    page.editor(".tree-pane", "[" + ",".join(["1"] * 3000) + "]")
    page.click("#tree-text")
    case = page.shown("#share").partition("#")[2]
    for moment in range(10):
        hash_, first = (("#example=polynomials", "left"), (f"#{case}", "e"))[moment % 2]
        page.open(f"#{case}" if moment % 2 == 0 else "#example=dead-code")
        page.field("budget", 1000000)
        # it takes long enough for all of the moments, and ends in steps, in a refusal or by being ended
        page.strategy(("topdown(try(?1; !2))", "repeat(id)", ENDLESS, "!(1,1)")[moment % 4])
        page.js("""document.getElementById('apply').click();
            setTimeout(() => { location.hash = arguments[0]; }, arguments[1])""", hash_, moment * 25)
        page.until(lambda: page.texts("#tree-tabs button")[:1] == [first] and not page.js("return location.hash !== arguments[0]", hash_), f"{hash_[:30]} is opened")
        page.until_idle()
        same(page.steps(), ["start"])
        dump = page.shown("#dump")
        for name in page.texts("#tree-tabs button"):
            has(dump, f"tree {name} ")
        same(len(re.findall(r"^tree ", dump, re.MULTILINE)), len(page.texts("#tree-tabs button")))
        same(page.one("#notice").is_displayed(), False)
        shown = page.text("#tree-tabs [aria-selected=true]")
        page.click("#tree-text")
        text = re.search(rf"^tree {re.escape(shown)} (.*)$", dump, re.MULTILINE)[1]
        same(re.sub(r"\s", "", page.editor(".tree-pane")), re.sub(r"\s", "", text))
        page.click("#tree-text")
        page.apply("id")
        has(page.said("strategy"), "Applied")
    # several at once: the last is opened
    page.js("for (const it of ['tour', 'dead-code', 'normal-form', 'polynomials']) location.hash = `example=${it}`")
    page.until(lambda: page.texts("#tree-tabs button")[:1] == ["left"], "the last is opened")
    page.until_idle()
    has(page.shown("#dump"), "tree left ")


# Packing an address waits until it is let go on.
HELD = """const Deflated = CompressionStream;
window.held = {begun: 0, ended: 0};
const goes = new Promise(done => { window.held.go = done; });
window.CompressionStream = class {
  constructor(kind) {
    const packed = new Deflated(kind);
    window.held.begun++;
    const waits = new TransformStream({async flush() { await goes; setTimeout(() => window.held.ended++); }});
    return {writable: packed.writable, readable: packed.readable.pipeThrough(waits)};
  }
};"""


def try_address_packed_late(page):
    """What the address was about to say doesn't take the place of an address that is opened meanwhile."""
    page.js(HELD)
    page.strategy("id; id")
    page.until(lambda: page.js("return window.held.begun") == 1, "the address is being packed")
    page.js("location.hash = '#example=polynomials'")
    page.until(lambda: page.texts("#tree-tabs button")[:1] == ["left"], "the example is opened")
    page.until_idle()
    page.js("window.held.go()")
    page.until(lambda: page.js("return window.held.ended") == 1, "the address is packed")
    same(page.js("return location.hash"), "#example=polynomials")
    same(page.shown("#share").partition("#")[2][:2], "z=")


def try_damaged_addresses(page):
    """An address that holds no case opens the page with a sentence."""
    page.apply("all(!1)")
    state = {"trees": [["t", "1"]], "modules": [], "tree": "t", "path": "/", "budget": 10, "strategy": "id"}
    spelled = lambda it: "#j=" + page.js("return btoa(arguments[0])", json.dumps(it)).replace("=", "")
    page.open(spelled(state))
    same(page.tree(), "1")
    wrong = [{**state, "tries": 5}, {**state, "tries": [{"tree": 1}]}, {**state, "module": 7}, {**state, "trees": "t"}, {**state, "budget": "x"}, 7, None, []]
    for hash_ in ("#example=%", "#example=nothing", "#z=%%", "#j=", "#nothing", *map(spelled, wrong)):
        page.open(hash_)
        has(page.text("#notice"), "no case that this page can read")
        same(page.tree(), TOUR)


def try_faults_in_address(page):
    """A case that is sent with faults is shown with them."""
    page.editor(".module-pane", "rules\n  Bad : Plus(x -> x")
    address = page.shown("#share")
    page.open("#" + address.partition("#")[2])
    has(page.said("module"), "Refused (syntax)")
    same(page.tree(), TOUR)
    has(page.editor(".module-pane"), "Bad : Plus(x -> x")


def try_script_and_dump(page, program=None):
    """The program comes to the same trees and modules by the script, and by the dump."""
    page.open("#example=rename-function")
    page.click("#apply")
    page.apply("id;\n// a comment\n  swap(|\"surface\")")
    page.click("#tree-text")
    page.editor(".tree-pane", 'Program([],\n  "with\\nlines")')
    page.click("#tree-text")
    page.click("#undo")
    script, dump = page.shown("#script"), page.shown("#dump")
    if program:
        for text in (script, dump):
            ran = subprocess.run([program], input=(text + "\ndump\n").encode(), stdout=subprocess.PIPE, timeout=60)
            lines = ran.stdout.decode().split("\n")
            commands = re.findall(r"^\S.*$", text, re.MULTILINE)
            same((lines[: len(commands)], "\n".join(lines[len(commands) :]).strip()), (["ok"] * len(commands), dump.strip()))


def try_examples(page):
    for example in page.js("return [...document.querySelectorAll('#example option')].map(it => it.value).filter(Boolean)"):
        page.open(f"#example={example}")
        same(page.text("#notice") if page.one("#notice").is_displayed() else "", "")
        assert page.text("#about"), f"nothing is said of {example}"
        page.click("#apply")
        has(page.said("strategy"), "Applied in")
        page.click("#undo")
        for it in range(len(page.all("#tries button"))):
            page.all("#tries button")[it].click()
            page.click("#preview")
            said = page.said("strategy")
            assert re.match(r"Would replace|Refused \((fails|spent|path|notree)\)", said), f"{example}: {said}"


def with_parser(trial):
    """Marks a trial that needs the parser for JavaScript, which a page may be built without."""
    trial.needs_parser = True
    return trial


SAMPLE, SETTINGS = (f"{TOP}/clients/web/samples/{it}" for it in ("cart.js", "service.json"))


def text_of(file):
    with open(file, encoding="utf-8") as it:
        return it.read()


def in_tree(page):
    """The path that is chosen in the tree."""
    return page.js("return document.querySelector('#outline [aria-selected=true]')?.dataset.path ?? document.querySelector('#outline .chosen')?.dataset.path")


def in_text(page):
    """What is marked in the source."""
    return "\n".join(page.texts(f"{SOURCE} .cm-chosen"))


def word(page, text, number=0):
    """A word of the source, to click on."""
    found = "return [...document.querySelectorAll('.source-pane .CodeMirror-line span')].filter(it => !it.children.length && it.textContent === arguments[0])[arguments[1]]"
    return page.js(found, text, number)


def diff(page):
    """The lines of the diff that is shown: those that go, and those that come."""
    return [[it[1:].strip() for it in page.texts(f"#diff {tag}")] for tag in ("del", "ins")]


@with_parser
def try_source_and_tree(page):
    """A source is shown beside its tree, and what is selected in one is selected in the other."""
    page.open("#example=javascript")
    same(page.editor(SOURCE), text_of(SAMPLE))
    has(page.text("#outline"), "Program", "FunctionDeclaration", 'Identifier("total")')
    assert "{(" not in page.text("#outline"), "positions are shown"
    page.click("#outline [data-path='/0/1/2'] .label")
    same((in_text(page), page.text("#source-hint")), ("total", "/0/1/2 is in line 4, columns 10 to 14."))
    word(page, "rates").click()
    same((in_tree(page), in_text(page)), ("/0/1/3/1", "rates"))
    same(page.js("return document.getElementById('path').value"), "/0/1/3/1")
    # one that isn't drawn before it is selected
    word(page, "price").click()
    chosen = in_tree(page)
    same(in_text(page), "price")
    has(page.js("return document.querySelector(`#outline [data-path='${arguments[0]}']`).textContent", chosen), 'Identifier("price")')
    # by keys
    page.press(Keys.HOME)
    page.press(Keys.ARROW_UP)
    page.until(lambda: in_tree(page) != chosen, "the cursor selects in the tree")
    page.js("document.querySelector('#outline [role=treeitem]').focus()")
    page.press(Keys.ARROW_DOWN, Keys.ARROW_DOWN, Keys.ENTER)
    same((in_tree(page), in_text(page)), ("/0/0", "'use strict'"))
    page.click("#path-root")
    same((in_tree(page), in_text(page), page.one("#path-root").is_displayed()), ("/", "", False))


@with_parser
def try_source_rewritten(page):
    """After a step the source is written anew, with what has changed in it, and comments stay."""
    page.open("#example=javascript")
    page.click("#apply")
    before, after = text_of(SAMPLE), text_of(SAMPLE).replace("rates.indexOf(item.rate) !== -1", "rates.includes(item.rate)").replace("== 'number'", "=== 'number'")
    same(page.editor(SOURCE), after)
    changed = [(one.strip(), two.strip()) for one, two in zip(before.split("\n"), after.split("\n")) if one != two]
    same(diff(page), [list(it) for it in zip(*changed)])
    has(page.text("#diff"), "@@ -4,13 +4,13 @@", "// a known rate")
    word(page, "includes").click()
    same(in_text(page), "includes")
    page.click("#undo")
    same((page.editor(SOURCE), page.one("#diff-pane").is_displayed()), (before, False))
    page.click("#redo")
    same(page.editor(SOURCE), after)
    page.field("path", "/")
    page.all("#tries button")[1].click()
    page.click("#apply")
    has(page.editor(SOURCE), "cart.items.forEach((item) => {", "{ // a known rate", "warn(`no rate for ${item.name}`)", "// What a cart comes to, in cents.")
    same(page.said("source"), "")


@with_parser
def try_source_edited(page):
    """The tree is read as a source is typed; it is loaded as a step where a strategy is applied."""
    page.open("#example=javascript")
    page.editor(SOURCE, "let answer = 42")
    page.until(lambda: "answer" in page.text("#outline"), "the tree is read")
    same(page.steps(), ["start"])
    page.click("#outline [data-path='/0/0/1/0/0'] .label, #outline [data-path='/0/0/1/0/0']")
    same(in_text(page), "answer")
    page.editor(SOURCE, "let answer = \n  42 +")
    page.until(lambda: "Not read as JavaScript" in page.said("source"), "the fault is said")
    has(page.said("source"), "line 2, column 7")
    page.field("path", "/")
    page.apply("id")
    has(page.said("strategy"), "Not run, since the source cart is refused.")
    same(page.steps(), ["start"])
    page.editor(SOURCE, "let answer = 42 // of all")
    page.apply('topdown(try(\\ NumberLiteral(42) -> NumberLiteral(43) \\))')
    same(page.steps()[:2], ["start", "edit cart"])
    same((page.editor(SOURCE), page.said("source")), ("let answer = 43 // of all", ""))
    same(diff(page), [["let answer = 42 // of all"], ["let answer = 43 // of all"]])
    page.click("#undo")
    page.click("#undo")
    same(page.editor(SOURCE), text_of(SAMPLE))


def try_source_added(page):
    """A source is begun from nothing, beside a tree that has none."""
    same(page.one(SOURCE).is_displayed(), False)
    page.click("#tree-add", waits=False)
    page.js("""const it = document.getElementById('add-from');
        it.value = [...it.options].findIndex(o => o.text === 'a source in JSON');
        it.dispatchEvent(new Event('change'))""")
    page.one("#add-name").send_keys(Keys.ENTER)
    page.type_into(SOURCE, "[1, 2]")
    page.until(lambda: "Array" in page.text("#outline"), "the tree is read")
    page.apply("id")
    same((page.steps(), page.texts("#tree-tabs button")), (["start", "add t", "id"], ["e", "t"]))
    same(page.tree(), "Document(Array([Number(1){(1,2)},Number(2){(4,5)}]){(0,6)}){(0,6)}")
    page.click("#tree-tabs button:first-child")
    same(page.one(SOURCE).is_displayed(), False)
    page.click("#tree-tabs button:last-child")
    same(page.editor(SOURCE), "[1, 2]")
    # a copy has it, too
    page.click("#tree-add", waits=False)
    page.js("const it = document.getElementById('add-from'); it.value = [...it.options].findIndex(o => o.text === 'a copy of t')")
    name = page.one("#add-name")
    name.clear()
    name.send_keys("u", Keys.ENTER)
    page.until(lambda: page.steps()[-1] == "copy t to u", "the tree is copied")
    page.apply("oncetd(\\ 1 -> 3 \\)")
    same((page.editor(SOURCE), diff(page)), ("[3, 2]", [["[1, 2]"], ["[3, 2]"]]))
    page.click("#tree-remove")
    same(page.editor(SOURCE), "[1, 2]")


def try_source_after_stop(page):
    """A session that is made again has its sources, also where its steps are gone."""
    page.open(case("json", "[1, 2]", "rec x(\\ 1 -> 3 \\ <+ one(x))", trees=[["long", f"({LONG},{LONG})"]]))
    page.click("#apply")
    page.click("#tree-tabs button:first-child")
    page.field("budget", 1000000)
    page.strategy("rec r({x: ?(x,x)}; r)")
    page.click("#apply", waits=False)
    page.until(lambda: page.one("#stop").is_displayed(), "the button to stop is shown")
    page.click("#stop")
    has(page.text("#notice"), "The run was stopped.")
    page.click("#tree-tabs button:last-child")
    same((page.editor(SOURCE), diff(page)), ("[3, 2]", [["[1, 2]"], ["[3, 2]"]]))


# What a strategy makes of a source: the language, the source, the strategy, the new source, and what is said of it.
REWRITES = {
    "brackets come where the parse asks for them": (
        "javascript", "x = twice * 2 + twice - twice\ny = -twice; twice.z\n", r'topdown(try(\ Identifier("twice") -> BinaryExpression(Identifier("a"),"+",Identifier("b")) \))',
        "x = (a + b) * 2 + (a + b) - (a + b)\ny = -(a + b); (a + b).z\n", ""),
    "a block comes around an if without else": (
        "javascript", "if (a) {\n  if (b) c()\n} else d()\n", r"topdown(try(\ IfStatement(c,BlockStatement([s]),e) -> IfStatement(c,s,e) \))", "if (a) { if (b) c() } else d()\n", ""),
    "statements move with their comments, and one comes in the place of another": (
        "javascript", "// one\na()\n// two\nb() // three\n// four\nc()\n", r'topdown(try(\ [x,y,z] -> [z,x,ExpressionStatement(Identifier("d"))] \))', "// one\n// four\nc()\na()\n// two\nd // three\n", ""),
    "elements come as the list is written": (
        "javascript", "f(\n  a, // one\n  b\n);\n", r'topdown(try(\ [x@Identifier("a"),y] -> [x,y,StringLiteral("it\047s")] \))', "f(\n  a, // one\n  b,\n  'it\\'s'\n);\n", ""),
    "new statements have semicolons where the others have some": (
        "javascript", "a();\n\nfunction f() {\n\treturn 'ü';\n}\n", r'bottomup(try(\ ReturnStatement(x) -> IfStatement(x,BlockStatement([ReturnStatement(x)]),Absent()) \ <+ \ ExpressionStatement(x) -> ThrowStatement(x) \))',
        "throw a();\n\nfunction f() {\n\tif ('ü') {\n\t\treturn 'ü';\n\t}\n}\n", ""),
    "types of TypeScript stay": (
        "typescript", "const old: Array<number> = [] // one\n", r'topdown(try(\ TypedIdentifier("old",o,t) -> TypedIdentifier("now",o,t) \))', "const now: Array<number> = [] // one\n", ""),
    "a comment in what is made anew is named": (
        "javascript", "x = a ? 'http://b' /* one */ : c\n", r'topdown(try(\ ConditionalExpression(c,a,b) -> LogicalExpression(c,"||",b) \))', "x = a || c\n", "Lost: no place was found for a comment. /* one */"),
    "members of JSON keep their layout": (
        "json", '{"a": 1, // one\n "b": [1.50, "\\u00fc"]}', r'topdown(try(\ String("b") -> String("ü\n") \ <+ \ Number(1) -> Null() \))', '{"a": null, // one\n "ü\\n": [1.50, "\\u00fc"]}', ""),
    "a word isn't two words": ("javascript", "x = a\n", r'topdown(try(\ Identifier("a") -> Identifier("a b") \))', "x = a\n", "Not written: No text of JavaScript was found for the tree"),
    "a tree of another kind": ("javascript", "x = a\n", "!3", "x = a\n", "Not written: It is no tree of JavaScript"),
    "a field of another kind": ("json", "[1]", r'topdown(try(\ Number(1) -> Number([2]) \))', "[1]", "Not written: It is no tree of JSON: no text for"),
}  # fmt: skip
@with_parser
def try_source_rewrites(page):
    """What is new is written by templates, and what can't be written is said, in place of a wrong text."""
    library = page.editor(".module-pane") if page.click("#module-tabs button:first-child") is None else ""
    for name, (language, text, strategy, wanted, said) in REWRITES.items():
        modules = [["library", library], ["own", f"signature constructors\n  {NAMES}"]]
        page.open(case(language, text, strategy, modules=modules))
        page.click("#apply")
        has(page.said("strategy"), "Applied")
        same((name, page.editor(SOURCE)), (name, wanted))
        assert page.said("source").startswith(said) if said else not page.said("source"), f"{name}: {page.said('source')}"
        if said.startswith("Not written"):
            place = page.text("#source-said button")
            page.click("#source-said button")
            same(page.js("return document.getElementById('path').value"), place)


def try_source_in_json(page):
    """A source in JSON is rewritten in the same way."""
    page.open("#example=json")
    same(page.editor(SOURCE), text_of(SETTINGS))
    word(page, '"level"').click()
    has(page.js("return document.querySelector(`#outline [data-path='${arguments[0]}']`).textContent", in_tree(page)), 'String("level")')
    page.field("path", "/")
    page.click("#apply")
    same(diff(page), [['"level": "info", // or "debug"', '"file": null'], ['"level": "warn", // or "debug"', '"file": null,', '"keep": 30']])
    has(page.editor(SOURCE), "// How the service begins. It is read once.")
    same(page.said("source"), "")
    for text, said in (('{"a": 1,, }', "a key is wanted"), ("[1 2]", "a comma is wanted"), ('{"a" 1}', "a colon is wanted"), ("[1] 2", "something comes after"), ('["\\x"]', "wrong escape"), ("", "a value is wanted"), ("[tru]", "no JSON begins here"), ("[" * 20000 + "]" * 20000, "it is nested too deep")):
        page.editor(SOURCE, text)
        page.until(lambda: said in page.said("source"), f"{said} is said of {text[:20]}")


@with_parser
def try_sources_as_the_client_reads_them(page):
    """The tree of a source is the one that the client for Python prints."""
    sys.path.insert(0, f"{TOP}/clients/python")
    from stratbench.terms import read

    texts = {
        "json": [text_of(SETTINGS), '[-0, 12345678901234567890, 1e3, "\\u00fc\\n\\ud834\\udd1e", {"ü": {}, "": [true, null,],},]\n', "/* one */ 7"],
        "javascript": [text_of(SAMPLE), "#!/usr/bin/env node\nlet ü = '𝄞\\n', q = `${a}\nb`, r = /\\//g\nfor (const [x, , ...y] of z) label: ({ x, [y]: 1n, get a () {} })\nclass A extends B { #c = 1; static async *d() {} }\n<p a='1'>{...q} text</p>\n"],
    }
    for language, some in texts.items():
        for text in some:
            page.open(case(language, text))
            with tempfile.NamedTemporaryFile("w", encoding="utf-8", suffix=f".{language}") as file:
                file.write(text)
                file.flush()
                words = [sys.executable, "-B", "-m", "stratbench.languages", "--language", language, file.name]
                said = subprocess.run(words, stdout=subprocess.PIPE, check=True, env={**os.environ, "PYTHONPATH": f"{TOP}/clients/python"}).stdout
            same(read(page.tree()), read(said.decode().strip()))


@with_parser
def try_source_in_address(page):
    """An address has a source with its language, before a step and after one, and as it is typed."""
    page.open("#example=javascript")
    before = page.tree()
    address = lambda: "#" + page.shown("#share").partition("#")[2]
    first = address()
    page.click("#apply")
    second, after, text = address(), page.tree(), page.editor(SOURCE)
    page.editor(SOURCE, "a(")
    third = address()
    page.open(first)
    same((page.editor(SOURCE), page.text("#source-language"), page.tree()), (text_of(SAMPLE), "JavaScript", before))
    page.open(second)
    same((page.editor(SOURCE), page.tree()), (text, after))
    same(diff(page)[0][0], "if (rates.indexOf(item.rate) !== -1) { // a known rate")
    assert len(second) < 3 * len(first), f"{len(first)} and {len(second)} characters"
    page.open(third)
    same(page.editor(SOURCE), "a(")
    has(page.said("source"), "Not read as JavaScript")
    same(page.texts("#tree-tabs button"), ["cart"])
    for wrong in ("x", [["t", "json"]], [["t", "json", 1]], {}):
        page.open(case("json", "1", sources=wrong))
        has(page.text("#notice"), "no case that this page can read")


@with_parser
def try_source_without_parser(page):
    """Where the parser can't be had, a source and its tree are shown, and that is said."""
    page.open("#example=javascript")
    page.click("#apply")
    after, fresh = "#" + page.shown("#share").partition("#")[2], case("javascript", "a()")
    page.driver.execute_cdp_cmd("Network.enable", {})
    page.driver.execute_cdp_cmd("Network.setBlockedURLs", {"urls": ["*javascript.mjs"]})
    try:
        page.open(after)
        same(page.editor(SOURCE), text_of(SAMPLE))
        has(page.said("source"), "Not written: No new text is written: this page has no parser for it.")
        page.click("#outline [data-path='/0/1/2'] .label")
        same(in_text(page), "total")
        page.field("path", "/")
        page.apply("all(id)")
        has(page.said("strategy"), "Applied")
        page.open(fresh)
        has(page.said("source"), "Not read as JavaScript: this page has no parser for it")
        same(page.editor(SOURCE), "a()")
        page.apply("id")
        has(page.said("strategy"), "Not run, since the source t is refused.")
    finally:
        page.driver.execute_cdp_cmd("Network.setBlockedURLs", {"urls": []})


# What `stratbench.refactor --show-module` prints for the rule `$x.indexOf($y) !== -1 -> $x.includes($y)`.
COMPILED = """module made-rules
rules
  Rule1 : BinaryExpression(CallExpression(MemberExpression(x,False(),Identifier("indexOf")),False(),[y]),"!==",UnaryExpression("-",NumberLiteral(1))) -> CallExpression(MemberExpression(x,False(),Identifier("includes")),False(),[y]) where where(<unstarred'> y)
strategies
  all-rules' = bottomup(try(Rule1))
"""


@with_parser
def try_source_by_compiled_rules(page, program=None):
    """A rule in the syntax of the language is run as the command compiles it, with the modules that the page has for that."""
    if program:
        words = [sys.executable, "-B", "-m", "stratbench.refactor", "--language", "javascript", "--rule", "$x.indexOf($y) !== -1 -> $x.includes($y)", "--show-module", SAMPLE]
        environment = {**os.environ, "PYTHONPATH": f"{TOP}/clients/python", "STRATBENCH": program}
        same(subprocess.run(words, stdout=subprocess.PIPE, env=environment, check=True).stdout.decode(), COMPILED)
    page.click("#module-tabs button:first-child")
    page.open(case("javascript", text_of(SAMPLE), "all-rules'", modules=[["library", page.editor(".module-pane")], ["made-rules", COMPILED]]))
    for name in ("javascript", "concrete", "javascript-concrete"):
        page.click("#module-add", waits=False)
        page.js("""const it = document.getElementById('add-from');
            it.value = [...it.options].findIndex(o => o.text === `the strategies ${arguments[0]}`);
            it.dispatchEvent(new Event('change'))""", name)
        page.one("#add-name").send_keys(Keys.ENTER)
        page.until(lambda: name in page.texts("#module-tabs button"), f"{name} is added")
    page.until(lambda: "refused" not in page.one("#module-said").get_attribute("class"), "all modules are there")
    page.click("#apply")
    same(diff(page)[1], ["if (rates.includes(item.rate)) { // a known rate"])


@with_parser
def try_source_for_readers(page):
    """The panes of a source have roles and names, and are reached by keys."""
    page.open("#example=javascript")
    page.click("#apply")
    told = page.read_out()
    for wanted in (("region", "Source"), ("region", "Changed in the source"), ("textbox", "Source of cart, in JavaScript"), ("group", "Changed in the source")):
        assert wanted in told, f"there is no {wanted} in {told}"
    roles = {role for role, _ in told}
    assert {"deletion", "insertion"} <= roles, f"nothing says what goes and what comes: {roles}"
    same({role for role, name in told if not name.strip() and role in ("textbox", "button", "region", "treeitem", "tab")}, set())
    page.js("document.activeElement.blur()")
    reached = []
    for _ in range(40):
        page.press(Keys.TAB)
        reached.append(page.js("const it = document.activeElement; return it.id || it.getAttribute('aria-label') || it.tagName"))
    for wanted in ("Source of cart, in JavaScript", "diff"):
        assert wanted in reached, f"{wanted} isn't reached by Tab: {reached}"
    for width, height in (PHONE, NARROW):
        page.size(width, height)
        wide = page.js("return document.documentElement.scrollWidth")
        assert wide <= width, f"{wide} of {width} pixels"
    page.size(*DESK)


def try_source_without_codemirror(page):
    """Where CodeMirror isn't at hand, a plain text field has the source."""
    page.driver.execute_cdp_cmd("Network.enable", {})
    page.driver.execute_cdp_cmd("Network.setBlockedURLs", {"urls": ["*codemirror.js"]})
    try:
        page.open("#example=json")
        same(page.editor(SOURCE), text_of(SETTINGS))
        page.click("#outline [data-path='/0/0/0/0'] .label, #outline [data-path='/0/0/0/0']")
        field = "const it = document.getElementById('source-input'); return it.value.slice(it.selectionStart, it.selectionEnd)"
        same(page.js(field), '"name"')
        page.js("const it = document.getElementById('source-input'); it.focus(); it.setSelectionRange(arguments[0], arguments[0])", text_of(SETTINGS).index("8081"))
        page.press(Keys.ARROW_RIGHT)
        page.until(lambda: page.js("return document.getElementById('path').value") == "/0/0/1/1/0/1", "the cursor selects in the tree")
        page.field("path", "/")
        page.click("#apply")
        has(page.editor(SOURCE), '"keep": 30')
    finally:
        page.driver.execute_cdp_cmd("Network.setBlockedURLs", {"urls": []})


def try_keyboard(page):
    """All is reached and done by keys."""
    page.js("document.activeElement.blur()")
    reached = []
    for _ in range(40):
        page.press(Keys.TAB)
        reached.append(page.js("const it = document.activeElement; return it.id || it.getAttribute('role') || it.tagName"))
    for wanted in ("example", "share", "tree-add", "treeitem", "path", "budget", "apply", "preview", "module-add", "tab"):
        assert wanted in reached, f"{wanted} isn't reached by Tab: {reached}"
    page.js("document.querySelector('#outline [role=treeitem]').focus()")
    focused = lambda: page.js("return document.activeElement.dataset.path")
    page.press(Keys.ARROW_DOWN)
    same(focused(), "/0")
    page.press(Keys.ARROW_RIGHT)
    same(page.js("return document.activeElement.getAttribute('aria-expanded')"), "true")
    page.press(Keys.ARROW_RIGHT)
    same(focused(), "/0/0")
    page.press(Keys.ENTER)
    same((focused(), page.js("return document.getElementById('path').value")), ("/0/0", "/0/0"))
    page.press(Keys.ARROW_LEFT)
    same(focused(), "/0")
    page.press(Keys.END)
    same(focused(), "/1")
    page.press(Keys.HOME)
    same(focused(), "/")
    page.strategy("Fold")
    page.press_with(Keys.ALT, Keys.ENTER)
    has(page.said("strategy"), "Would replace 1 place")
    page.press_with(Keys.CONTROL, Keys.ENTER)
    same(page.tree(), 'Plus(Times(5,Var("x")),Times(4,0))')
    # in an editor, too, where Enter with Ctrl makes no line
    page.js("document.querySelector('.strategy-pane .CodeMirror').CodeMirror.focus()")
    page.field("path", "/1")
    page.press_with(Keys.CONTROL, Keys.ENTER)
    same((page.tree(), page.editor(".strategy-pane")), ('Plus(Times(5,Var("x")),0)', "Fold"))


def try_names_for_readers(page):
    """Whatever is focused or read out has a name; each region has a heading; each reference leads somewhere."""
    page.click("#preview")
    nameless = page.js("""const all = 'button, input, select, textarea, [role=treeitem], [role=tab], [role=tree], section, nav';
        return [...document.querySelectorAll(all)]
        .filter(it => it.getClientRects().length)
        .filter(it => !(it.getAttribute('aria-label') || it.getAttribute('aria-labelledby') || it.innerText.trim() || it.closest('label')
          || it.closest('.CodeMirror')))
        .map(it => it.outerHTML.slice(0, 120))""")
    same(nameless, [])
    broken = page.js("""return [...document.querySelectorAll('[aria-labelledby], [aria-describedby], [aria-controls]')]
        .flatMap(it => ['aria-labelledby', 'aria-describedby', 'aria-controls'].map(name => it.getAttribute(name)).filter(Boolean))
        .filter(id => !document.getElementById(id))""")
    same(broken, [])
    same(page.js("return document.querySelectorAll('#outline [tabindex=\"0\"]').length"), 1)
    has(page.one("#outline .marked").get_attribute("aria-label"), "would be Times(5,Var(\"x\"))")


def try_editors_for_readers(page):
    """Editors are text fields with names, in the tree that screen readers are given."""
    page.click("#tree-text")
    fields = [name for role, name in page.read_out() if role == "textbox"]
    for wanted in ("Strategy to apply", "Text of the tree e", "Text of the module arith", "at path"):
        assert wanted in fields, f"there is no text field {wanted!r} in {fields}"
    page.click("#module-tabs button:first-child")
    assert "Text of the module library" in [name for role, name in page.read_out() if role == "textbox"], "the name stays that of another module"
    nameless = {role for role, name in page.read_out() if not name.strip() and role in ("textbox", "button", "combobox", "spinbutton", "tab", "treeitem")}
    same(nameless, set())


def try_sizes_of_text(page):
    """A reader who wants larger text by default gets all of it larger."""
    sizes = "return ['body', '#outline', '.strategy-pane .CodeMirror', '#apply', '.hint'].map(it => parseFloat(getComputedStyle(document.querySelector(it)).fontSize))"
    usual = page.js(sizes)
    try:
        page.driver.execute_cdp_cmd("Page.setFontSizes", {"fontSizes": {"standard": 32, "fixed": 26}})
        page.open()
        # twice as large, and then as on a phone, where they differ a little
        found = page.js(sizes)
        assert all(one >= 1.9 * other for one, other in zip(found, usual)), f"{found}, and {usual} by default"
    finally:
        page.driver.execute_cdp_cmd("Page.setFontSizes", {"fontSizes": {"standard": 16, "fixed": 13}})


def try_policy(page):
    """The page runs what comes from its server alone."""
    ran = page.driver.execute_async_script("""const [done] = arguments;
        const it = document.createElement('script');
        it.textContent = 'window.ranInline = true';
        document.body.append(it);
        const image = new Image();
        image.onload = () => done([window.ranInline, 'loaded']);
        image.onerror = () => done([window.ranInline, 'refused']);
        image.src = 'data:image/gif;base64,R0lGODlhAQABAAAAACwAAAAAAQABAAA='""")
    same(ran, [None, "refused"])
    told = [it["message"] for it in page.driver.get_log("browser")]
    same(len([it for it in told if "Content Security Policy" in it]), 2)


def try_without_codemirror(page):
    """Where CodeMirror isn't at hand, plain text fields do."""
    page.driver.execute_cdp_cmd("Network.enable", {})
    page.driver.execute_cdp_cmd("Network.setBlockedURLs", {"urls": ["*codemirror.js"]})
    try:
        page.open()
        same(page.all(".CodeMirror"), [])
        has(page.editor(".module-pane"), "normalise = innermost")
        page.apply("Fold;")
        has(page.said("strategy"), "Refused (syntax)")
        page.apply("normalise")
        same(page.tree(), DONE)
    finally:
        page.driver.execute_cdp_cmd("Network.setBlockedURLs", {"urls": []})


def try_large_tree(page):
    """A tree of 40,000 terms is drawn in part, and opened further."""
    page.click("#tree-text")
    page.editor(".tree-pane", "[" + ",".join(f"g({it},a)" for it in range(13000)) + "]")
    page.click("#tree-text")
    assert len(page.all("#outline [role=treeitem]")) < 400
    page.js("document.querySelector('#outline .toggle').click()")
    page.js("document.querySelector('#outline [data-more] .row')?.click()")
    page.field("budget", 1000000)
    page.apply("topdown(try(\\ 12999 -> 1 \\))")
    has(page.said("strategy"), "1 place changed")
    same(list(page.marks()), ["/12999/0"])


def try_without_network(page, folder=None):
    """The page that was open once opens without its server."""
    server = http.server.ThreadingHTTPServer(("127.0.0.1", 0), functools.partial(Quiet, directory=folder))
    threading.Thread(target=server.serve_forever, daemon=True).start()
    page.driver.execute_cdp_cmd("Network.setBypassServiceWorker", {"bypass": False})
    usual, page.address = page.address, f"http://127.0.0.1:{server.server_port}/"
    try:
        page.open()
        page.driver.execute_async_script("const [done] = arguments; navigator.serviceWorker.ready.then(() => done())")
        server.shutdown()
        server.server_close()
        page.open("#example=polynomials")
        page.open()
        page.click("#apply")
        same(page.tree(), DONE)
        page.open("#example=json")
        page.click("#apply")
        has(page.editor(SOURCE), '"keep": 30')
    finally:
        page.address = usual
        page.driver.execute_cdp_cmd("Network.setBypassServiceWorker", {"bypass": True})


class Quiet(http.server.SimpleHTTPRequestHandler):
    """Serves a folder, and says nothing."""

    extensions_map = {**http.server.SimpleHTTPRequestHandler.extensions_map, ".mjs": "text/javascript", ".wasm": "application/wasm"}

    def log_message(self, *_):
        pass


def try_no_dialog_stays(page):
    """Texts to copy are shown, selected and copied."""
    page.click("#script")
    has(page.js("return document.getElementById('text-shown').value"), "module arith", "tree e Plus(")
    page.click("#text-copy")
    page.until(lambda: page.text("#text-copied") == "Copied.", "it is copied")
    page.press(Keys.ESCAPE)
    page.until(lambda: not page.js("return document.getElementById('text-dialog').open"), "the dialog closes")


def try_widths(page, shots=None):
    """Nothing is wider than the page, at a desk, on a phone and on a narrow one, in the light and the dark."""
    for name, (width, height) in (("desk", DESK), ("phone", PHONE), ("narrow", NARROW)):
        for dark in (False, True):
            page.size(width, height, dark)
            page.open("#example=encapsulate-field")
            for step in ("start", "preview", "refused"):
                if step == "preview":
                    page.click("#preview")
                if step == "refused":
                    page.apply("encapsulate(|\"Box\",widht)")
                wide = page.js("return [document.documentElement.scrollWidth, innerWidth]")
                assert wide[0] <= width and wide[1] <= width, f"{name}, {step}: {wide[0]} and {wide[1]} pixels, of {width}"
                if shots:
                    page.size(width, height, dark, height_of_page=True)
                    page.driver.save_screenshot(f"{shots}/{name}-{'dark' if dark else 'light'}-{step}.png")
                    page.size(width, height, dark)
    page.size(*DESK)


# Clicks on Apply so often, and calls back with the milliseconds of each time.
APPLY_AGAIN = """const [count, done] = arguments, took = [];
let begun;
const next = () => {
  if (took.length === count) return done(took);
  begun = performance.now();
  document.getElementById('apply').click();
  look();
};
const look = () => {
  if (document.body.classList.contains('running')) return setTimeout(look, 0);
  took.push(performance.now() - begun);
  next();
};
next();
"""


def try_many_steps(page):
    """A step takes the page no more processor time after a hundred steps than at first."""
    page.strategy("all(!1) <+ id")
    # a busy machine may take long for all of them
    page.driver.set_script_timeout(10 * WAIT)
    page.driver.execute_cdp_cmd("Performance.enable", {"timeDomain": "threadTicks"})
    spent, took = [page.processor_time()], []
    for _ in range(4):
        took += page.driver.execute_async_script(APPLY_AGAIN, 25)
        spent.append(page.processor_time())
    page.driver.set_script_timeout(WAIT)
    same(len(page.steps()), 101)
    first, _, _, last = (1000 * (end - begun) / 25 for begun, end in zip(spent, spent[1:]))
    print(f"  100 steps: {sum(took):.0f} ms; of processor time one of the first {first:.1f}, of the last {last:.1f}")
    assert last < 3 * max(first, 5), (first, last)
    page.all("#steps button")[50].click()
    page.until_idle()
    same(page.current(), 50)


# Clicks on Apply, and calls back with the milliseconds until the page has shown what came of it.
APPLY = """const [done] = arguments, begun = performance.now();
const look = () => document.body.classList.contains('running') ? requestAnimationFrame(look) : done(performance.now() - begun);
document.getElementById('apply').click();
requestAnimationFrame(look);
"""
# Strategies that take some 100,000 steps, each with the tree that it is applied to and what is said of it.
WORK = {
    "a traversal that replaces nothing": ("[" + ",".join(["a"] * 9000) + "]", r'topdown(try(\ "b" -> 1 \))', "stayed the same"),
    "a traversal that replaces 5,000 leaves": ("[" + ",".join(["a"] * 5000) + "]", r"topdown(try(\ a() -> b() \))", "500 places or more changed"),
    "a loop that adds, until its budget is spent": ("0", "rec l({n: ?n; <add> (n,1); l})", "Refused (spent)"),
}


def try_speed(page):
    """Measures the start, and runs of 100,000 steps. Other work on the machine makes them longer, so they have no bound."""
    starts = []
    for _ in range(5):
        page.open()
        starts.append(page.ready())
    print(f"  start: {min(starts)} ms at best, {sorted(starts)[2]} mostly")
    for name, (tree, strategy, said) in WORK.items():
        took, shown = [], []
        for _ in range(5):
            page.open()
            page.js("document.getElementById('tree-text').click()")
            page.editor(".tree-pane", tree)
            page.editor(".module-pane", page.editor(".module-pane").replace("Var :", "a : a  b : a  Var :"))
            page.click("#tree-text")
            page.strategy(strategy)
            shown.append(page.driver.execute_async_script(APPLY))
            has(page.said("strategy"), said)
            took.append(float(page.js("return document.getElementById('strategy-said').dataset.took")))
        print(f"  {name}: {min(took):.0f} ms at best, {sorted(took)[2]:.0f} mostly; {min(shown):.0f} ms at best until it is shown")


# Some 4,300 nodes of JavaScript.
LONG_SOURCE = "".join(f"if (a{it} > {it}) call(b.c, 'x', {it}) // {it}\n" for it in range(360))
# Opens a case with a tree `t`, and calls back with the milliseconds until it is shown.
OPEN_CASE = """const [hash, done] = arguments, begun = performance.now();
const isShown = () => document.querySelector('#tree-tabs button')?.textContent === 't' && !document.body.classList.contains('running');
const look = () => isShown() ? done(performance.now() - begun) : setTimeout(look, 0);
location.hash = hash;
setTimeout(look, 0);
"""


@with_parser
def try_source_speed(page):
    """Measures how long a long source takes to open, and a step in it. Other work on the machine makes both longer, so they have no bound."""
    opened = []
    for _ in range(5):
        page.open()
        opened.append(page.driver.execute_async_script(OPEN_CASE, case("javascript", LONG_SOURCE)))
    page.strategy(r'rec x(\ NumberLiteral(n) -> StringLiteral("n") \ <+ one(x))')
    page.driver.set_script_timeout(10 * WAIT)
    took = page.driver.execute_async_script(APPLY_AGAIN, 20)
    page.driver.set_script_timeout(WAIT)
    same(len(diff(page)[0]), 10)
    print(f"  a source of 4,300 nodes: open in {min(opened):.0f} ms at best, {sorted(opened)[2]:.0f} mostly; a step takes {min(took):.0f}, {sorted(took)[10]:.0f} mostly")


def pictures(page, folder):
    """Makes the pictures of the manual: of what is selected in a source, and of two that were rewritten."""

    def picture(name, first, last):
        found = "const [one, two] = arguments.map(it => document.querySelector(it).getBoundingClientRect()); return [one.top + scrollY, two.bottom + scrollY]"
        top, bottom = page.js(found.replace("arguments", "[...arguments]"), first, last)
        clip = {"x": 0, "y": top - 8, "width": 1000, "height": bottom - top + 16, "scale": 1}
        taken = page.driver.execute_cdp_cmd("Page.captureScreenshot", {"clip": clip, "captureBeyondViewport": True})
        with open(f"{folder}/{name}.png", "wb") as it:
            it.write(base64.b64decode(taken["data"]))

    page.size(1000, 1000)
    page.open("#example=javascript")
    word(page, "indexOf").click()
    picture("web-source", SOURCE, ".strategy-pane")
    page.click("#path-root")
    page.all("#tries button")[1].click()
    page.click("#apply")
    picture("web-rewritten", ".timeline", ".strategy-pane")
    page.size(1000, 1000, dark=True)
    page.open("#example=json")
    page.click("#apply")
    picture("web-json", ".timeline", ".strategy-pane")


def opened():
    options = webdriver.ChromeOptions()
    options.binary_location = "/usr/bin/chromium"
    for word in ("headless=new", "no-sandbox", "disable-gpu", "disable-dev-shm-usage", "hide-scrollbars", "window-size=1280,900"):
        options.add_argument(f"--{word}")
    options.set_capability("goog:loggingPrefs", {"browser": "ALL"})
    driver = webdriver.Chrome(service=Service("/usr/bin/chromedriver"), options=options)
    driver.set_script_timeout(WAIT)
    return driver


def main():
    parser = argparse.ArgumentParser()
    parser.add_argument("address")
    parser.add_argument("--folder", required=True)
    parser.add_argument("--program")
    parser.add_argument("--shots")
    parser.add_argument("--only")
    parser.add_argument("--pictures")
    given = parser.parse_args()
    if given.shots:
        os.makedirs(given.shots, exist_ok=True)
    driver, passed, failed = opened(), 0, 0
    # all but one trial are of the files as they are
    driver.execute_cdp_cmd("Network.enable", {})
    driver.execute_cdp_cmd("Network.setBypassServiceWorker", {"bypass": True})
    page = Page(driver, given.address)
    try:
        if given.pictures:
            return pictures(page, given.pictures)
        for name, trial in list(globals().items()):
            if not name.startswith("try_") or (given.only and given.only not in name):
                continue
            words = {"try_script_and_dump": [given.program], "try_source_by_compiled_rules": [given.program], "try_widths": [given.shots], "try_without_network": [given.folder]}.get(name, [])
            begun, fault = time.monotonic(), ""
            try:
                page.size(*DESK)
                page.open()
                if getattr(trial, "needs_parser", False) and not page.has_parser():
                    failed += left_out(name[4:].replace("_", " "), "the page has no parser for JavaScript")
                    continue
                trial(page, *words)
                errors = [it["message"] for it in driver.get_log("browser") if it["level"] == "SEVERE"]
                same([it for it in errors if "ERR_BLOCKED_BY_CLIENT" not in it], [])
            except Exception as it:
                fault = "".join(traceback.format_exception(it)[-2:]).strip()
                if given.shots:
                    driver.save_screenshot(f"{given.shots}/failed-{name}.png")
            print(f"{name[4:].replace('_', ' ')}: {'FAILED' if fault else 'as wanted'} ({time.monotonic() - begun:.1f} s)", flush=True)
            if fault:
                print("  " + fault.replace("\n", "\n  "), flush=True)
            passed, failed = passed + (not fault), failed + bool(fault)
    finally:
        driver.quit()
    print(f"{passed} passed, {failed} failed")
    return failed != 0


if __name__ == "__main__":
    sys.exit(main())
