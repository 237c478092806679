"""Lesson 7's wrong sum, walked in a page with its source to the line that made it."""

import json
import re

import formats
from walks import TOP, element

# the lines of the source that are marked: that of the hart in view, that of the step that was done, and those with a
# breakpoint; the line of each rank; and how many lines of the hart in view are scrolled out of sight
MARKED = """(() => {
  const pane = document.getElementById("page-text"), lines = [...pane.children];
  const number = line => +line.children[1].textContent;
  const of = kind => lines.filter(line => line.classList.contains(kind)).map(number);
  const ranks = lines.flatMap(line =>
      [...line.querySelectorAll(".at b")].map(rank => [rank.textContent, number(line)]));
  const top = pane.getBoundingClientRect().top;
  const hidden = [...pane.querySelectorAll(".present")].map(line => line.getBoundingClientRect()).filter(
      line => line.top < top - 1 || line.bottom > top + pane.clientHeight + 1 || line.bottom > innerHeight + 1);
  return JSON.stringify([of("present"), of("done"), of("stop"), Object.fromEntries(ranks), hidden.length]);
})()"""

# a step as `list` prints it: its number, its rank, and the line of main that it is of
STEP = re.compile(r"(\d+) rank (\d+) hart 0 stamp \d+ (?:at share\.c:(\d+) in main )?")


class Listed:
    """The line of share.c where each rank is, and where each step was, as `list` prints the steps."""

    def __init__(self, text):
        self.steps = {}
        for line in text.decode().splitlines():
            place, rank, at = STEP.match(line).groups()
            self.steps.setdefault(rank, []).append((int(place), at and int(at)))

    def done_at(self, place):
        """The line of the step before this place, if it has one."""
        return next((line for steps in self.steps.values() for at, line in steps if at == place - 1), None)

    def ranks_at(self, place):
        """The line of each rank that is in main: that of its next step, or else that of the call it is in."""
        told = {}
        for rank, steps in self.steps.items():
            before = [line for at, line in steps if line and at < place]
            behind = [line for at, line in steps if at >= place]
            called = before[-1] if before and any(behind) else None
            line = behind and (behind[0] or called)
            if line:
                told[rank] = line
        return told


class Share:
    """Lesson 7's record, and the pages in which it is walked."""

    def __init__(self, pages):
        self.pages, self.browser, self.expect, self.place = pages, pages.browser, pages.expect, pages.place
        with open(f"{TOP}/c/course/share.image", "rb") as file:
            self.record = pages.told(["one", "--record"], file.read())[1]
        with open(f"{TOP}/c/course/share.c", "rb") as file:
            self.source = file.read()
        self.count = len(formats.read_record(self.record)[1])
        self.listed = Listed(pages.told(["list"], self.record)[1])

    def said(self, key, shift=False):
        """What the page says when a key is pressed."""
        self.browser.press(key, shift)
        return self.browser.value(f"{element('said')}.textContent")

    def row(self, name):
        """The row of a value."""
        return f"[...document.querySelectorAll('.page-rows>div')].find(one => one.firstChild.textContent === '{name}')"

    def walk(self):
        """Expects the wrong sum to be walked to the line that made it, and all other ways about."""
        self.expect_opened()
        for width in (400, 1350):
            self.browser.sized(width)
            self.pages.open_record(self.record, 0, [("share.c", self.source)])
            self.expect_cause(f"share at {width}")
        self.browser.ask("Emulation.clearDeviceMetricsOverride")
        self.expect_lines()
        self.expect_searches()
        self.expect_views()
        self.pages.leave_pictures("share.c")
        self.expect("share: console", self.browser.told(), [])

    def expect_opened(self):
        """Expects a page with no source to show none, and then one that is opened from the disk."""
        self.pages.open_record(self.record, 0)
        self.expect("share: no source", self.browser.value(f"{element('source')}.checkVisibility()"), False)
        node = self.browser.ask("DOM.getDocument")["root"]["nodeId"]
        node = self.browser.ask("DOM.querySelector", nodeId=node, selector="#page-open")["nodeId"]
        self.browser.ask("DOM.setFileInputFiles", nodeId=node, files=[f"{TOP}/c/course/share.c"])
        self.browser.value("new Promise(done => setTimeout(done, 300))")
        self.expect_text("share: from the disk", self.source + b"\n")

    def expect_text(self, name, source):
        """Expects a source to be in view, each of its lines with its number."""
        self.expect(f"{name}: in view", self.browser.value(f"{element('source')}.checkVisibility()"), True)
        texts = f"[...{element('text')}.children].map(one => one.textContent)"
        shown = json.loads(self.browser.value(f"JSON.stringify({texts})"))
        lines = source.decode().removesuffix("\n").split("\n")
        self.expect(f"{name}: lines", shown, [f"{number:4} {line}" for number, line in enumerate(lines, 1)])

    def expect_marked(self, name, rank, line, stops=()):
        """Expects this rank to be in view, its line to be marked and in sight, and all marks to be where `list` has the
        steps."""
        whose = self.browser.value(f"{element('whose')}.textContent")
        self.expect(f"{name}: whose", whose, f"rank {rank} hart 0")
        done, ranks = self.listed.done_at(self.place()), self.listed.ranks_at(self.place())
        expected = [[line] if line else [], [done] if done else [], list(stops), ranks, 0]
        self.expect(f"{name}: marked", json.loads(self.browser.value(MARKED)), expected)

    def expect_value(self, name, value, expected):
        """Expects this of a value of the rank in view."""
        self.expect(f"{name}: {value}", self.browser.value(f"{self.row(value)}.children[1].textContent"), expected)

    def click_line(self, line):
        """Clicks on the number of a line of the source, and returns what the page says."""
        self.browser.click(f"{element('text')}.children[{line - 1}].children[1]")
        return self.browser.value(f"{element('said')}.textContent")

    def expect_cause(self, name):
        """From the sum at the end to the message that brought a wrong part of it, the value behind it, and its line.

        That rank 2 gets 21, should add 7 and 8, and sends 45, is worked out by hand in docs/COURSE.md."""
        self.expect_text(f"{name}: the source", self.source)
        self.expect_marked(f"{name}: the start", 0, None)
        self.browser.press("End")
        self.expect(f"{name}: the end", self.place(), self.count)
        self.expect(f"{name}: the sum", "the sum is 64" in self.browser.value(f"{element('outputs')}.innerText"), True)
        self.expect_marked(f"{name}: the end", 0, None)
        self.browser.click("document.querySelector('#page-picture use[href=\"#put\"]')")
        self.expect_marked(f"{name}: who printed it", 3, 28)
        arrows = "[...document.querySelectorAll('.page-way')]"
        self.browser.click(f"{arrows}.find(one => one.parentNode.textContent.includes('of rank 2 to'))")
        self.expect(f"{name}: the message", self.browser.value(f"{element('step-ways')}.lastChild.textContent"), "45")
        self.expect_marked(f"{name}: its receive", 3, 22)
        got = self.place()
        self.browser.press("m")
        self.expect(f"{name}: its other end is before", self.place() < got, True)
        self.expect_marked(f"{name}: its send", 2, 26)
        self.expect_value(f"{name}: a number too many", "count", "3")
        self.expect_loop(name)
        self.expect_store(name)

    def expect_loop(self, name):
        """Back by lines into the loop, and by a breakpoint to each number that it adds, which are one too many."""
        self.browser.click(element("only"))
        self.browser.value("document.activeElement.blur()")
        for line in (26, 25, 23, 24):
            self.browser.press("p")
            self.expect_marked(f"{name}: back to a line", 2, line)
        self.expect(f"{name}: a click on a line", self.click_line(24), "a breakpoint at share.c:24")
        for before in ("36", "28", "21"):
            self.expect_value(f"{name}: before it's added to", "sum", before)
            self.expect_marked(f"{name}: at a breakpoint", 2, 24, [24])
            self.browser.click(element("last-stop"))
        said = self.browser.value(f"{element('said')}.textContent")
        self.expect(f"{name}: three numbers", said, "no breakpoint of rank 2 is met before this place")

    def expect_store(self, name):
        """By the button beside the wrong number to the store that wrote it, and to the line that is wrong. Each rank
        has its own line there, and nothing was typed on the way."""
        self.browser.click(f"{self.row('count')}.children[3]")
        told = self.browser.value(f"{element('told-step')}.innerText")
        self.expect(f"{name}: the store", "rank 2 hart 0 at share.c:19 in main" in told.splitlines()[0], True)
        self.expect_marked(f"{name}: behind the store", 2, 20, [24])
        line = self.source.decode().splitlines()[18]
        done = self.browser.value("document.querySelector('#page-text .done')?.textContent ?? ''")
        self.expect(f"{name}: the line that was done", done.endswith(f"  19 {line}"), True)
        missing = "rank 2 doesn't change count before this place"
        self.expect(f"{name}: no change before it", self.said("["), missing)
        for rank in (0, 1, 3, 2):
            self.browser.click(f"{element('harts')}.getElementsByTagName('button')[{rank}]")
            line_of = self.listed.ranks_at(self.place())[str(rank)]
            self.expect_marked(f"{name}: of each rank", rank, line_of, [24])
        self.browser.press("ArrowLeft")
        self.expect_value(f"{name}: not yet stored", "count", "0")
        self.expect_marked(f"{name}: before the store", 2, 19, [24])
        present = self.browser.value("document.querySelector('#page-text .present')?.textContent ?? ''")
        self.expect(f"{name}: the line that is wrong", present.endswith(f"  19 {line}"), True)
        fields = [self.browser.value(f"{element(field)}.value") for field in ("address", "watch", "search")]
        self.expect(f"{name}: nothing typed", fields, ["0x0", "", ""])

    def expect_lines(self):
        """On by lines, and to a breakpoint, as `debug` comes to it."""
        told = f"{element('told-step')}.innerText.split('\\n')[1]"
        for key, line in (("n", 20), ("n", 21), ("n", 22), ("p", 21), ("p", 20)):
            self.browser.press(key)
            at = re.search(r"rank 2 hart 0 at share\.c:(\d+) ", self.browser.value(told))
            self.expect(f"share: {key} to a line", at and int(at[1]), line)
            self.expect_marked(f"share: {key} to a line", 2, line, [24])
        words = ["debug", "break=2,0,share.c.24", "run", "run", "run"]
        walked = self.pages.told(words, self.record)[1].decode()
        places = [int(one) for one in re.findall(r"at (\d+) of", walked)]
        for place in places:
            self.browser.press("c")
            self.expect("share: at a breakpoint", self.place(), place)
        self.expect("share: no more", self.said("c"), "no breakpoint of rank 2 is met behind this place")
        self.browser.press("C", True)
        self.expect("share: back to a breakpoint", self.place(), places[1])
        self.expect("share: taken away", self.click_line(24), "no breakpoint at share.c:24")
        self.expect("share: none", self.said("c"), "there is no breakpoint: click on a line of the source")
        self.expect("share: no step", self.click_line(2), "no step is of line share.c:2")
        self.browser.click(element("only"))
        self.browser.value("document.activeElement.blur()")
        calls = self.browser.value(f"{element('calls')}.innerText").splitlines()
        names = [re.sub(r"[+ ].*", "", call.replace("share.c:24 in ", "")) for call in calls]
        self.expect("share: the calls", names, ["main", "rvmc_begin", "_start"])

    def expect_searches(self):
        """A line, a function and a tag, on and back, and nothing."""
        self.browser.press("Home")
        for text, times, said in (
            ("share.c:28", 1, "number 1 of 1 of share.c:28"), ("tag 1", 2, "number 2 of 9 of tag 1"),
            ("printf", 1, "number 1 of 1 of printf"), ("nowhere", 1, "nowhere isn't found"),
        ):
            self.browser.press("Home")
            self.browser.press("/")
            self.browser.type(element("search"), text)
            for _ in range(times - 1):
                self.browser.click(element("next-hit"))
            self.expect(f"share: search {text}", self.browser.value(f"{element('said')}.textContent"), said)
            self.browser.value("document.activeElement.blur()")

    def expect_views(self):
        """The ends, what is watched and how it is read, playing, the lanes' names, and the projector's letters."""
        self.browser.press("Home")
        for key, shift, said in (
            ("ArrowLeft", False, "this is the first place"), ("ArrowLeft", True, "there is no mark before"),
            ("p", False, "no line begins before"), ("m", False, "the step that was done last"),
        ):
            self.expect(f"share: {key} at the first place", said in self.said(key, shift), True)
        self.browser.press("End")
        self.expect("share: no step behind", "this is the last place" in self.said("ArrowRight"), True)
        self.browser.press("w")
        # the address of `sum`, into which main receives
        listed = self.pages.told(["list"], self.record)[1].decode()
        address = re.search(r"in main .*: RECV buf=(0x[0-9a-f]+)", listed)[1]
        self.browser.type(element("watch"), address)
        self.browser.value("document.activeElement.blur()")
        # rank 3 has printed 64, which is @ in ASCII; it got 45, and added 9 and 10
        value = f"{self.row(address)}.children[1].textContent"
        for kind, text in (("bytes", "40 00 00 00"), ("unsigned", "64"), ("text", '"@"')):
            self.browser.value(f"(one => {{one.value = '{kind}'; one.onchange()}})({self.row(address)}.children[2])")
            self.expect(f"share: as {kind}", self.browser.value(value), text)
        for text in ('"@"', '"6"', '"-"'):
            self.browser.press("[")
            self.expect("share: the change before", self.browser.value(value), text)
        self.browser.press("Home")
        self.browser.press(" ")
        self.browser.value("new Promise(done => setTimeout(done, 1200))")
        self.browser.press(" ")
        played = self.place()
        self.browser.value("new Promise(done => setTimeout(done, 600))")
        self.expect("share: played and paused", (0 < played < self.count, self.place()), (True, played))
        self.expect_names()
        self.browser.press("+")
        size = "getComputedStyle(document.body).fontSize"
        self.expect("share: large", self.browser.value(size), "18px")
        self.browser.open(f"file://{self.pages.folder}/page.html#9")
        self.expect("share: still large", self.browser.value(size), "18px")
        self.browser.click(element("enlarge"))
        self.expect("share: no longer large", self.browser.value(size), "13px")

    def expect_names(self):
        """The names of the lanes stay in view, above their lanes."""
        self.browser.value(f"{element('picture')}.style.height = '150px'; {element('picture')}.scrollTop = 100")
        top = "document.querySelector('#page-lanes text').getBoundingClientRect().top"
        top = self.browser.value(f"{top} - {element('picture')}.getBoundingClientRect().top")
        self.expect("share: a lane's name in view", 0 <= top < 44, True)
        lefts = "[...document.querySelectorAll('%s')].map(one => Math.round(one.getBoundingClientRect().left)).join()"
        own = self.browser.value(lefts % '#page-lanes text')
        self.expect("share: above its lane", own, self.browser.value(lefts % '#page-picture>svg>text[y="24"]'))
        self.browser.value(f"{element('picture')}.style.height = ''")


def expect_share(pages):
    """Expects lesson 7's wrong sum to be walked."""
    Share(pages).walk()
