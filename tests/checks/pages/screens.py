"""Pages on screens of several sizes."""

import json
import os

from walks import TOP, element

# what is wrong with the page on a screen of this size: lanes out of view, small texts, pale ones, texts over the steps'
# numbers, placeholders that their fields cut, or an end below the screen. A list's arrow takes 16 pixels of its field
SCREEN = """(() => {
  const all = what => [...document.querySelectorAll(what)], box = one => one.getBoundingClientRect();
  const picture = document.getElementById("page-picture"), right = box(picture).left + picture.clientWidth;
  const texts = all("#page-picture>svg text").filter(one => box(one).width > 0);
  const numbers = texts.filter(one => /^(3|36)$/.test(one.getAttribute("x")) && /^[0-9]+$/.test(one.textContent));
  const light = color => {
    const [red, green, blue] = color.match(/[0-9]+/g).map(one => one / 255).map(
        one => one <= 0.03928 ? one / 12.92 : ((one + 0.055) / 1.055) ** 2.4);
    return 0.2126 * red + 0.7152 * green + 0.0722 * blue + 0.05;
  };
  const contrast = (one, other) => Math.max(light(one) / light(other), light(other) / light(one));
  const paper = getComputedStyle(document.body).backgroundColor;
  const pen = document.createElement("canvas").getContext("2d");
  const over = (one, other) => one.left < other.right - 1 && other.left < one.right - 1 &&
      one.top + 3 < other.bottom - 3 && other.top + 3 < one.bottom - 3;
  const cut = field => {
    const style = getComputedStyle(field);
    pen.font = style.font;
    const padding = parseFloat(style.paddingLeft) + parseFloat(style.paddingRight);
    return pen.measureText(field.placeholder).width + 16 > field.clientWidth - padding;
  };
  const small = one => one.checkVisibility() && one.textContent.trim() &&
      parseFloat(getComputedStyle(one).fontSize) < 10;
  const outside = one => box(one).left < box(picture).left || box(one).right > right;
  const covered = one => texts.some(other => !numbers.includes(other) && over(box(one), box(other)));
  return JSON.stringify([
    ["lanes", all("#page-picture .lane").filter(outside).length],
    ["numbers", numbers.filter(covered).length],
    ["numbers at a lane", numbers.filter(one => all("use").some(other => over(box(one), box(other)))).length],
    ["small", all("text, main *, #page-source *").filter(small).length],
    ["pale", texts.filter(one => contrast(getComputedStyle(one).fill, paper) < 4.5).length],
    ["placeholders", all("input[placeholder]").filter(one => cut(one) ||
        contrast(getComputedStyle(one, "::placeholder").color, getComputedStyle(one).backgroundColor) < 4.5).length],
    ["end", box(document.body).bottom > innerHeight ? 1 : 0],
  ].filter(([, count]) => count > 0));
})()"""

# screens: how wide, how high, whether dark, and whether in projector mode
SCREENS = [(1280, 720, False, False), (1500, 844, False, False), (1920, 1080, True, False), (1000, 700, False, False),
           (400, 860, True, False), (1280, 720, False, True), (400, 860, True, True)]

# the buttons that move through the record, of those that can be clicked on where they are
BUTTONS = "home last-mark last-line back step next-line next-mark end".split()
IN_VIEW = """(names => JSON.stringify(names.filter(name => {
  const one = document.getElementById("page-" + name), {x, y, width, height} = one.getBoundingClientRect();
  return document.elementFromPoint(x + width / 2, y + height / 2) === one;
})))(%s)"""

# whether the mark of the step that was done is in view, below the lanes' names
MARK_IN_VIEW = """(() => {
  const {top, bottom} = document.querySelector(".page-at").getBoundingClientRect();
  const pane = document.getElementById("page-picture");
  return top >= document.getElementById("page-lanes").getBoundingClientRect().bottom &&
      bottom <= pane.getBoundingClientRect().top + pane.clientHeight;
})()"""


def expect_screens(pages):
    """Expects a page of four ranks with its source, and one of eight, to fit each of the screens."""
    for name, source in (("course/share.image", "course/share.c"), ("schedules/halo_8_10.image", "schedules/halo.c")):
        with open(f"{TOP}/c/{name}", "rb") as file:
            record = pages.told(["one", "--record"], file.read())[1]
        with open(f"{TOP}/c/{source}", "rb") as file:
            pages.open_record(record, 0, [(os.path.basename(source), file.read())])
        for width, height, dark, big in SCREENS:
            pages.browser.sized(width, height, dark)
            if big:
                pages.browser.press("+")
            expect_screen(pages, f"{name} at {width}{' dark' * dark}{' projector' * big}")
            if big:
                pages.browser.press("+")
        pages.expect(f"{name}: console", pages.browser.told(), [])
    titles = "[...document.querySelectorAll('[title]')].map(one => one.title)"
    # a variable may have this name, but no text says it for the one before
    said = f"{titles}.filter(one => /\\blast\\b/.test(one) && !/^how \\S+ is read$/.test(one))"
    pages.expect("screens: titles", pages.browser.value(f"{said}.join()"), "")
    pages.browser.ask("Emulation.clearDeviceMetricsOverride")
    pages.browser.ask("Emulation.setEmulatedMedia", features=[])


def expect_screen(pages, name):
    """Expects nothing to be wrong on this screen, marks to come into view, and buttons to stay there."""
    pages.expect(f"{name}: the screen", json.loads(pages.browser.value(SCREEN)), [])
    for end, key in (("Home", "ArrowRight"), ("End", "ArrowLeft")):
        pages.browser.press(end)
        for _ in range(12):
            pages.browser.press(key, True)
            pages.expect(f"{name}: the mark before {pages.place()}", pages.browser.value(MARK_IN_VIEW), True)
    pages.browser.value(f"{element('machine')}.scrollTop = 1e6")
    pages.expect(f"{name}: buttons", json.loads(pages.browser.value(IN_VIEW % json.dumps(BUTTONS))), BUTTONS)
    pages.browser.value(f"{element('machine')}.scrollTop = 0")
