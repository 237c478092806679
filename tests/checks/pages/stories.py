"""Pages of which docs/ show pictures, walked as the docs walk them."""

import re

from walks import TOP, element

# the first byte of the memory that the page shows
FIRST = "document.querySelector('#page-memory span')"


def expect_first(pages, name, place, byte):
    """Expects the page to be at a place, with this byte as the first of the memory, and whether it is red."""
    first = pages.browser.value(f"{FIRST}.textContent"), pages.browser.value(f"{FIRST}.className")
    pages.expect(name, (pages.place(), *first), (place, *byte))


def expect_story(pages):
    """Expects what docs/DEBUGGING.md tells of the wrong quotient, and leaves its picture."""
    with open(f"{TOP}/examples/quotient.s", "rb") as file:
        record = pages.told(["one", "--source", "--order", "0,2,1", "--record"], file.read())[1]
    pages.open_record(record, 3)
    pages.expect("story: a place in the address", pages.place(), 3)
    pages.browser.click("document.querySelector('#step37>use:last-of-type')")
    pages.browser.type(element("address"), "dividend")
    expect_first(pages, "story: the dividend", 38, ("0c", "fresh"))
    told = pages.browser.value(f"{element('told-step')}.innerText")
    pages.expect("story: from rank 2", "message from rank 2" in told, True)
    pages.leave_picture("wrong_quotient")
    pages.browser.click(element("back"))
    expect_first(pages, "story: one step back", 37, ("00", ""))
    ways = pages.browser.value("document.querySelectorAll('#page-ways-now>:not(.value)').length")
    pages.expect("story: both on the way", ways, 2)
    pages.expect("story: console", pages.browser.told(), [])


def expect_course(pages):
    """Expects what docs/COURSE.md tells of the ring, and leaves its picture."""
    with open(f"{TOP}/c/course/ring.image", "rb") as file:
        pages.open_record(pages.told(["one", "--record"], file.read())[1], 0)
    pages.browser.click("document.querySelector('#step999>use:last-of-type')")
    with open(f"{TOP}/docs/COURSE.md", encoding="utf-8") as file:
        address = re.search(r"type `(0x[0-9a-f]+)`, the address of `sum`", file.read())[1]
    pages.browser.type(element("address"), address)
    expect_first(pages, "course: the sum", 1000, ("65", "fresh"))
    told = pages.browser.value(f"{element('told-step')}.innerText")
    pages.expect("course: the step", "999 rank 2 " in told and "message from rank 1 " in told, True)
    pages.leave_picture("lesson2_page")
    pages.browser.click(element("back"))
    expect_first(pages, "course: one step back", 999, ("64", ""))
    ways = pages.browser.value(f"{element('ways-now')}.innerText")
    way = "rank 1 to 2: tag 1, 4 bytes; sent at step 997, got at step 999"
    pages.expect("course: on the way, and what it carries", ways, f"{way}\n101")
    for name, place in (("next-mark", 1000), ("next-mark", 1086), ("last-mark", 1000)):
        pages.browser.click(element(name))
        pages.expect(f"course: {name}", pages.place(), place)
    pages.browser.click(f"{element('harts')}.getElementsByTagName('button')[1]")
    whose = pages.browser.value(f"{element('whose')}.textContent")
    pages.expect("course: another hart", whose, "rank 1 hart 0")
    pages.expect("course: console", pages.browser.told(), [])
