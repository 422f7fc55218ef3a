"""Checks in a browser what a reader sees: with the mouse, with the keyboard, without scripts, in
dark mode and on paper.
"""
from __future__ import annotations

import base64
import os
import re
import shutil
import subprocess
import tempfile
from collections.abc import Iterator
from contextlib import contextmanager
from xml.etree import ElementTree

from chart.boxes import must_fit
from chart.extras import LONG_TRACE
from report.browser import Page, browser_path, flags, opened_browser
from shared.printed import Printed
from harness import must, must_be
from shared.outputs import run

from .pages import data_of, page_of, read, story

SECOND = 10**9
TAB, RIGHT, ESCAPE = ("Tab", 9), ("ArrowRight", 39), ("Escape", 27)
PICTURE = 'document.querySelector("figure[data-panel]:not([hidden]) svg")'
BOX = f"""(() => {{ {PICTURE}.scrollIntoView({{block: "center"}});
  const box = {PICTURE}.getBoundingClientRect();
  return [box.x, box.y, box.width, box.height]; }})()"""
REACHED = "input, button, summary, a[href], figure:not([hidden]) > .scroll > svg[tabindex], .wide"
# Selects elements that the keyboard can't reach because they are inside closed or hidden elements.
CLOSED = "details .wide, figure[hidden] summary"
VALUES = 'document.querySelector("figure[data-panel]:not([hidden]) .values").textContent'
SHOWN = (
    '[...document.querySelectorAll("figure[data-panel]")].filter((it) => it.offsetHeight > '
    '0).length'
)
TIME = 'document.getElementById("time").textContent'


@contextmanager
def shown(program: str) -> Iterator[Page]:
    """Opens the example's page in a browser, if one is installed, and yields it. Raises if the
    console contains a message, or if another file was fetched.
    """
    path = browser_path()
    assert path
    with tempfile.TemporaryDirectory() as folder, opened_browser(path) as page:
        name = os.path.join(folder, "runaway.html")
        with open(name, "wb") as file:
            file.write(story(program))
        page.look(1100)
        page.open(name)
        yield page
        must_be("what stands on the console", page.faults, [])
        must_be("what was asked for", {it for it in page.asked if not it.startswith("data:")},
                {f"file://{name}"})


def is_skipped() -> bool:
    if browser_path():
        return False
    print("no chromium is installed: a check in a browser is skipped")
    return True


def place_of(page: Page, seconds: float) -> tuple[float, float]:
    """Returns the position in the window (pixels) at which the first picture shows the time
    `seconds`. The picture must show all 300 s.
    """
    x, y, width, height = page.value(BOX)
    return x + (112 + seconds / 300 * (936 - 112)) * width / 960, y + height * 0.6


def values_of(program: str, seconds: int) -> str:
    """Returns the values that the page should show below the first picture at the time `seconds`.
    They are computed from psi_oomd's output.
    """
    printed = Printed(run([program, "replay", "examples/runaway.trace", "--report-s", "2"]))
    looks = [
        (level, average) for level in ("some", "full") for average in ("avg10", "avg60", "avg300")
    ]
    cells = [
        f"{' '.join(look)} {dict(printed.shares['/batch', 'memory', *look])[seconds * SECOND]:.2f} "
        "%"
        for look in looks
    ]
    return f"{seconds} s: {', '.join(cells)}"


def check_pointer_and_zoom(program: str) -> None:
    """The pointer selects a time, and the page shows the values of the latest report before it.
    Dragging zooms into an interval, and Escape shows the whole time again.
    """
    if is_skipped():
        return
    with shown(program) as page:
        x, y = place_of(page, 180.9)
        page.mouse("mouseMoved", x, y)
        must_be("values at 180 s", page.value(VALUES), values_of(program, 180))
        left, right = place_of(page, 100)[0], place_of(page, 190)[0]
        page.drag(left, right, y)
        begin, end = (float(it) for it in re.findall(r"[0-9.]+", page.value(TIME)))
        must(abs(begin - 100) < 1 and abs(end - 190) < 1,
             f"the time that is shown: {page.value(TIME)}")
        x, y, width, height = page.value(BOX)
        page.mouse("mouseMoved", x + width * (112 + 824 / 2) / 960, y + height * 0.6)
        must_be("values in the middle", page.value(VALUES),
                values_of(program, int((begin + end) / 4) * 2))
        texts = page.value(
            f"[...{PICTURE}.querySelectorAll('g.time text')].map((it) => it.textContent)"
        )
        must_be("the numbers of the time", texts,
                [str(it) for it in range(0, 301, 10) if begin <= it <= end])
        kill = page.value(f"{PICTURE}.querySelector('g.kill').getBoundingClientRect().x")
        must(abs(kill - (x + (112 + (146 - begin) / (end - begin) * 824) * width / 960)) < 8,
             f"the kill stands at {kill}")
        page.key(*ESCAPE)
        page.value(f"{PICTURE}.focus()")
        page.key(*ESCAPE)
        must_be("all is shown again", page.value(TIME), "0 s to 300 s")


def check_pictures_are_redrawn_alike(program: str) -> None:
    """For the whole time, the page's script draws the same lines as the Python modules that drew
    the charts.
    """
    if is_skipped():
        return
    still = [
        it.attributes["points"]
        for it in read(story(program)).find("figure", class_="more")[0].find("polyline")
    ]
    with shown(program) as page:
        script = (
            '[...document.querySelectorAll("figure.more polyline")].map((it) => '
            'it.getAttribute("points"))'
        )
        drawn = page.value(script)

    def ends(points: str) -> list[float]:
        return [float(it) for it in (points.split(" ")[0] + "," + points.split(" ")[-1]).split(",")]

    must(len(still) >= 6, f"{len(still)} lines")
    for one, other in zip(still, drawn):
        must(all(abs(a - b) < 0.02 for a, b in zip(ends(one), ends(other))),
             f"from {ends(one)}, not {ends(other)}")


def check_groups_and_resources(program: str) -> None:
    """A click on a checkbox shows or hides its group."""
    if is_skipped():
        return
    figures = [
        it.attributes for it in read(story(program)).find("figure") if "data-panel" in it.attributes
    ]
    with shown(program) as page:
        first = sum(it["data-group"] in ("/batch", "/batch/import") for it in figures)
        must_be("pictures at first", page.value(SHOWN), first)
        for name, value, wanted in (
            ("group", "/", first + sum(it["data-group"] == "/" for it in figures)),
            (
                "resource", "io",
                sum(
                    it["data-group"] in ("/", "/batch", "/batch/import")
                    and it["data-resource"] != "io"
                    for it in figures
                ),
            ),
        ):
            box = (
                f"document.querySelector('input[name={name}][value=\"{value}\"]').getBoundingClient"
                "Rect()"
            )
            page.click(
                *(
                    page.value(f"{box}.{side} + {box}.{length} / 2")
                    for side, length in (("x", "width"), ("y", "height"))
                )
            )
            must_be(f"pictures after a click on {value}", page.value(SHOWN), wanted)


def check_keys_alone(program: str) -> None:
    """The Tab key reaches each checkbox, picture, link and table. With the focus on a picture, keys
    move in time and zoom.
    """
    if is_skipped():
        return
    with shown(program) as page:
        wanted, closed = (
            page.value(f"document.querySelectorAll({it!r}).length") for it in (REACHED, CLOSED)
        )
        seen = set()
        for _ in range(wanted + 5):
            page.key(*TAB)
            seen.add(
                page.value("[...document.querySelectorAll('*')].indexOf(document.activeElement)")
            )
            if page.value("document.activeElement === document.body"):
                break
        must(len(seen) >= wanted - closed, f"{len(seen)} places are reached, of {wanted - closed}")
        page.value(f"{PICTURE}.focus()")
        page.key("Home", 36)
        must_be("values at the begin", page.value(VALUES), "0 s: no report yet")
        page.key(*RIGHT)
        must_be("values a step later", page.value(VALUES), values_of(program, 2))
        page.key("+", 187, "+")
        must_be("the time that is shown", page.value(TIME), "0 s to 77 s")
        page.value("document.querySelector('input[value=\"/batch\"]').focus()")
        before = page.value(SHOWN)
        page.key(" ", 32, " ")
        must(page.value(SHOWN) < before, "the bar of spaces hides a group")


def check_without_a_script(program: str) -> None:
    """Without scripts all pictures are static, and controls that would have no effect are hidden.
    """
    if is_skipped():
        return
    count = len(data_of(read(story(program)))["panels"])
    with shown(program) as page:
        page.ask("Emulation.setScriptExecutionDisabled", value=True)
        page.ask("Page.reload")
        page.value("0")
        page.wait_for_load(1)
        must_be("pictures", page.value(SHOWN), count)
        must_be("controls", page.value("document.querySelector('.controls').offsetHeight"), 0)


def check_looks(program: str) -> None:
    """The page uses the reader's light or dark setting, fits a narrow screen, and needs two pages
    on paper.
    """
    if is_skipped():
        return
    with shown(program) as page:
        ground = "getComputedStyle(document.body).backgroundColor"
        must_be("light", page.value(ground), "rgb(255, 255, 255)")
        pictures = [page.picture()]
        page.look(1100, scheme="dark")
        must_be("dark", page.value(ground), "rgb(22, 25, 29)")
        pictures.append(page.picture())
        must(
            all(it[:8] == b"\x89PNG\r\n\x1a\n" and len(it) > 20_000 for it in pictures)
            and pictures[0] != pictures[1],
            "two pictures",
        )
        for width in (360, 768, 1600):
            page.look(width)
            must(page.value("document.documentElement.scrollWidth") <= width,
                 f"nothing is beyond the side at {width}")
        printed = page.ask("Page.printToPDF", preferCSSPageSize=True)
    must_be("pages of paper", re.findall(rb"/Count ([0-9]+)", base64.b64decode(printed["data"])),
            [b"2"])


def check_breaks_on_paper(program: str) -> None:
    """On paper, a heading is on the same page as its table, and a table that fits on a page isn't
    split.
    """
    if is_skipped():
        return
    with shown(program) as page:
        page.look(1100, media="print")
        for element, style, count in (
            ("table", "breakInside", 5), ("h3", "breakAfter", 1), ("caption", "breakAfter", 5)
        ):
            found = page.value(
                f"[...document.querySelectorAll('{element}')].map((it) => "
                f"getComputedStyle(it).{style})"
            )
            must(len(found) >= count and set(found) == {"avoid"}, f"{style} of {element}: {found}")


def check_texts_of_pictures_fit(program: str) -> None:
    """No text of a picture lies outside of the picture or covers another text, even with long
    names. That holds on a large screen, on paper and on a phone.
    """
    with tempfile.TemporaryDirectory() as folder:
        with open(os.path.join(folder, "long.trace"), "w", encoding="ascii") as file:
            file.write(LONG_TRACE)
        long = page_of(program, "long.trace", folder=folder)
    for name, page in (("the story", story(program)), ("long names", long)):
        pictures = re.findall(rb"(?s)<svg .*?</svg>", page)
        must(len(pictures) > 8, f"{name} has pictures: {len(pictures)}")
        for number, picture in enumerate(pictures):
            svg = ElementTree.fromstring(
                picture.replace(b"<svg ", b'<svg xmlns="http://www.w3.org/2000/svg" ', 1)
            )
            if svg.get("class") != "strip":
                must_fit(f"picture {number} of {name}", svg)
            if not svg.get("class"):
                must_fit(f"picture {number} of {name} on a phone", svg, is_phone=True)


def check_scales_that_differ(program: str) -> None:
    """If the scale of a picture ends below 100 percent, the picture says so. The scale of the
    picture beside it may be different.
    """
    page = read(story(program))
    figures = [it for it in page.find("figure") if "data-panel" in it.attributes]
    marks = [
        [span.text() for name in it.find("text", class_="name") for span in name.find("tspan")]
        for it in figures
    ]
    panels = data_of(page)["panels"]
    wanted = [
        [f"scale to {it['most'] // 100} %"] if not it["step"] and it["most"] < 10_000 else []
        for it in panels
    ]
    must_be("marks of scales", marks, wanted)
    must(0 < len([it for it in wanted if it]) < len(wanted),
         f"some scales end below 100 percent: {wanted}")


def check_a_phone(program: str) -> None:
    """On a phone each picture is as wide as the screen, and has no labels that could be cut."""
    if is_skipped():
        return
    with shown(program) as page:
        page.look(390)
        widths = page.value(
            '[...document.querySelectorAll("figure[data-panel]:not([hidden]) svg")].map((it) => '
            'it.clientWidth)'
        )
        must(len(widths) >= 6 and all(300 < it <= 390 for it in widths),
             f"the pictures' widths: {widths}")
        labels = page.value(
            '[...document.querySelectorAll("figure[data-panel] svg .path")].filter((it) => '
            'it.getClientRects().length).length'
        )
        must_be("labels of upright lines", labels, 0)
        height = page.value(
            f"parseFloat(getComputedStyle({PICTURE}.querySelector('.time text')).fontSize)"
        )
        must(height * widths[0] / 960 > 8,
             f"numbers of the time are {height * widths[0] / 960} pixels high")


def check_one_label_for_each_kill(program: str) -> None:
    """A vertical line marks each kill in all pictures, but only the first picture has labels for
    them.
    """
    figures = [it for it in read(story(program)).find("figure") if "data-panel" in it.attributes]
    labels = [
        len([text for mark in it.find("g", class_="kill") for text in mark.find("text")])
        for it in figures
    ]
    lines = [
        len([line for mark in it.find("g", class_="kill") for line in mark.find("line")])
        for it in figures
    ]
    must_be("labels", labels, [1] + [0] * (len(figures) - 1))
    must_be("lines", lines, [1] * len(figures))


def check_by_the_browsers_own_words(program: str) -> None:
    """Chromium's `--dump-dom` prints the page after its script has run, and `--screenshot` makes an
    image of it.
    """
    path = browser_path()
    if is_skipped():
        return
    assert path
    with tempfile.TemporaryDirectory(ignore_cleanup_errors=True) as folder:
        name, picture = os.path.join(folder, "runaway.html"), os.path.join(folder, "page.png")
        with open(name, "wb") as file:
            file.write(story(program))
        words = [path, *flags(os.path.join(folder, "profile"))]
        done = subprocess.run([*words, "--dump-dom", f"file://{name}"], capture_output=True,
                              text=True, timeout=300)
        must('<html lang="en" class="live">' in done.stdout and "0 s to 300 s" in done.stdout,
             f"the script ran: {done.stderr[:500]}")
        subprocess.run([*words, f"--screenshot={picture}", f"file://{name}"], capture_output=True,
                       timeout=300)
        must(os.path.getsize(picture) > 20_000, "there is a picture")


def check_by_tidy(program: str) -> None:
    """The program `tidy` reports no fault in the page."""
    if not shutil.which("tidy"):
        print("tidy isn't installed: its view of the page is skipped")
        return
    said = subprocess.run(["tidy", "-q", "-e", "-utf8"], input=story(program), capture_output=True)
    must_be("what tidy says", (said.returncode, said.stderr.decode()), (0, ""))
