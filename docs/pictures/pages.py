"""What a person does at a page of `hygienic chart --html`: a name is found, bars are pointed at, the picture is moved."""
import json

# So many bars of a page are pointed at, and one of them so often zoomed into.
MOST_BARS, ZOOMS = 12, 3
# What the picture shows: left, top, width and height.
VIEW = "(function (view) { return [view.x, view.y, view.width, view.height]; }(document.querySelector('svg').viewBox.baseVal))"
# The tip as it is shown, or null.
TIP = "(function (tip) { return getComputedStyle(tip).display === 'none' ? null : tip.textContent; }(document.getElementById('tip')))"
# A bar by its number, brought into the window: its label, its middle, and whether it is what is seen there.
BAR = """(function (bar) {
  bar.scrollIntoView({ block: 'center' });
  var box = bar.getBoundingClientRect(), x = box.left + box.width / 2, y = box.top + box.height / 2;
  return [bar.getAttribute('aria-label'), x, y, document.elementFromPoint(x, y) === bar];
}(document.querySelectorAll('svg [aria-label]')[%d]))"""
BARS = "document.querySelectorAll('svg [aria-label]').length"
# The cells of the row in which the text is that was found last, or null.
ROW = """(function (row) { return row && Array.from(row.cells).map(function (cell) { return cell.textContent; }); }(
  getSelection().anchorNode.parentElement.closest('tr')))"""


def row_found(browser, name):
    """The row of the table in which a name is found. It is in the picture too, so it may be found twice before."""
    for _ in range(3):
        if not browser.value(f"window.find({json.dumps(name)}, true)"):
            return None
        if row := browser.value(ROW):
            return row
    return None


def bars_seen(browser):
    """The numbers of some bars, from all over the page, of which each is seen where its middle is."""
    count = browser.value(BARS)
    numbers = range(0, count, max(1, count // (4 * MOST_BARS)))
    return [number for number in numbers if browser.value(BAR % number)[3]][:MOST_BARS]


def pointed_at(browser, number):
    """What is wrong with what a bar tells that the mouse points at, and behind it."""
    label, x, y, _ = browser.value(BAR % number)
    browser.mouse("Moved", x, y)
    told = browser.value(TIP)
    browser.mouse("Moved", 1, 1)
    wrong = [] if told == label else [f"the bar {label!r} tells {told!r}"]
    return wrong if browser.value(TIP) is None else [*wrong, f"the bar {label!r} tells it still when the mouse is elsewhere"]


def moved(browser, number):
    """What is wrong with how the picture is moved: the wheel zooms at the mouse, a drag moves, a double click shows all."""
    whole, wrong = browser.value(VIEW), []
    _, x, y, _ = browser.value(BAR % number)
    for _ in range(ZOOMS):
        browser.mouse("Wheel", x, y, deltaX=0, deltaY=-100)
    zoomed = browser.value(VIEW)
    if abs(zoomed[2] - whole[2] * 0.8**ZOOMS) > 1:
        wrong.append(f"the wheel shows {zoomed} of {whole}")
    button = {"button": "left", "clickCount": 1}
    step = 100 if zoomed[0] > 0 else -100
    browser.mouse("Pressed", x, y, **button)
    browser.mouse("Moved", x + step, y, **button)
    browser.mouse("Released", x + step, y, **button)
    if (browser.value(VIEW)[0] - zoomed[0]) * step >= 0:
        wrong.append(f"a drag by {step} shows {browser.value(VIEW)} in the place of {zoomed}")
    for clicks in (1, 2):
        for kind in ("Pressed", "Released"):
            browser.mouse(kind, x, y, button="left", clickCount=clicks)
    return wrong if browser.value(VIEW) == whole else [*wrong, f"a double click shows {browser.value(VIEW)} of {whole}"]


def used(browser, wanted):
    """What is wrong with an open page: a name is in the row that begins with these cells, and bars tell what they are."""
    row = row_found(browser, wanted[0])
    wrong = [] if row and row[: len(wanted)] == wanted else [f"{wanted[0]} is found in the row {row}, and not {wanted}"]
    bars = bars_seen(browser)
    if not bars:
        return [*wrong, "no bar is seen"]
    for number in bars:
        wrong += pointed_at(browser, number)
    return wrong + moved(browser, bars[len(bars) // 2])
