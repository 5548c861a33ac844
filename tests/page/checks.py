"""What a page has to be. Each check gives a text for everything that is wrong."""
from __future__ import annotations

import re
from collections.abc import Iterator
from dataclasses import dataclass

from browser import Page

# What the page reads back from itself, by the rows of its tables.
READ = """(() => {
  const rows = (part, name) => [...part.querySelectorAll(`.${name} tbody tr`)].map((row) => [...row.cells].map((cell) => cell.textContent));
  return [...document.querySelectorAll('article')].map((part) => ({
    name: part.querySelector('h1').textContent, end: part.querySelector('.end').textContent,
    head: part.querySelector('header').textContent, ending: part.querySelector('pre').textContent,
    least: part.querySelector('.ending p code')?.textContent ?? null,
    cards: [...part.querySelectorAll('.cards dd')].map((card) => card.textContent),
    code: rows(part, 'code'), functions: rows(part, 'functions'), calls: rows(part, 'calls'), words: rows(part, 'words'),
    held: rows(part, 'held'), stack: rows(part, 'stack'), active: rows(part, 'active'), source: rows(part, 'source'),
    levels: rows(part, 'levels'), remarks: Object.fromEntries([...part.querySelectorAll('section')].map((each) =>
      [each.className, each.querySelector('h2').textContent])),
    told: [...part.querySelectorAll('.ending p')].map((each) => each.textContent),
    expected: part.querySelector('.ending pre.wide')?.textContent ?? null,
    passed: [...part.querySelectorAll('.cards .passed dt')].map((each) => each.textContent),
    left: [...part.querySelectorAll('.stack p, .active p, .held p')].map((each) => each.textContent),
    narrow: part.querySelector('.calls > p')?.textContent ?? '', bars: part.querySelectorAll('.chain').length,
    colours: [...part.querySelectorAll('.functions .swatch')].map((each) => each.style.background),
    marks: [...part.querySelectorAll('.words svg text')].map((text) => text.textContent),
    level_marks: [...part.querySelectorAll('.levels svg text')].map((text) => text.textContent),
    crosses: part.querySelectorAll('.words svg .cross').length,
    level_crosses: part.querySelectorAll('.levels svg .cross').length,
    drawings: [...part.querySelectorAll('svg')].map((svg) => ({shapes: svg.querySelectorAll('path, rect').length,
      height: svg.getBoundingClientRect().height, named: !!svg.querySelector('title'),
      table: !!svg.closest('section').querySelector('details table tbody tr')})),
  }));
})()"""
ELEMENTS = """(() => {
  const all = [...document.querySelectorAll('*')];
  return {tags: [...new Set(all.map((element) => element.localName))], scripts: document.scripts.length, attacked: typeof attacked,
    bold: document.querySelectorAll('b').length, cards: document.querySelectorAll('.cards dd').length,
    attributes: all.flatMap((element) => [...element.attributes].filter(({name, value}) => /^on|^src|action/.test(name)
      || (name === 'href' && !/^#job-\\d+(-line-\\d+)?$/.test(value))).map(({name, value}) => `${name}=${value}`))};
})()"""
TAGS = set("""html head meta title style body noscript main script article header h1 h2 small span section pre p code dl dt dd
b div i details summary table caption thead tbody tr th td a ul li nav svg path line text circle rect g input output button
label""".split())
# The most jobs that are drawn as a page is opened, the most lines of code that it shows, and the most seconds of a
# processor that opening it may take.
MOST_OPEN, MOST_ROWS, MOST_SECONDS = 8, 5_000, 1.0
FOCUSABLE = """(() => {
  const all = [...document.querySelectorAll('a[href], summary, input, button, [tabindex="0"]')]
    .filter((element) => element.checkVisibility() && element.tabIndex >= 0 && !element.disabled);
  document.addEventListener('focusin', ({target}) => { target.dataset.reached = 1; });
  const is_unpicked = (element) => element.type === 'radio' && !element.checked;
  all.filter((element) => !is_unpicked(element)).forEach((element) => { element.dataset.wanted = 1; });
  return [all.length, [...document.querySelectorAll('.scroll')].filter((element) => element.tabIndex !== 0).length];
})()"""
# Links that lead nowhere, last lines that aren't in sight, and texts of drawings that aren't within them.
PLACES = """(() => {
  const links = [...document.querySelectorAll('a[href]')].map((link) => link.getAttribute('href'))
    .filter((link) => !document.getElementById(link.slice(1)));
  const lines = [...document.querySelectorAll('tr.last')].filter((line) => {
    const own = line.getBoundingClientRect(), box = line.closest('.scroll').getBoundingClientRect();
    return own.top < box.top || own.bottom > box.bottom + 1;
  });
  const texts = [...document.querySelectorAll('svg .strong, svg .alarm')].filter((text) => {
    const {x, y, width} = text.getBBox(), {width: all} = text.ownerSVGElement.viewBox.baseVal;
    const bottom = Number(text.ownerSVGElement.querySelector('.grid').getAttribute('y1'));
    return x < 54 || x + width > all || y < 0 || y > bottom - 6;
  });
  return [...links.map((link) => `a link leads to ${link}`), ...lines.map((line) => `out of sight is ${line.textContent}`),
    ...texts.map((text) => `over an edge is ${text.textContent}`)];
})()"""
# The numbers of functions and chains when elements are counted.
BY_ELEMENTS = """(() => {
  const show = (value) => document.querySelectorAll(`.units input[value=${value}]`).forEach((input) => {
    input.checked = true;
    input.dispatchEvent(new Event('change'));
  });
  show('elements');
  const rows = (part, name) => [...part.querySelectorAll(`.${name} tbody tr`)].map((row) => [...row.cells].map((cell) => cell.textContent));
  const found = [...document.querySelectorAll('article')].map((part) => [rows(part, 'code'), rows(part, 'functions'), rows(part, 'calls')]);
  show('instructions');
  return found;
})()"""
CONTRAST = """(() => {
  const parts = (colour) => {
    const found = colour.match(/[\\d.]+/g).map(Number), unit = colour.startsWith('color') ? 255 : 1;
    return [...found.slice(0, 3).map((part) => part * unit), found[3] ?? 1];
  };
  const over = ([r, g, b, a], back) => [r, g, b].map((part, place) => part * a + back[place] * (1 - a));
  const back_of = (element) => element ? over(parts(getComputedStyle(element).backgroundColor), back_of(element.parentElement)) : [255, 255, 255];
  const light = (colour) => colour.map((part) => part / 255).map((part) => part <= .03928 ? part / 12.92 : ((part + .055) / 1.055) ** 2.4)
    .reduce((sum, part, place) => sum + part * [.2126, .7152, .0722][place], 0);
  const ratio = (left, right) => {
    const [low, high] = [light(left), light(right)].sort((one, other) => one - other);
    return (high + .05) / (low + .05);
  };
  const found = [];
  const look = (name, colour, back) => { if (ratio(over(parts(colour), back), back) < 4.5) found.push(name + ' ' + colour + ' on ' + back.map(Math.round)); };
  for (const name of ['h1', 'h2', 'small', '.dim', '.end', 'td.text', 'tr.never td', 'tr.last td', 'pre', 'pre .note', 'p', 'dt', 'td.heat', 'summary', 'th', 'p a',
    'td a', 'output', '.ended', 'td.values', 'code', '.made', 'button:enabled']) {
    for (const element of document.querySelectorAll(name)) look(name, getComputedStyle(element).color, back_of(element));
  }
  for (const text of document.querySelectorAll('.words svg text, .levels svg text')) look('text', getComputedStyle(text).fill, back_of(text.closest('section')));
  for (const text of document.querySelectorAll('.flame .chain text')) {
    look('bar', getComputedStyle(text).fill, parts(getComputedStyle(text.previousElementSibling).fill).slice(0, 3));
  }
  return [...new Set(found)];
})()"""


@dataclass
class Wanted:
    """What a page has to show: the objects of its jobs, the lines of its batch, and of each job the line with carets."""

    jobs: list[dict]
    lines: list[str]
    carets: list[str]


def console(page: Page, _: Wanted) -> Iterator[str]:
    yield from (f"the console has: {text}" for text in page.said())


def requests(page: Page, _: Wanted) -> Iterator[str]:
    yield from (f"it asks for {url}" for url in page.asked()[1:])


def elements(page: Page, _: Wanted) -> Iterator[str]:
    found = page.run(ELEMENTS)
    if strange := set(found["tags"]) - TAGS:
        yield f"strange elements: {strange}"
    if found["scripts"] != 2 or found["attacked"] != "undefined" or found["bold"] != found["cards"]:
        yield f"elements that a stranger wrote: {found}"
    if found["attributes"]:
        yield f"strange attributes: {found['attributes']}"


def number(text: str) -> int:
    return int(text.replace(",", "") or 0)


def differ(what: str, shown: object, wanted: object) -> Iterator[str]:
    if shown != wanted:
        yield f"{what}: shown is {str(shown)[:300]}, wanted {str(wanted)[:300]}"


def calls_of(job: dict, unit: int = 3) -> list[tuple]:
    """The name, the calls, the instructions or elements and those with calls, of each chain."""
    whole = [chain[unit] for chain in job["calls"]]
    for place in range(len(whole) - 1, 0, -1):
        whole[job["calls"][place][0]] += whole[place]
    names = [*(each["name"] for each in job["functions"]), "(more)"]
    return sorted((names[chain[1]], chain[2], chain[unit], every) for chain, every in zip(job["calls"], whole))


def functions_of(job: dict, unit: str) -> list[tuple]:
    """Of each function its name, its line, its calls, what it did itself, and its shares alone and with its calls."""
    whole = job["instructions"] if unit == "instructions" else sum(each[unit] for each in job["functions"])
    whole = max(whole, 1)
    return sorted((each["name"], each["line"], each["calls"], each[unit], share(each[unit], whole),
                   share(each["with_callees"][unit], whole)) for each in job["functions"])


def share(part: int, whole: int) -> str:
    return "<0.1%" if 0 < 100 * part / whole < .1 else f"{100 * part / whole:.1f}%"


def read_functions(rows: list[list[str]]) -> list[tuple]:
    return sorted((name, number(line), number(calls), number(own), *shares) for name, line, calls, own, *shares in rows)


def read_calls(rows: list[list[str]]) -> list[tuple]:
    return sorted((name.lstrip("\xa0"), *map(number, numbers[:3])) for name, *numbers in rows)


def words_of(job: dict) -> list[tuple]:
    """The columns, at most 64: the first and the last instruction, the least and the most words."""
    columns = job["columns"]
    each, count = columns["each"], len(columns["most"])
    size = -(-count // 64)
    return [(begin * each + 1, min((begin + size) * each, max(job["instructions"], 1)),
             min(columns["least"][begin:begin + size]), max(columns["most"][begin:begin + size]))
            for begin in range(0, count, size)]


def counts(shown: dict, job: dict) -> Iterator[str]:
    """What is wrong with the counts of a job that ran."""
    members = ["budget", "words", "cells", "calls"]
    cards = [tuple(map(number, re.findall(r"[\d,]+", card)[:2])) for card in shown["cards"]]
    yield from differ("limits", cards, [(job["used"][member], job["limits"][member]) for member in members])
    times = [(number(line), number(count)) for line, count, _ in shown["code"] if count]
    yield from differ("lines", times, [(line, times) for line, times, _ in job["lines"]])
    yield from differ("functions", read_functions(shown["functions"]), functions_of(job, "instructions"))
    calls = read_calls(shown["calls"])
    yield from differ("calls", calls, calls_of(job))
    yield from differ("their sum", sum(own for _, _, own, _ in calls), job["instructions"])
    if f"after {job['instructions']:,} instructions" not in shown["head"]:
        yield f"the head is {shown['head']}"
    least = job.get("least")
    limits = [str(least[member]) for member in ["words", "cells", "calls", "budget"]] if least else []
    yield from differ("least limits", shown["least"], " ".join(["JOB", job["name"], *limits]) if least else None)


def columns(shown: dict, job: dict) -> Iterator[str]:
    """What is wrong with the words over time of a job."""
    rows = []
    for span, least, most, *_ in shown["words"]:
        ends = [number(end) for end in span.split(" to ")]
        rows.append((ends[0], ends[-1], number(least), number(most)))
    yield from differ("words", rows, words_of(job))
    if f"peak {job['peak']:,} words, instruction {job['peak_at']:,}" not in shown["marks"]:
        yield f"the peak isn't marked: {shown['marks']}"
    limit = f"limit {job['limits']['words']:,} words"
    yield from differ("the limit is drawn", limit in shown["marks"],
                      job["limits"]["words"] <= 2 * job["peak"] or job["end"].startswith("MEMORY M1"))
    yield from differ("crosses", shown["crosses"], int(job["end"].startswith("MEMORY M1")))


def elements_counted(page: Page, wanted: Wanted) -> Iterator[str]:
    """What is wrong with the numbers when elements are counted."""
    for (code, functions, calls), job in zip(page.run(BY_ELEMENTS), wanted.jobs):
        if "functions" in job:
            counts = [(number(line), number(count)) for line, count, _ in code if count]
            yield from differ("lines", counts, [(line, elements) for line, _, elements in job["lines"]])
            yield from differ("functions", read_functions(functions), functions_of(job, "elements"))
            yield from differ("calls", read_calls(calls), calls_of(job, 4))


def numbers(page: Page, wanted: Wanted) -> Iterator[str]:
    articles = page.run(READ)
    yield from differ("jobs", [[each["name"], each["end"]] for each in articles], [[job["name"], job["end"]] for job in wanted.jobs])
    for shown, job, carets in zip(articles, wanted.jobs, wanted.carets):
        if carets not in shown["ending"].splitlines():
            yield f"job {job['job']}: no line {carets}"
        first = job["code"]["first"]
        lines = [[str(first + place), wanted.lines[first + place - 1]] for place in range(len(job["code"]["lines"]))]
        if len(lines) > MOST_ROWS:
            lines = [line for line in lines if line[0] in {row[0] for row in shown["code"]}]
        yield from differ(f"code of job {job['job']}", [[line, text.rstrip()] for line, _, text in shown["code"]],
                          [[line, text.rstrip()] for line, text in lines])
        if "limits" in job:
            yield from (f"job {job['job']}: {text}" for text in counts(shown, job))
        if "columns" in job:
            yield from (f"job {job['job']}: {text}" for text in columns(shown, job))


def drawings(page: Page, wanted: Wanted) -> Iterator[str]:
    page.wait_for_drawings()
    for shown, job in zip(page.run(READ), wanted.jobs):
        yield from differ("drawings", len(shown["drawings"]), ("calls" in job) + ("columns" in job) + ("levels" in job))
        yield from differ("colours of functions", len(set(shown["colours"])), len(job.get("functions", [])))
        for drawing in shown["drawings"]:
            if not drawing["named"] or not drawing["table"] or not drawing["shapes"] or drawing["height"] < 20:
                yield f"job {job['job']}: a drawing without shapes, a name or a table: {drawing}"


def width(page: Page, _: Wanted) -> Iterator[str]:
    whole, window = page.run("[document.documentElement.scrollWidth, innerWidth]")
    if whole > window:
        yield f"it is {whole} pixels wide in a window of {window}"
    if cut := page.run("[...document.querySelectorAll('.functions .scroll')].filter((part) => part.scrollWidth > part.clientWidth).length"):
        yield f"{cut} tables of functions are cut"


def places(page: Page, _: Wanted) -> Iterator[str]:
    yield from page.run(PLACES)


def light(page: Page, _: Wanted) -> Iterator[str]:
    if page.drawn > MOST_OPEN:
        yield f"it draws {page.drawn} jobs at once"


def keyboard(page: Page, wanted: Wanted) -> Iterator[str]:
    count, shut = page.run(FOCUSABLE)
    if shut:
        yield f"{shut} regions that scroll can't be reached"
    page.press("Tab", 9, count)
    missed = page.run("document.querySelectorAll('[data-wanted]:not([data-reached])').length")
    if missed:
        yield f"{missed} of {count} elements can't be reached"
    drawn = [job["columns"]["most"] for job in wanted.jobs if job.get("columns", {}).get("most")]
    if drawn and len(drawn[0]) > 1:
        before = page.run("(() => { const pick = document.querySelector('.pick input'); pick.value = 0; pick.dispatchEvent(new Event('input')); pick.focus(); return document.querySelector('.pick output').textContent; })()")
        page.press("ArrowRight", 39)
        if before == page.run("document.querySelector('.pick output').textContent"):
            yield "an arrow key picks no other column"


def contrast(page: Page, _: Wanted) -> Iterator[str]:
    yield from (f"too little contrast: {text}" for text in page.run(CONTRAST))


def printing(page: Page, _: Wanted) -> Iterator[str]:
    page.ask("Emulation.setEmulatedMedia", media="print")
    cut = page.run("[...document.querySelectorAll('.scroll')].filter((part) => part.scrollHeight > part.clientHeight + 1).length")
    if cut:
        yield f"{cut} parts are cut in print"
    if len(page.ask("Page.printToPDF", printBackground=True)["data"]) < 4_000:
        yield "the print is empty"


def cost(page: Page, _: Wanted) -> Iterator[str]:
    if page.spent > MOST_SECONDS:
        yield f"it takes {page.spent:.2f} seconds of a processor to be opened"
