"""Whether a page does what is asked of it: to pick a column, to enlarge a range, to search for a function."""
from __future__ import annotations

from collections.abc import Iterator

from browser import Page
from checks import Wanted, differ

# The first drawing of words: what is picked, from where to where it goes, and where it is.
DRAWN = """(() => {
  const part = document.querySelector('article section.words'), input = part.querySelector('input[type=range]');
  const {left, top, width, height} = part.querySelector('svg').getBoundingClientRect();
  return {job: Number(part.closest('article').id.slice(4)), at: Number(input.value), begin: Number(input.min),
    end: Number(input.max) + 1, text: part.querySelector('output').textContent,
    command: part.querySelector('.where code').textContent, link: part.querySelector('.where a')?.hash ?? null,
    box: [left, top, width, height], buttons: [...part.querySelectorAll('button')].map(({disabled}) => !disabled)};
})()"""
PICK = """((at) => {
  const input = document.querySelector('article section.words input[type=range]');
  input.value = at;
  input.dispatchEvent(new Event('input'));
})(%d)"""
PRESS = "document.querySelectorAll('article section.words button')[%d].click()"
SCROLL = "document.querySelector('article section.words svg').scrollIntoView({block: 'center'})"
# The bars that are found for a name, and what is said of them.
FOUND = """((name) => {
  const part = document.querySelector('article section.calls'), input = part.querySelector('input[type=search]');
  input.value = name;
  input.dispatchEvent(new Event('input'));
  return [part.querySelectorAll('.chain.found').length, part.querySelector('.ranges output').textContent];
})(%r)"""
FOCUS = """document.querySelector('article section.calls .chain[tabindex="0"]').focus()"""
BAR = """(() => {
  const part = document.querySelector('article section.calls');
  return [part.querySelector('output').textContent.split(':')[0], document.activeElement.getAttribute('href'),
    part.querySelectorAll('.chain').length];
})()"""
ENLARGE = """((place) => {
  const part = document.querySelector('article section.calls');
  part.querySelectorAll('button')[place].click();
  const rect = part.querySelector('.chain[tabindex="0"] rect'), all = part.querySelector('svg').viewBox.baseVal.width;
  return Number(rect.getAttribute('width')) / all;
})(%d)"""


def drawn_jobs(wanted: Wanted) -> list[dict]:
    return [job for job in wanted.jobs if job.get("columns", {}).get("most")]


def picked_text(job: dict, at: int) -> str:
    """What is said of the words of a column."""
    columns, each = job["columns"], job["columns"]["each"]
    begin, end = at * each, min((at + 1) * each, max(job["instructions"], 1))
    most, least = columns["most"][at], columns["least"][at]
    words = f"{most:,} word{'' if most == 1 else 's'}"
    inside, ran = (job["functions"][columns[of][at]]["name"] for of in ("function", "ran"))
    if end - begin > 1:
        return (f"instructions {begin + 1:,} to {end:,}: at most {words} at one of them, at least {least:,} after one; "
                f"the most in {inside}; {ran} ran most")
    after = "at it and after it" if most == least else f"at it, {least:,} after it"
    return f"instruction {end:,} in {inside}: {words} {after}"


def picking(page: Page, wanted: Wanted) -> Iterator[str]:
    """A column that is picked leads to its line, and gives the command that shows its state."""
    for job in drawn_jobs(wanted)[:1]:
        count, each = len(job["columns"]["most"]), job["columns"]["each"]
        for at in sorted({0, count // 3, count - 1}):
            page.run(PICK % at)
            shown = page.run(DRAWN)
            has_peak = at * each < job["peak_at"] <= (at + 1) * each
            after = job["peak_at"] - 1 if has_peak else at * each
            yield from differ("the column", shown["text"], picked_text(job, at))
            yield from differ("the command", shown["command"], f"vjobs-why --job {job['job']} --after {after} FILE")
            yield from differ("the line", shown["link"], f"#job-{job['job']}-line-{job['columns']['line'][at]}")


def enlarging(page: Page, wanted: Wanted) -> Iterator[str]:
    """A range is enlarged by a button and by the pointer, and the whole run comes back."""
    for job in [job for job in drawn_jobs(wanted)[:1] if len(job["columns"]["most"]) > 16]:
        count = len(job["columns"]["most"])
        page.run(PICK % (count // 2))
        page.run(PRESS % 0)
        near = page.run(DRAWN)
        if not near["begin"] <= count // 2 < near["end"] or not count / 8 < near["end"] - near["begin"] < count / 2:
            yield f"a part is enlarged from {near['begin']} to {near['end']} of {count}"
        page.run(PRESS % 1)
        whole = [page.run(DRAWN)[of] for of in ("begin", "end", "buttons")]
        yield from differ("the whole run", whole, [0, count, [True, False]])
        page.run(SCROLL)
        left, top, width, height = page.run(DRAWN)["box"]
        places = [left + 54 + part * (width - 68) for part in (.25, .5)]
        page.pull((places[0], top + height / 2), (places[1], top + height / 2))
        pulled = page.run(DRAWN)
        for end, part in [("begin", .25), ("end", .5)]:
            if abs(pulled[end] - part * count) > count / 20 + 2:
                yield f"the pointer was pulled to {part} of {count} columns, and {end} is {pulled[end]}"
        page.run(PRESS % 1)


def searching(page: Page, wanted: Wanted) -> Iterator[str]:
    """Functions are found among the bars, which lead to their lines and can be gone through by keys."""
    for job in drawn_jobs(wanted)[:1]:
        bars = page.run(BAR)[2]
        for place, function in enumerate(job["functions"][:3]):
            chains = [at for at, chain in enumerate(job["calls"]) if function["name"] in name_at(job, chain[1])]
            found, told = page.run(FOUND % function["name"])
            is_short = found < len(chains) and bars == len(job["calls"])
            if not told.startswith(f"{len(chains):,} chain") or found > len(chains) or is_short:
                yield f"of {len(chains)} chains of {function['name']} it finds {found}: {told}"
        page.run(FOUND % "")
        page.run(FOCUS)
        yield from differ("the outermost bar", page.run(BAR)[:2], leads_to(job, job["calls"][0][1]))
        whole = whole_of(job)
        inner = [at for at, chain in enumerate(job["calls"]) if at and chain[0] == 0]
        if inner and bars > 1:
            page.press("ArrowDown", 40)
            widest = max(inner, key=lambda at: whole[at])
            yield from differ("the bar within", page.run(BAR)[:2], leads_to(job, job["calls"][widest][1]))
            if page.run(ENLARGE % 0) < .99:
                yield "a bar isn't enlarged"
            part = page.run(ENLARGE % 1)
            if abs(part - whole[widest] / max(whole[0], 1)) > .01:
                yield f"the whole run has the bar at {part}"


def name_at(job: dict, place: int) -> str:
    return job["functions"][place]["name"] if place < len(job["functions"]) else "(more)"


def leads_to(job: dict, place: int) -> list[str]:
    """What is said of a bar of a function, and where it leads."""
    return [name_at(job, place), f"#job-{job['job']}-line-{job['functions'][place]['line']}"]


def whole_of(job: dict) -> list[int]:
    """The instructions of each chain with those inside it."""
    whole = [chain[3] for chain in job["calls"]]
    for place in range(len(whole) - 1, 0, -1):
        whole[job["calls"][place][0]] += whole[place]
    return whole
