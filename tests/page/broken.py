"""Pages that are broken, each for a check that has to refuse it."""
from __future__ import annotations

from collections.abc import Iterator
from pathlib import Path

from browser import Browser, Page
from checks import Wanted
from policy import with_hash
from suite import CHECKS, wrong

# The page of as many jobs as a batch may have. It is only looked at as it is opened.
MANY = "sixty_four"
# A change of the script of a page whose hash stays as it is, so that the script doesn't run.
OTHER_SCRIPT = ("start();\n</script>", "start();\n\n</script>")
# For each check a change of a page that it has to refuse: a text of the page, and what comes in its place.
BROKEN = {
    "numbers": [('"instructions":599', '"instructions":600'),
                ("'number heat'}, number(part))", "'number heat'}, number(part + 1))"),
                ("number(column.least)", "number(column.most)"),
                ("function ending(job) {", "function ending(job) {\n  job.note = '';")],
    "drawings": [("draw('g', {class: 'bars'}, bars)", "[]"), ("scroll(name, table(caption, heads, rows))", "caption"),
                 ("COLOURS[rank] ?? pale(rank)", "COLOURS[0]")],
    "elements": [('<main id="jobs">', '<img alt="one"><main id="jobs">'),
                 ("document.createTextNode(child)", "(document.createRange().createContextualFragment(child))")],
    "elements_counted": [("line: (row) => row[2]", "line: (row) => row[1]"),
                         ("each.with_callees[unit]", "each.with_callees.instructions")],
    "width": [("* { box-sizing", "body { min-width: 900px; } * { box-sizing")],
    "places": [("{href: '#' + line_id(job, line)}", "{href: '#job-1-line-0'}"),
               ("x = Math.max(left + 4,", "x = Math.min(4,"),
               ("  if (box) box.scrollTop = ", "  if (box) box.scrollTop = 9e6 + ")],
    "states": [("member === passed)", "false)"), ("`Within the widest limits it ends so: ${widest.end}", "`${widest.end}"),
               ("[share(count, words), 'number']", "[share(words, words), 'number']"),
               ("({from, to, most, least: most})", "({from, to, most: 1, least: most})"),
               ("      room = entries;", "      room = 0;\n      return;"),
               ("[entry.values, more]", "[entry.values]"),
               ("`${files[file]}:${line}`", "`${files[0]}:${line}`"),
               ("left ? make('p'", "false ? make('p'")],
    "narrow": [("`${plural(narrow, 'chain')} of", "`${plural(narrow + 1, 'chain')} of")],
    "picking": [("--after ${after} FILE", "--after ${after + 1} FILE"),
                ("line_link(job, column.line,", "line_link(job, series.columns[0].line + 1,"),
                ("`${name} at it, ${number(least)} after it`", "`${name} at it`")],
    "enlarging": [("view.show(begin, begin + size)", "view.show(0, columns.length)"),
                  ("if (begin !== null && high > low) view.show(low, high + 1);", ""),
                  ("view.show(0, columns.length));\n  input", "view.show(0, 8));\n  input")],
    "searching": [("classList.toggle('found', has(chain))", "classList.toggle('found', false)"),
                  ("ArrowDown: chain.inner", "ArrowDown: [chain]"), ("show(flame.picked)", "show(flame.order[0])"),
                  ("{href: '#' + line_id(job, function_line)}", "{href: '#job-1-line-' + job.code.first}")],
    "light": [("MOST_OPEN = 8", "MOST_OPEN = 64")],
    "cost": [("start();\n</script>",
              "for (let count = 0; count < 4e9; count += 1);\nstart();\n</script>")],
    "contrast": [("--dim: #59616b", "--dim: #99a1ab"), ("['#4477aa', '#fff']", "['#4477aa', '#000']")],
    "keyboard": [("tabindex: 0, role", "role"), ("input.addEventListener('input'", "input.addEventListener('other'")],
    "printing": [("  .scroll { max-height: none;", "  .scroll { max-height: 40px;")],
    "console": [("start();\n</script>", "start();\nmissing();\n</script>"), OTHER_SCRIPT],
    "requests": [("default-src 'none'", "default-src *"),
                 ('<main id="jobs">', '<img src="http://127.0.0.1:9/x.png"><main id="jobs">')],
}


# The page that is broken for a check, if it isn't that with made-up columns.
PAGES = {"elements": "attacks", "light": MANY, "cost": MANY, "states": "state", "narrow": "chains", "searching": "quicksort"}
# Texts of a page, and what comes in their places.
Change = list[tuple[str, str]]


def changes() -> Iterator[tuple[str, int, Change]]:
    """Each check with a change that it has to refuse, and the number of the change among those of the check."""
    for check, pairs in BROKEN.items():
        tries = [pairs] if check == "requests" else [[pair] for pair in pairs]
        yield from ((check, number, change) for number, change in enumerate(tries))


def let_through(browser: Browser, folder: Path, pages: dict[str, tuple[Path, Wanted]], check: str, number: int,
                change: Change) -> list[str]:
    """What is wrong if a check doesn't refuse a page with a change, or the page can't be changed so."""
    page, wanted = pages[PAGES.get(check, "columns")]
    text = page.read_text()
    found = [f"{check}: the page has no {old!r}" for old, _ in change if old not in text]
    for old, new in change:
        text = text.replace(old, new)
    broken = folder / f"broken-{check}-{number}.html"
    broken.write_text(text if change == [OTHER_SCRIPT] else with_hash(text))
    opened = Page(browser, broken.as_uri(), 400, page.stem != MANY)
    refused = wrong(opened, wanted, [each for each in CHECKS if each.__name__ == check])[check]
    opened.close()
    if refused:
        print(f"a page that is broken is refused: {refused[0][:150]}")
        return found
    return [*found, f"{check}: it doesn't refuse a page with {change[0][1]!r}"]
