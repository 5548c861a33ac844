"""All checks of a page, and what they find."""
from __future__ import annotations

from collections.abc import Callable, Iterator

from acts import enlarging, picking, searching
from browser import Page
from checks import (Wanted, console, contrast, cost, drawings, elements, elements_counted, keyboard, light, numbers, places,
                    printing, requests, width)
from states import narrow, states

Check = Callable[[Page, Wanted], Iterator[str]]
# Those that don't depend on the width.
ONCE: list[Check] = [light, cost, keyboard, printing]
# Those that depend on it, and those that depend on the colours.
OF_WIDTHS: list[Check] = [numbers, elements_counted, drawings, elements, width, places, states, narrow, picking,
                          enlarging, searching, console, requests]
OF_COLOURS: list[Check] = [contrast]
# Those of a page of which not all jobs are opened.
AS_OPENED: list[Check] = [light, cost, console, requests]
CHECKS = [*ONCE, *OF_WIDTHS, *OF_COLOURS]


def wrong(page: Page, wanted: Wanted, checks: list[Check]) -> dict[str, list[str]]:
    """What is wrong with a page, by the names of the checks."""
    found = {}
    for check in checks:
        try:
            found[check.__name__] = list(check(page, wanted))
        except (RuntimeError, ValueError, KeyError, IndexError) as error:
            found[check.__name__] = [f"it can't be checked: {error}"]
    return found
