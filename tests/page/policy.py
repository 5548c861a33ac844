"""What the page allows itself: one script, by its hash."""
from __future__ import annotations

import base64
import hashlib
import re

POLICY = re.compile(r'http-equiv="Content-Security-Policy"\s+content="([^"]*)"')
HASH = re.compile(r"'sha256-[A-Za-z0-9+/]+=*'")
# A script that runs: the data has a type.
SCRIPT = re.compile(r"<script>(.*?)</script>", re.S)


def hash_of(page: str) -> str:
    """The hash of the script of a page, as its policy has to name it."""
    script = SCRIPT.search(page)[1]
    return f"'sha256-{base64.b64encode(hashlib.sha256(script.encode()).digest()).decode()}'"


def with_hash(page: str) -> str:
    """The page with the hash of the script that it has now."""
    return HASH.sub(lambda _: hash_of(page), page, count=1)


def policy_faults(page: str) -> list[str]:
    """What is wrong with what a page allows itself."""
    found = POLICY.search(page)
    rules = dict(rule.split(maxsplit=1) for rule in found[1].split(";")) if found else {}
    wanted = {"default-src": "'none'", "base-uri": "'none'", "form-action": "'none'", "style-src": "'unsafe-inline'",
              "script-src": hash_of(page)}
    return [] if rules == wanted else [f"it allows itself {rules}, and not {wanted}"]
