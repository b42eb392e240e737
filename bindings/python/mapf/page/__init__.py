"""The page that shows a plan: one HTML file, which is joined of the parts beside this file."""
from __future__ import annotations

import base64
import gzip
import json
import pkgutil
from typing import Dict, NamedTuple, Optional, Tuple

SCRIPTS = ("reading.js", "formats.js", "calling.js", "drawing.js", "trails.js", "delays.js", "playing.js", "judging.js", "acting.js")
BEGINS = '<!doctype html>\n<html lang="en" data-page="mapf">\n'


class Shown(NamedTuple):
    """What a page begins with.

    files: by `map`, `scen` and `plan` the name and the contents of each file that there is.
    agents: how many of the scenario's first rows are agents.
    verdict: the status and the line of the checker; None where the page's module is asked.
    """

    files: Dict[str, Tuple[str, bytes]]
    agents: int
    no_following: bool
    verdict: Optional[Tuple[int, str]]


def page_of(shown: Shown, module: bytes = b"") -> str:
    """The page; with a module of WebAssembly it judges and solves by itself."""
    files = [[kind, name, contents.decode("latin-1")] for kind, (name, contents) in shown.files.items()]
    given = {"files": files, "agents": shown.agents, "rule": shown.no_following, "verdict": shown.verdict}
    packed = base64.b64encode(gzip.compress(module, 9, mtime=0)).decode() if module else ""
    parts = {
        "@STYLE@": _part("style.css"), "@SCRIPT@": "\n".join(_part(name) for name in SCRIPTS), "@MODULE@": packed,
        "@GIVEN@": json.dumps(given).replace("<", "\\u003c")}
    page = _part("page.html")
    for mark, text in parts.items():
        before, after = page.split(mark)
        page = before + text + after
    return page


def _part(name: str) -> str:
    return (pkgutil.get_data(__name__, name) or b"").decode().rstrip("\n")
