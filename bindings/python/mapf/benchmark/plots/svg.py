"""Elements of SVG."""
from __future__ import annotations

from html import escape
from typing import Any


def element(name: str, content: str = "", **attributes: Any) -> str:
    """An element; `_` in an attribute's name stands for `-`, and numbers get one digit behind the point."""
    words = "".join(f' {key.replace("_", "-")}="{escape(_word(value))}"' for key, value in attributes.items())
    return f"<{name}{words}>{content}</{name}>" if content else f"<{name}{words}/>"


def text(x: float, y: float, words: str, anchor: str = "start", **attributes: Any) -> str:
    """A line of text that begins, ends or has its middle there."""
    return element("text", shown(words), x=x, y=y, text_anchor=anchor, **attributes)


def line(x1: float, y1: float, x2: float, y2: float, **attributes: Any) -> str:
    """A straight line."""
    return element("line", x1=x1, y1=y1, x2=x2, y2=y2, **attributes)


def shown(words: str) -> str:
    """Words as content; what can't be printed is a question mark."""
    return escape("".join(letter if letter.isprintable() else "?" for letter in words))


def _word(value: Any) -> str:
    return f"{value:.1f}".rstrip("0").rstrip(".") if isinstance(value, float) else str(value)
