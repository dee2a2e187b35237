"""Elements of an SVG file."""
from __future__ import annotations

from html import escape
from typing import Dict, List, Tuple

FONT = "DejaVu Sans, Verdana, sans-serif"


def element(name: str, content: str = "", /, **attributes: object) -> str:
    """An element; `_` in an attribute's name stands for `-`, and a number has at most one decimal."""
    told = "".join(
        f" {key.replace('_', '-')}=\"{escape(_value(value))}\""
        for key, value in attributes.items()
        if value is not None
    )
    return f"<{name}{told}>{content}</{name}>" if content else f"<{name}{told}/>"


def _value(value: object) -> str:
    return f"{value:.1f}".replace(".0", "") if isinstance(value, float) else str(value)


def text(x: float, y: float, content: str, size: int = 13, **attributes: object) -> str:
    """A line of text."""
    told: Dict[str, object] = {"x": float(x), "y": float(y), "font_size": size, **attributes}
    return element("text", escape(content, quote=False), **told)


def line(begin: Tuple[float, float], end: Tuple[float, float], **attributes: object) -> str:
    """A straight line."""
    return element("line", x1=float(begin[0]), y1=float(begin[1]), x2=float(end[0]), y2=float(end[1]), **attributes)


def group(parts: List[str], x: float, y: float) -> str:
    """Elements moved together."""
    return element("g", "\n" + "\n".join(parts) + "\n", transform=f"translate({x:.0f} {y:.0f})")


def document(parts: List[str], width: float, height: float, title: str, markers: Dict[str, str]) -> str:
    """A whole file on white. A marker is an arrow of a name and a colour."""
    arrows = "".join(
        element(
            "marker",
            element("path", d="M0 0L8 4L0 8Z", fill=colour),
            id=name,
            viewBox="0 0 8 8",
            refX=7,
            refY=4,
            markerWidth=11,
            markerHeight=11,
            markerUnits="userSpaceOnUse",
            orient="auto",
        )
        for name, colour in markers.items()
    )
    body = [
        element("title", escape(title, quote=False)),
        element("defs", arrows) if arrows else "",
        element("rect", width="100%", height="100%", fill="#ffffff"),
        *parts,
    ]
    return (
        element(
            "svg",
            "\n" + "\n".join(part for part in body if part) + "\n",
            xmlns="http://www.w3.org/2000/svg",
            width=round(width),
            height=round(height),
            viewBox=f"0 0 {width:.0f} {height:.0f}",
            font_family=FONT,
        )
        + "\n"
    )
