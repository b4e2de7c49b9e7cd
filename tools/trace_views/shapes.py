"""Parts of a picture, each as a line of SVG."""
from __future__ import annotations

from html import escape

COLOURS = (
    "#0072b2", "#d55e00", "#009e73", "#cc79a7", "#e69f00", "#56b4e9", "#7a5195", "#8c6d1f", "#4d4d4d", "#b3446c",
)
BOXES = {
    "signal": "#dbe9f6", "wait": "#dbe9f6", "next": "#dbe9f6", "single": "#e7def2", "async": "#dff0d8",
    "shut": "#fbe6c8", "end": "#e4e4e4",
}
RED = "#c00000"


def attributes(more):
    return "".join(f' {key.replace("_", "-")}="{value}"' for key, value in more.items())


def text(x, y, words, size, **more):
    return f'<text x="{x:.1f}" y="{y:.1f}" font-size="{size}"{attributes(more)}>{escape(words)}</text>'


def line(x1, y1, x2, y2, colour, width=1, **more):
    points = f"M{x1:.1f} {y1:.1f}L{x2:.1f} {y2:.1f}"
    return f'<path d="{points}" stroke="{colour}" stroke-width="{width}"{attributes(more)}/>'


def path(points, colour, title="", fill=None):
    return (
        f'<path d="{points}" fill="{fill or "none"}" stroke="{colour}" stroke-width="1.2">'
        f"<title>{escape(title)}</title></path>"
    )


def box(x1, x2, y, height, title, **more):
    return (
        f'<rect x="{x1:.1f}" y="{y:.1f}" width="{x2 - x1:.1f}" height="{height}"{attributes(more)}>'
        f"<title>{escape(title)}</title></rect>"
    )


def torn(x, y, height):
    """White dashes over the side of a box, where it goes on past what is drawn."""
    return line(x, y, x, y + height, "white", 2.4, stroke_dasharray="3 2")


def mark(x, y, r, shape, colour, title):
    """One mark: what a task does in one event."""
    points = {
        "make": f"M{x - r} {y - r}h{2 * r}v{2 * r}h{-2 * r}z",
        "reg": f"M{x - r} {y}h{2 * r}M{x} {y - r}v{2 * r}",
        "sig": f"M{x - r} {y + r}L{x} {y - r}L{x + r} {y + r}z",
        "pass": f"M{x - r} {y}a{r} {r} 0 1 0 {2 * r} 0a{r} {r} 0 1 0 {-2 * r} 0z",
        "claim": f"M{x - r} {y}L{x} {y - r}L{x + r} {y}L{x} {y + r}z",
        "did": f"M{x - r} {y}L{x} {y - r}L{x + r} {y}L{x} {y + r}z",
        "send": f"M{x - r} {y - r}L{x} {y + r}L{x + r} {y - r}z",
        "look": f"M{x - r} {y}a{r} {r} 0 1 0 {2 * r} 0a{r} {r} 0 1 0 {-2 * r} 0z",
        "drop": f"M{x - r} {y - r}L{x + r} {y + r}M{x - r} {y + r}L{x + r} {y - r}",
        "opened": f"M{x + r} {y - 1.4 * r}h{-r}v{2.8 * r}h{r}",
        "shut": f"M{x - r} {y - 1.4 * r}h{r}v{2.8 * r}h{-r}",
        "spawned": f"M{x} {y - r}v{2 * r}",
        "ended": f"M{x} {y - 1.4 * r}v{2.8 * r}",
    }[shape]
    filled = shape in ("make", "sig", "pass", "claim", "send")
    return path(points, colour, title, colour if filled else ("white" if shape in ("look", "did") else None))
