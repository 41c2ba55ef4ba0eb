"""Who can see what of a clinic, as a picture.

The patients' tags are boxes within that of all patients, and each visit stands in the box of its label. A box is grey where the label
of who looks doesn't reach: what stands there isn't told. Below lies the empty label, where everybody sees the bills.
"""

from __future__ import annotations

import html
from typing import Dict, List, NamedTuple, Sequence

WIDTH, LINE, EDGE = 180, 20, 10
"""Of a patient's box, of a line of text, and between boxes, in pixels."""


class Tag(NamedTuple):
    """A patient's tag, whether who looks reaches it, and the visits that stand there."""

    name: str
    is_reached: bool
    visits: Sequence[str]


def text(x: int, y: int, words: str, color: str) -> str:
    return f'<text x="{x}" y="{y}" fill="{color}">{html.escape(words)}</text>'


def box(x: int, y: int, width: int, height: int, lines: Sequence[str], is_reached: bool) -> str:
    """A box with a line of text for its name, and one for each thing in it."""
    fill, color = ("#fff", "#222") if is_reached else ("#e8e8e8", "#999")
    shown = [text(x + EDGE, y + LINE * place + 16, line, color) for place, line in enumerate(lines)]
    return f'<rect x="{x}" y="{y}" width="{width}" height="{height}" rx="6" fill="{fill}" stroke="{color}"/>' + "".join(shown)


def picture(who: str, tags: Sequence[Tag], bills: Sequence[str]) -> str:
    """The picture as who looks may see it."""
    high = LINE * (1 + max([1, *(len(tag.visits) for tag in tags)])) + EDGE
    wide = EDGE + (WIDTH + EDGE) * max(1, len(tags))
    all_high = LINE + high + 2 * EDGE
    bills_high = LINE * (1 + len(bills)) + EDGE
    boxes: List[str] = [box(EDGE, EDGE, wide, all_high, ["patients"], all(tag.is_reached for tag in tags))]
    for place, tag in enumerate(tags):
        lines = [tag.name, *(tag.visits if tag.is_reached else ["not told"])]
        boxes.append(box(2 * EDGE + place * (WIDTH + EDGE), 2 * EDGE + LINE, WIDTH, high, lines, tag.is_reached))
    boxes.append(box(EDGE, all_high + 2 * EDGE, wide, bills_high, ["everybody", *bills], True))
    size = f'width="{wide + 2 * EDGE}" height="{all_high + bills_high + 3 * EDGE}"'
    return f'<svg xmlns="http://www.w3.org/2000/svg" {size} font-family="sans-serif" font-size="14" role="img" aria-label="What {html.escape(who)} sees">{"".join(boxes)}</svg>'


def by_label(rows: Sequence[Sequence[object]]) -> Dict[str, List[str]]:
    """Visits by the names of their labels, of rows of a label, a number and a reason."""
    found: Dict[str, List[str]] = {}
    for label, number, reason in rows:
        found.setdefault(str(label).strip("{}"), []).append(f"visit {number}: {reason}")
    return found
