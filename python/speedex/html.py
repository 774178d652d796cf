"""Tables and figures of a page, as HTML that a screen reader reads: captions, heads with a scope, words for colours."""

from __future__ import annotations

from fractions import Fraction
from html import escape
from typing import Optional, Sequence, Tuple, Union

from .decimals import rounded
from .records import ONE

Cell = Union[str, int, "Html"]


class Html(str):
    """Text that is HTML already."""


def text_of(cell: Cell) -> str:
    """A cell as HTML: whole numbers with commas."""
    if isinstance(cell, Html):
        return cell
    return f"{cell:,}" if isinstance(cell, int) else escape(cell)


def table(
    caption: str,
    heads: Sequence[str],
    rows: Sequence[Sequence[Cell]],
    foot: Optional[Sequence[Cell]] = None,
    wide: Sequence[int] = (),
    groups: Sequence[Tuple[str, int]] = (),
) -> str:
    """A table whose first column names the rows. ``wide`` are columns with bars, ``groups`` heads over several."""
    parts = [f'<div class="scroll" tabindex="0" role="region" aria-label="{escape(caption)}"><table>']
    parts.append(f"<caption><span>{escape(caption)}</span></caption><thead>")
    if groups:
        parts.append("<tr>" + "".join(_group(*group) for group in groups) + "</tr>")
    parts.append("<tr>")
    parts += [f'<th scope="col"{_left(at in wide or at == 0)}>{escape(head)}</th>' for at, head in enumerate(heads)]
    parts.append("</tr></thead><tbody>")
    parts += [_row(row, wide) for row in rows]
    parts.append("</tbody>")
    if foot is not None:
        parts.append(f"<tfoot>{_row(foot, wide)}</tfoot>")
    return "".join([*parts, "</table></div>"])


def _group(head: str, columns: int) -> str:
    return f'<th scope="colgroup" colspan="{columns}">{escape(head)}</th>' if head else f'<td colspan="{columns}"></td>'


def _left(is_left: bool) -> str:
    return ' class="left"' if is_left else ""


def _row(row: Sequence[Cell], wide: Sequence[int]) -> str:
    first, *rest = row
    cells = "".join(
        f"<td{' class=' + chr(34) + 'wide' + chr(34) if at in wide else ''}>{text_of(cell)}</td>"
        for at, cell in enumerate(rest, 1)
    )
    return f'<tr><th scope="row">{text_of(first)}</th>{cells}</tr>'


def bar(part: int, whole: int) -> Html:
    """A bar for a share, which is decoration: the figure stands beside it."""
    if not part:
        return Html("")
    percent = rounded(Fraction(100 * part, whole), 1)
    return Html(f'<span class="bar" style="width:{percent}%" aria-hidden="true"></span>')


def percent(part: int, whole: int) -> str:
    """A share in percent with one decimal."""
    return rounded(Fraction(100 * part, whole), 1) + " %" if whole else "0 %"


def change(before: int, after: int) -> str:
    """By how much a price moved, in percent."""
    moved = rounded(Fraction(100 * (after - before), before), 3)
    return f"{moved} %".replace("-", "−") if moved.startswith("-") else f"+{moved} %"


def price(fixed: int) -> str:
    """A price or a rate in units of ``2^-24`` with six decimals."""
    return commas(rounded(Fraction(fixed, ONE), 6))


def value(fixed: int) -> str:
    """A value in units of ``2^-24`` with two decimals."""
    return commas(rounded(Fraction(fixed, ONE), 2))


def commas(decimal: str) -> str:
    """A decimal with commas before the point."""
    before, point, behind = decimal.partition(".")
    return f"{int(before):,}{point}{behind}" if before not in ("-0",) else decimal


def figures(pairs: Sequence[Tuple[str, str, str]]) -> str:
    """A row of large figures: what each is, the figure, and a note."""
    items = (
        f"<div><dt>{escape(name)}</dt><dd>{escape(figure)}{f'<small>{escape(note)}</small>' if note else ''}</dd></div>"
        for name, figure, note in pairs
    )
    return f'<dl class="figures">{"".join(items)}</dl>'


def section(name: str, head: str, *parts: str) -> str:
    return f'<section aria-labelledby="{name}"><h2 id="{name}">{escape(head)}</h2>{"".join(parts)}</section>'


def paragraph(words: str) -> str:
    return f"<p>{escape(words)}</p>"
