"""Pictures of trees of calls: SVG that stands alone, and text for Graphviz."""
from dataclasses import dataclass, field
from xml.sax.saxutils import escape

LABEL_LENGTH = 44
CHARACTER, FONT = 7.3, 12
BOX, ROW, GAP, MARGIN, PAD = 20, 27, 40, 16, 7
TITLE = 26
LEGEND_ROW = 24

# each kind: fill, line, text, dashes, and what it is. They differ in grey too.
STYLES = {
    "answer": ("#14532d", "#14532d", "#ffffff", "", "call that found an answer"),
    "inner": ("#a8c4e6", "#3b5b86", "#000000", "", "call with calls of its own"),
    "leaf": ("#fdf3e1", "#b07d2b", "#000000", "", "call that ends without an answer"),
    "refused": ("#ffffff", "#777777", "#555555", "4 3", "refused by a test, not called"),
}


@dataclass
class Node:
    """A call, or one that was refused, with what it found and where its box is drawn."""

    arguments: list[str]
    called: bool = True
    values: list[str] = field(default_factory=list)
    kids: list["Node"] = field(default_factory=list)
    depth: int = 0
    x: float = 0
    y: float = 0

    def kind(self) -> str:
        """Which of the styles it has."""
        if not self.called:
            return "refused"
        if self.values:
            return "answer"
        return "inner" if any(kid.called for kid in self.kids) else "leaf"

    def label(self) -> str:
        """Its arguments and what it found."""
        text = shortened(" ".join(self.arguments))
        return f"{text} => {shortened(' '.join(self.values))}".lstrip() if self.values else text

    def width(self) -> float:
        """The width of its box."""
        return max(len(self.label()), 1) * CHARACTER + 2 * PAD


def shortened(text: str) -> str:
    """The text, without its middle where it is long."""
    if len(text) <= LABEL_LENGTH:
        return text
    half = (LABEL_LENGTH - 4) // 2
    return f"{text[:half]} .. {text[-half:]}"


def all_nodes(roots: list[Node]) -> list[Node]:
    """The nodes in the order of the run. Trees may be deeper than Python's stack."""
    found: list[Node] = []
    waiting = roots[::-1]
    while waiting:
        node = waiting.pop()
        found.append(node)
        waiting += node.kids[::-1]
    return found


def lay_out(roots: list[Node]) -> tuple[float, float]:
    """Places each box, and answers the size of the whole: a column for each depth, a row for each node without kids,
    and the others at the middle of their first and last kid."""
    nodes = all_nodes(roots)
    widths = [0.0] * (max(node.depth for node in nodes) + 1)
    rows = 0
    for node in nodes:
        widths[node.depth] = max(widths[node.depth], node.width())
        if not node.kids:
            node.y = rows * ROW
            rows += 1
    for node in reversed(nodes):
        node.x = sum(widths[:node.depth]) + GAP * node.depth
        if node.kids:
            node.y = (node.kids[0].y + node.kids[-1].y) / 2
    return sum(widths) + GAP * (len(widths) - 1), rows * ROW - (ROW - BOX)


def number(value: float) -> str:
    """A length for SVG."""
    return f"{value:.1f}".removesuffix(".0")


def box(node_kind: str, x: float, y: float, width: float, text: str) -> str:
    """A box with its text in the middle."""
    fill, line, ink, dashes, _ = STYLES[node_kind]
    dash = f' stroke-dasharray="{dashes}"' if dashes else ""
    corner = 10 if node_kind == "answer" else 3
    return (f'<rect x="{number(x)}" y="{number(y)}" width="{number(width)}" height="{BOX}" rx="{corner}" '
            f'fill="{fill}" stroke="{line}"{dash}/>\n'
            f'<text x="{number(x + width / 2)}" y="{number(y + 14)}" text-anchor="middle" fill="{ink}">'
            f"{escape(text)}</text>")


def edge(parent: Node, kid: Node) -> str:
    """The line from a call to one of its kids."""
    x1, y1 = parent.x + parent.width(), parent.y + BOX / 2
    x2, y2 = kid.x, kid.y + BOX / 2
    # boxes of a column have one left side, so the bend stands before it
    middle = x2 - GAP / 2
    dashes = "" if kid.called else f' stroke-dasharray="{STYLES["refused"][3]}"'
    path = f"M{number(x1)} {number(y1)}H{number(middle - 10)}C{number(middle)} {number(y1)} "
    path += f"{number(middle)} {number(y2)} {number(x2)} {number(y2)}"
    return f'<path d="{path}"{dashes}/>'


def legend(kinds: list[str], top: float) -> str:
    """A box and some words for each kind that occurs, below each other."""
    parts = []
    for place, kind in enumerate(kinds):
        y = top + place * LEGEND_ROW
        parts.append(box(kind, 0, y, 30, ""))
        parts.append(f'<text x="40" y="{number(y + 14)}">{STYLES[kind][4]}</text>')
    return "\n".join(parts)


def svg(roots: list[Node], title: str) -> str:
    """The picture as SVG."""
    nodes = all_nodes(roots)
    width, height = lay_out(roots)
    kinds = [kind for kind in STYLES if any(node.kind() == kind for node in nodes)]
    texts = [len(title) * CHARACTER, *(40 + len(STYLES[kind][4]) * CHARACTER for kind in kinds)]
    top = TITLE + height + ROW
    across = max(width, *texts) + 2 * MARGIN
    down = top + len(kinds) * LEGEND_ROW + 2 * MARGIN
    edges = "\n".join(edge(node, kid) for node in nodes for kid in node.kids)
    boxes = "\n".join(box(node.kind(), node.x, node.y, node.width(), node.label()) for node in nodes)
    return f"""<svg xmlns="http://www.w3.org/2000/svg" width="{across:.0f}" height="{down:.0f}" \
viewBox="0 0 {across:.0f} {down:.0f}" font-family="DejaVu Sans Mono, Menlo, Consolas, monospace" font-size="{FONT}">
<title>{escape(title)}</title>
<rect width="100%" height="100%" fill="#ffffff"/>
<g transform="translate({MARGIN} {MARGIN})">
<text y="12" font-weight="bold">{escape(title)}</text>
<g transform="translate(0 {TITLE})">
<g fill="none" stroke="#555555">
{edges}
</g>
{boxes}
</g>
{legend(kinds, top)}
</g>
</svg>
"""


def quoted(text: str) -> str:
    """A text as a word of Graphviz."""
    return '"' + text.replace("\\", "\\\\").replace('"', '\\"') + '"'


def dot(roots: list[Node], title: str) -> str:
    """The picture as text for Graphviz."""
    nodes = all_nodes(roots)
    places = {id(node): place for place, node in enumerate(nodes)}
    parts = ["digraph search {", f"  label={quoted(title)}; labelloc=t; rankdir=LR;",
             '  node [shape=box, style=filled, fontname="monospace"];']
    for place, node in enumerate(nodes):
        fill, line, ink, dashes, _ = STYLES[node.kind()]
        style = '"filled,dashed"' if dashes else "filled"
        parts.append(f'  n{place} [label={quoted(node.label())}, fillcolor="{fill}", color="{line}", '
                     f'fontcolor="{ink}", style={style}];')
    for node in nodes:
        for kid in node.kids:
            style = "" if kid.called else " [style=dashed]"
            parts.append(f"  n{places[id(node)]} -> n{places[id(kid)]}{style};")
    return "\n".join([*parts, "}", ""])
