"""Trees drawn: as text, and in the DOT language of Graphviz.

    heading(allocation, names)            an allocation in words
    text(allocation, names, marked)       the lines of one allocation's tree; `marked` is a spot or None
    dot(allocations, names, marked, caption)   the trees of some allocations as one graph
    svgs(graphs)                          graphs as SVG, or None where Graphviz's `dot` is not there
"""

import re
import shutil
import subprocess

from . import memories, permissions
from .words import count

LAST, INNER, UNDER_LAST, UNDER_INNER = "└─ ", "├─ ", "   ", "│  "
MARK = "  <- refused here"

_SVG = re.compile(r"<svg\b.*?</svg>", re.DOTALL)
_ID = re.compile(r'(?<=<g) id="[^"]*"')


def heading(allocation, names):
    """An allocation in words."""
    return ", ".join(_heading_parts(allocation, names))


def _heading_parts(allocation, names):
    name = names.of(allocation.root)
    yield f"{name}: allocation {allocation.number}, {allocation.state} {allocation.kind}"
    yield f"{count(allocation.size, 'byte')} at {allocation.address:#x}, alignment {1 << allocation.exponent}"


def text(allocation, names, marked=None):
    """One allocation's tree, a node a line, below its heading."""
    lines = [heading(allocation, names)]
    children = memories.children(allocation)
    waiting = [(allocation.nodes[0], "", "", "")]
    while waiting:
        node, indent, branch, under = waiting.pop()
        mark = MARK if marked is not None and marked.pointer == node.pointer else ""
        lines.append(f"  {indent}{branch}{_label(allocation, node, names)}{mark}")
        inner = children[node.pointer]
        for child in reversed(inner):
            is_last = child is inner[-1]
            waiting.append((child, indent + under, LAST if is_last else INNER, UNDER_LAST if is_last else UNDER_INNER))
    return lines


def _label(allocation, node, names):
    parts = [names.with_others(node.pointer)]
    if node.protector != memories.NO_PROTECTOR:
        parts.append(f"[{node.protector} protector]")
    return "  ".join(parts + [", ".join(_row(allocation, node))])


def _row(allocation, node):
    """The stretches of a node's row in words."""
    if not node.codes:
        return ["no bytes"]
    return [
        f"{allocation.addresses(first, end)} {permissions.name(code)}"
        for first, end, code in memories.ranges(node.codes)
    ]


# ---- DOT


def dot(allocations, names, marked=None, caption=""):
    """Allocations as one graph: each a cluster, nodes in order of making, then the edges. The caption stands above all."""
    lines = ["digraph card {", "  graph [fontname=monospace, fontsize=11];", "  node [shape=box, fontname=monospace, fontsize=11];"]
    lines += [f"  label={_quoted(caption)}; labelloc=t;"] * bool(caption)
    for allocation in allocations:
        lines += _cluster(allocation, names, marked)
    return "\n".join(lines + ["}", ""])


def _cluster(allocation, names, marked):
    label = _quoted("\n".join(_heading_parts(allocation, names)))
    lines = [f"  subgraph cluster_{allocation.number} {{", f"    label={label};"]
    for node in allocation.nodes:
        lines.append(f"    {_identifier(node.pointer)} [{_attributes(allocation, node, names, marked)}];")
    for parent, inner in memories.children(allocation).items():
        lines += [f"    {_identifier(parent)} -> {_identifier(child.pointer)};" for child in inner]
    return lines + ["  }"]


def _attributes(allocation, node, names, marked):
    title = names.with_others(node.pointer)
    if node.protector != memories.NO_PROTECTOR:
        title += f"\n{node.protector} protector"
    label = "\n".join([title, *_row(allocation, node)])
    is_met = marked is not None and marked.pointer == node.pointer
    return f"label={_quoted(label)}" + (', class="met", color=red, penwidth=2' if is_met else "")


def _identifier(pointer):
    return f"n{pointer.allocation}_{pointer.node}"


def _quoted(label):
    escaped = label.replace("\\", "\\\\").replace('"', '\\"').replace("\n", "\\n")
    return f'"{escaped}"'


def svgs(graphs):
    """The graphs drawn by Graphviz, each from its <svg on and without ids, so that one page can show them
    all; None where `dot` is not there or fails."""
    if shutil.which("dot") is None:
        return None
    drawn = subprocess.run(["dot", "-Tsvg"], input="".join(graphs), capture_output=True, encoding="utf-8", check=False)
    found = [_ID.sub("", each) for each in _SVG.findall(drawn.stdout)]
    return found if drawn.returncode == 0 and len(found) == len(graphs) else None
