"""Graphs in layers, laid out by `dot` of graphviz. It is given numbers alone: how wide a box is, and which boxes a line joins."""
import hashlib
import json
import shutil
import subprocess

SCALE, HEIGHT, SECONDS = 72, 22, 20
# so many lines in one call of dot, and no curves where there are more in a graph
BATCH, CURVES = 600, 400
# as few turns as a picture of some hundred lines needs
OPTIONS = "rankdir=LR nodesep=0.11 ranksep=0.45 nslimit=4 nslimit1=4 mclimit=0.5"


class NoLayout(Exception):
    """Why a graph cannot be laid out."""


def key_of(widths, edges):
    return hashlib.sha256(json.dumps([widths, edges]).encode()).hexdigest()[:24]


def reduced(edges):
    """The lines of a graph, of many those alone that no way by others says."""
    if len(edges) <= CURVES:
        return edges
    below, behind = {}, {}
    for above, it in edges:
        below.setdefault(above, []).append(it)
    def reach(at):
        """What lies behind a box, as bits."""
        if at not in behind:
            behind[at] = 0
            for it in below.get(at, ()):
                behind[at] |= 1 << it | reach(it)
        return behind[at]
    return [[above, it] for above, it in edges if not any(reach(other) >> it & 1 for other in below[above] if other != it)]


def source_of(widths, edges):
    lines = "spline" if len(edges) <= CURVES else "line"
    boxes = "".join(f"{number} [width={width / SCALE:.3f}]\n" for number, width in enumerate(widths))
    joined = "".join(f"{above} -> {below}\n" for above, below in edges)
    return f"digraph {{\n{OPTIONS} splines={lines}\nnode [shape=box fixedsize=true height={HEIGHT / SCALE:.3f}]\nedge [arrowhead=none]\n{boxes}{joined}}}\n"


def layouts_of(printed):
    """The layouts that dot printed: the width and height of each, the middles of its boxes, and its lines as one path."""
    for part in printed.split("stop\n")[:-1]:
        rows = [it.split() for it in part.splitlines()]
        width, high = (round(float(it) * SCALE) for it in rows[0][2:4])
        boxes = {int(it[1]): (round(float(it[2]) * SCALE), high - round(float(it[3]) * SCALE)) for it in rows if it[0] == "node"}
        paths, is_straight = [], len(rows) - len(boxes) > CURVES
        for it in (it for it in rows if it[0] == "edge"):
            numbers = [round(float(each) * SCALE) for each in it[4 : 4 + 2 * int(it[3])]]
            points = [f"{x} {high - y}" for x, y in zip(numbers[::2], numbers[1::2])]
            paths.append(f"M{points[0]}L{points[-1]}" if is_straight else f"M{points[0]}C{' '.join(points[1:])}")
        yield {"width": width, "height": high, "boxes": [boxes[it] for it in range(len(boxes))], "lines": "".join(paths)}


def laid_out(graphs):
    """The layouts of some graphs by one call of dot."""
    program = shutil.which("dot")
    if program is None:
        raise NoLayout("graphs are not drawn, since there is no program `dot`: install graphviz")
    try:
        text = "".join(source_of(*it) for it in graphs)
        done = subprocess.run([program, "-Tplain"], input=text, capture_output=True, text=True, timeout=SECONDS, check=True)
        found = [*layouts_of(done.stdout)]
    except subprocess.TimeoutExpired:
        raise NoLayout(f"this graph is not drawn: dot took longer than {SECONDS} seconds for it") from None
    except (OSError, subprocess.CalledProcessError, ValueError, IndexError, KeyError) as error:
        raise NoLayout(f"graphs are not drawn: dot of graphviz failed: {error}") from None
    if len(found) != len(graphs):
        raise NoLayout("graphs are not drawn: dot of graphviz printed others")
    return found


def batches(graphs):
    """Graphs by so many as one call takes."""
    batch, size = [], 0
    for it in graphs:
        if batch and size + len(it[1]) > BATCH:
            yield batch
            batch, size = [], 0
        batch.append(it)
        size += len(it[1])
    if batch:
        yield batch


def all_laid_out(graphs, known):
    """The layouts of graphs by their keys, of which some are known; and by key why there is none."""
    wanted = {key_of(*it): it for it in graphs}
    found, faults = {it: known[it] for it in wanted if it in known}, {}
    for batch in batches([it for key, it in wanted.items() if key not in found]):
        keys = [key_of(*it) for it in batch]
        try:
            found.update(zip(keys, laid_out(batch)))
        except NoLayout as fault:
            faults.update(dict.fromkeys(keys, str(fault)))
    return found, faults
