"""Whether wires meet as they are drawn."""
import math

STEPS = 6                                                           # pieces that a curve is looked at in


def along(curve):
    """Points along a quadratic curve (from, bend, to)."""
    shares = (i / STEPS for i in range(STEPS + 1))
    return [tuple((1 - t) ** 2 * p + 2 * t * (1 - t) * q + t * t * r for p, q, r in zip(*curve)) for t in shares]


def drawn(start, bends, end):
    """The points of a wire as drawn: straight from its start to each bend, which is a curve or one point, and straight to its end."""
    return [start, *(point for bend in bends for point in (along(bend) if len(bend) == 3 else bend)), end]


def pieces_by_box(lines, size):
    """{box: pieces (wire, from, to)} whose bounds meet a square box of that size."""
    boxes = {}
    for wire, points in lines.items():
        for p, q in zip(points, points[1:]):
            if p != q:
                xs, ys = sorted((p[0], q[0])), sorted((p[1], q[1]))
                for i in range(math.floor(xs[0] / size), math.floor(xs[1] / size) + 1):
                    for j in range(math.floor(ys[0] / size), math.floor(ys[1] / size) + 1):
                        boxes.setdefault((i, j), []).append((wire, p, q))
    return boxes


def side(p, q, r):
    """Above 0 where r lies on one side of the line from p to q, under 0 on the other, 0 on it."""
    return (q[0] - p[0]) * (r[1] - p[1]) - (q[1] - p[1]) * (r[0] - p[0])


def meet(p, q, r, s):
    """Whether two pieces have a point in common."""
    apart = any(max(p[i], q[i]) < min(r[i], s[i]) or max(r[i], s[i]) < min(p[i], q[i]) for i in (0, 1))
    return not apart and side(p, q, r) * side(p, q, s) <= 0 and side(r, s, p) * side(r, s, q) <= 0


def crossings(lines, size, progress=lambda done, of: None):
    """The pairs of wires {wire: points} that meet, looked for in boxes of a size."""
    found, boxes = set(), pieces_by_box(lines, size)
    for done, pieces in enumerate(boxes.values()):
        progress(done, len(boxes))
        for i, (wire, p, q) in enumerate(pieces):
            for other, r, s in pieces[:i]:
                if other != wire and meet(p, q, r, s):
                    found.add((min(wire, other), max(wire, other)))
    return sorted(found)
