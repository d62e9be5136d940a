"""Ways for the arrows of a picture that has its shapes in rows.

Above row c lies channel c, and below the last row one channel more. An arrow goes along channels, and through a row only in a
gap between two of its shapes. Arrows from one source share their ways; those of different sources are kept apart where there
is room.
"""
import heapq
from bisect import bisect_left, insort

APART = 4                    # between two arrows
MARGIN = 2.5                 # between an arrow and a shape
MOST_LANES = 40              # of a channel; beyond these, arrows of different sources may lie upon one another
NEAR = 24                    # gaps that are tried on each side
BEND = 30                    # what a bend costs, as a length


class Row:
    """The gaps of a row, and the arrows that go through them."""

    def __init__(self, boxes, left, right):
        self.low, self.high = [], []
        at = left
        for low, high in [*sorted(boxes), (right, right)]:
            if low - at >= 2 * MARGIN or low == high == right:
                self.low.append(at + MARGIN)
                self.high.append(max(at + MARGIN, low - MARGIN))
            at = max(at, high)
        self.taken = []              # (place, source)

    def gap(self, x):
        """The gap that holds this place, or None."""
        k = bisect_left(self.low, x + 1e-9) - 1
        return k if k >= 0 and x <= self.high[k] + 1e-9 else None

    def crowded(self, x, source):
        """A place of another source's arrow that is too near, or None."""
        k = bisect_left(self.taken, (x - APART + 0.01,))
        while k < len(self.taken) and self.taken[k][0] < x + APART - 0.01:
            if self.taken[k][1] != source:
                return self.taken[k][0]
            k += 1
        return None

    def is_free(self, x, source):
        return self.gap(x) is not None and self.crowded(x, source) is None

    def within(self, k, x, source):
        """The free place of gap k that is nearest to x, or None."""
        best = None
        for step in (APART, -APART):
            at = min(max(x, self.low[k]), self.high[k])
            while self.low[k] - 1e-9 <= at <= self.high[k] + 1e-9:
                other = self.crowded(at, source)
                if other is None:
                    if best is None or abs(at - x) < abs(best - x):
                        best = at
                    break
                at = other + step
        return best

    def nearest(self, x, source):
        """The free place that is nearest to x; where there is none, the place of a gap."""
        k = max(bisect_left(self.low, x) - 1, 0)
        best = None
        for order in (range(k, max(k - NEAR, -1), -1), range(k + 1, min(k + NEAR, len(self.low)))):
            for j in order:
                away = max(self.low[j] - x, x - self.high[j], 0)
                if best is not None and away >= abs(best - x):
                    break
                at = self.within(j, x, source)
                if at is not None and (best is None or abs(at - x) < abs(best - x)):
                    best = at
        if best is None:
            best = min((min(max(x, self.low[j]), self.high[j]) for j in range(max(k - 1, 0), min(k + 2, len(self.low)))), key=lambda at: abs(at - x))
        return best


class Routes:
    def __init__(self, rows, left, right):
        """`rows` has for each row the (left, right) of its shapes; all ways stay from left to right."""
        self.right = right
        self.rows = [Row(boxes, left, right) for boxes in rows]
        self.ways = []               # of each arrow: its source, and (channel, where it comes, where it leaves) in order
        self.lane = [{} for _ in range(len(rows) + 1)]
        self.lanes = [0] * (len(rows) + 1)

    def add(self, source, channel, x, last, to):
        """A way from x in a channel to the place `to` of channel `last`; gives its number."""
        stops = []
        step = 1 if last > channel else -1
        crossed = list(range(channel, last)) if step == 1 else list(range(channel - 1, last - 1, -1))
        at = 0
        while at < len(crossed):
            best = None
            row = self.rows[crossed[at]]
            for c in {x, to, row.nearest(x, source), row.nearest(to, source), row.nearest((x + to) / 2, source)}:
                reach = at
                while reach < len(crossed) and self.rows[crossed[reach]].is_free(c, source):
                    reach += 1
                if reach == at and row.gap(c) is not None and c != x and c != to:
                    reach = at + 1       # no free place: upon another arrow
                if reach == at:
                    continue
                cost = abs(c - x) + abs(to - c) + BEND * ((c != x) + (c != to)) + 3 * BEND * (reach < len(crossed)) / (reach - at)
                if best is None or (cost, c) < best[:2]:
                    best = cost, c, reach
            if best is None:             # a row without a gap at hand
                best = 0, row.nearest(x, source), at + 1
            _, c, reach = best
            stops.append((crossed[at] + (step == -1), x, c))
            for r in crossed[at:reach]:
                insort(self.rows[r].taken, (c, source))
            x, at = c, reach
        stops.append((last, x, to))
        self.ways.append((source, stops))
        return len(self.ways) - 1

    def settle(self):
        """Gives each stretch along a channel its lane. It is called once, behind the last `add`."""
        spans = [{} for _ in self.lane]
        for source, stops in self.ways:
            for channel, x, to in stops:
                if abs(x - to) > 0.05:
                    spans[channel].setdefault(source, []).append((min(x, to), max(x, to)))
        for channel, of in enumerate(spans):
            joined = []
            for source, parts in of.items():
                parts.sort()
                low, high = parts[0]
                for a, b in parts[1:]:
                    if a > high + APART:
                        joined.append((low, high, source))
                        low, high = a, b
                    high = max(high, b)
                joined.append((low, high, source))
            joined.sort(key=lambda j: j[:2])
            free, busy = [], []
            for low, high, source in joined:
                while busy and busy[0][0] + APART < low:
                    heapq.heappush(free, heapq.heappop(busy)[1])
                if free:
                    lane = heapq.heappop(free)
                else:
                    lane = self.lanes[channel]
                    self.lanes[channel] += 1
                heapq.heappush(busy, (high, lane))
                self.lane[channel].setdefault(source, []).append((low, high, lane))
            self.lanes[channel] = min(self.lanes[channel], MOST_LANES)

    def lane_of(self, channel, source, x):
        for low, high, lane in self.lane[channel][source]:
            if low - 0.1 <= x <= high + 0.1:
                return lane % MOST_LANES
        raise LookupError((channel, source, x))

    def points(self, number, first, y_of, end):
        """The corners of an arrow from height `first` to height `end`; `y_of` gives the height of a channel's lane."""
        source, stops = self.ways[number]
        out = [(stops[0][1], first)]
        for channel, x, to in stops:
            if abs(x - to) > 0.05:
                y = y_of(channel, self.lane_of(channel, source, x))
                out += [(x, y), (to, y)]
        out.append((stops[-1][2], end))
        return out


def rounded(points, radius=4.0):
    """A path along these corners, which are made round."""
    out = ["M%.1f %.1f" % points[0]]
    for (ax, ay), (bx, by), (cx, cy) in zip(points, points[1:], points[2:]):
        r = min(radius, (abs(bx - ax) + abs(by - ay)) / 2, (abs(cx - bx) + abs(cy - by)) / 2)
        before = (bx - r * sign(bx - ax), by - r * sign(by - ay))
        behind = (bx + r * sign(cx - bx), by + r * sign(cy - by))
        out.append("L%.1f %.1fQ%.1f %.1f %.1f %.1f" % (before + (bx, by) + behind))
    out.append("L%.1f %.1f" % points[-1])
    return "".join(out)


def sign(x):
    return (x > 0) - (x < 0)
