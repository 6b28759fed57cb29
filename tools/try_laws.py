#!/usr/bin/env python3
"""Tries laws of docs/LAWS.md on random small nets, by dates that it reckons itself from the rules of a net alone.

    tools/try_laws.py [NETS [SEED]]        (300 nets, seed 1)

It needs nothing of the program: a law that is to be proved may be tried here first. Each trial draws a live net of one to five
transitions and says what the law says of it, in numbers; one that does not hold is told with its net. For each law a line says
in how many of the nets it was tried, and in how many it failed. The exit status is 0 where none failed.
"""
import random
import sys
from fractions import Fraction
from math import gcd, inf, lcm

# How far dates are reckoned, and from where on they are looked at: small nets have settled by then.
LAST, SETTLED = 420, 180


class Net:
    """Places are (from, to, hold, tokens, ready dates); inputs lead from transitions to (dates, every, gap) or (dates, 0, 0)."""

    def __init__(self, size, places, inputs):
        self.size, self.places, self.inputs = size, places, inputs
        self.order = self.ranked()

    def ranked(self):
        """The transitions along the places without tokens, or None where these close."""
        order, left = [], set(range(self.size))
        while left:
            free = [t for t in left if not any(p[1] == t and p[3] == 0 and p[0] in left for p in self.places)]
            if not free:
                return None
            order += sorted(free)
            left -= set(free)
        return order

    def __repr__(self):
        return f"{self.size} transitions, places {self.places}, inputs {self.inputs}"


def drawn(draw, with_inputs, ready=True):
    """A random live net."""
    while True:
        size = draw.randint(1, 5)
        inputs = {}
        if with_inputs:
            for t in draw.sample(range(size), draw.randint(1, max(1, size // 2))):
                dates = sorted(draw.randint(0, 9) for _ in range(draw.randint(1, 3)))
                every = draw.randint(1, len(dates))
                gap = max(dates[-1] - dates[-every], draw.randint(0, 9))
                inputs[t] = (dates, every, gap) if draw.random() < 0.85 else (dates, 0, 0)
        ends = [t for t in range(size) if t not in inputs]
        places = []
        for _ in range(draw.randint(1, 2 * size) if ends else 0):
            tokens = draw.choice([0, 0, 1, 1, 2, 3])
            dates = [draw.randint(0, 6) for _ in range(tokens)] if ready and tokens and draw.random() < 0.3 else []
            places.append((draw.randrange(size), draw.choice(ends), draw.randint(0, 6), tokens, dates))
        net = Net(size, places, inputs)
        if net.order is not None:
            return net


def listed(net):
    """The releases of the net's input lists."""
    def release(t, k):
        dates, every, gap = net.inputs[t]
        laps = 0
        while k > len(dates):
            if not every:
                return inf
            k, laps = k - every, laps + 1
        return dates[k - 1] + laps * gap
    return release


def least(net, last=LAST, release=None, hold=None, start=0, initial=True):
    """The least dates, row by transition, from number 1 on (number 0 stands for nothing)."""
    release = release or listed(net)
    hold = hold or (lambda i, k: net.places[i][2])
    x = [[start] + [start] * last for _ in range(net.size)]
    for k in range(1, last + 1):
        for t in net.order:
            date = max(start, x[t][k - 1])
            for i, (source, to, _, tokens, ready) in enumerate(net.places):
                if to == t and k > tokens:
                    date = max(date, x[source][k - tokens] + hold(i, k))
                elif to == t and ready and initial:
                    date = max(date, ready[k - 1])
            if t in net.inputs:
                date = max(date, release(t, k))
            x[t][k] = date
    return x


def walk_times(net, i):
    """The greatest times of walks from the first firing of a transition."""
    alone = Net(net.size, net.places, {t: None for t in range(net.size)})
    return least(alone, release=lambda t, k: 0 if (t, k) == (i, 1) else -inf, start=-inf, initial=False)


def circuits(net):
    """All circuits, as lists of numbers of places, each once."""
    found = []

    def go(first, at, path, left):
        for i, p in enumerate(net.places):
            if p[0] == at and p[1] == first:
                found.append(path + [i])
            elif p[0] == at and p[1] > first and p[1] not in left:
                go(first, p[1], path + [i], left | {p[1]})

    for t in range(net.size):
        go(t, t, [], {t})
    return found


def reach(net):
    """Which transition reaches which."""
    on = [{t} for t in range(net.size)]
    for _ in range(net.size):
        for p in net.places:
            for t in range(net.size):
                if p[0] in on[t]:
                    on[t].add(p[1])
    return on


def time_of(net, path):
    """The holding times of a path together."""
    return sum(net.places[i][2] for i in path)


def tokens_of(net, path):
    """The tokens of a path together."""
    return sum(net.places[i][3] for i in path)


def ratio_of(net, path):
    """Time over tokens of a circuit."""
    return Fraction(time_of(net, path), tokens_of(net, path))


def divisors_by_part(net, ratio):
    """Of each strong part of the critical graph its transitions and the divisor of the tokens of its circuits."""
    parts = []
    for path in circuits(net):
        if ratio_of(net, path) == ratio:
            own, divisor = {net.places[i][0] for i in path}, tokens_of(net, path)
            for part in [p for p in parts if p[0] & own]:
                parts.remove(part)
                own, divisor = own | part[0], gcd(divisor, part[1])
            parts.append((own, divisor))
    return parts


def repeats(row, by, rate):
    """Whether the dates of a row go on by a rate in so many firings."""
    return all(row[k + by] == row[k] + rate * by for k in range(SETTLED, LAST - by + 1))


def slope_towards(net, t, on):
    """The slope of a transition, or None where an ended list leads to it."""
    lists = [net.inputs[i] for i in net.inputs if t in on[i]]
    if any(not every for _, every, _ in lists):
        return None
    rates = [ratio_of(net, c) for c in circuits(net) if t in on[net.places[c[0]][0]]]
    return max([Fraction(gap, every) for _, every, gap in lists] + rates + [Fraction(0)])


def with_places(net, places):
    """The net with further places; None where it is not live."""
    more = Net(net.size, net.places + places, net.inputs)
    return more if more.order is not None else None


def shortest(net, period, further=()):
    """Least first dates that leave each place its time at a period and keep what else is asked, or None."""
    first = [0] * net.size
    for _ in range(net.size + 1):
        before = list(first)
        for source, to, hold, tokens, ready in net.places:
            waits = [first[source] + hold - period * tokens] + [d - period * k for k, d in enumerate(ready)]
            first[to] = max([first[to]] + waits)
        for source, to, later, most in further:
            first[source] = max(first[source], first[to] + period * later - most)
        if first == before:
            return first
    return None


# ---- the laws, each a function of a source of random numbers: None where the net drawn does not suit it, else (holds, net)


def greatest_times_are_places_back(draw):
    """A timetable keeps greatest times just where the net with places back has no greater ratio than the period."""
    net = drawn(draw, False, ready=False)
    period = draw.randint(1, 12)
    times = [(draw.randrange(net.size), draw.randrange(net.size), draw.randint(0, 2), draw.randint(0, 12)) for _ in range(2)]
    backs = []
    for source, to, later, most in times:
        tokens = 1 + max(0, -((period * later - most) // period))
        backs.append((to, source, period * (later + tokens) - most, tokens, []))
    more = Net(net.size, net.places + backs, {})
    fits = all(time_of(more, c) <= period * tokens_of(more, c) for c in circuits(more))
    return (shortest(net, period, times) is not None) == fits, net


def periods_from_the_ratio_are_workable(draw):
    """A period has first dates that leave each place its time just where no circuit takes longer."""
    net = drawn(draw, False)
    period = draw.randint(1, 12)
    return (shortest(net, period) is not None) == all(time_of(net, c) <= period * tokens_of(net, c) for c in circuits(net)), net


def waits_are_bounded_by_equal_slopes(draw):
    """Waits in a place are bounded just where both ends have one slope."""
    net = drawn(draw, draw.random() < 0.5)
    if not net.places:
        return None
    source, to, hold, tokens, _ = draw.choice(net.places)
    on = reach(net)
    slope, end = slope_towards(net, source, on), slope_towards(net, to, on)
    if end is None:
        return None
    x = least(net)
    wait = [x[to][k + tokens] - hold - x[source][k] for k in range(1, LAST - 3)]
    grows = max(wait[300:]) > max(wait[150:300])
    return slope <= end and grows == (slope < end), net


def places_hold_within_circuits_and_fill_up(draw):
    """Where what takes from a place stands still, it fills up to the fewest tokens of a circuit through it."""
    net = drawn(draw, False)
    if not net.places:
        return None
    number = draw.randrange(len(net.places))
    held = [p[3] for p in net.places]
    for _ in range(60):
        for t in range(net.size):
            if t != net.places[number][1] and all(held[i] for i, p in enumerate(net.places) if p[1] == t):
                for i, p in enumerate(net.places):
                    held[i] += (p[0] == t) - (p[1] == t)
    through = [tokens_of(net, c) for c in circuits(net) if number in c]
    return held[number] == min(through) if through else net.places[number][0] == net.places[number][1] or held[number] > 40, net


def varying_holds_lie_between(draw):
    """Dates by holds that vary lie between those of two nets."""
    low = drawn(draw, draw.random() < 0.5)
    more = [draw.randint(0, 3) for _ in low.places]
    vary = {}
    x = least(low, 60)
    y = least(low, 60, hold=lambda i, k: vary.setdefault((i, k), low.places[i][2] + draw.randint(0, more[i])))
    z = least(low, 60, hold=lambda i, k: low.places[i][2] + more[i])
    return all(x[t][k] <= y[t][k] <= z[t][k] for t in range(low.size) for k in range(1, 61)), low


def changes_are_slower(draw):
    """A longer hold, a token less and a further place move no date forward, and no cycle time down."""
    net = drawn(draw, draw.random() < 0.5, ready=False)
    places = [(s, t, h + draw.randint(0, 3), max(0, m - draw.randint(0, 1)), []) for s, t, h, m, _ in net.places]
    further = [(draw.randrange(net.size), draw.randrange(net.size), draw.randint(0, 6), draw.randint(1, 3), []) for _ in range(2)]
    slower = Net(net.size, places + further, net.inputs)
    if slower.order is None:
        return None
    x, y = least(net, 60), least(slower, 60)
    paces = [max([ratio_of(n, c) for c in circuits(n)] + [Fraction(0)]) for n in (net, slower)]
    return paces[0] <= paces[1] and all(x[t][k] <= y[t][k] for t in range(net.size) for k in range(1, 61)), net


def releases_move_dates(draw):
    """Releases later by a number, or by numbers."""
    net = drawn(draw, True)
    more, numbers = draw.randint(0, 5), draw.randint(0, 3)
    release = listed(net)
    free = least(net, 60, lambda t, k: -inf)
    x, y = least(net, 60), least(net, 60, lambda t, k: release(t, k) + more)
    z = least(net, 60, lambda t, k: release(t, k - numbers) if k > numbers else -inf)
    dates = all(x[t][k] <= y[t][k] <= x[t][k] + more and (x[t][k] <= free[t][k] or y[t][k] == x[t][k] + more) for t in range(net.size) for k in range(1, 61))
    return dates and all(z[t][k + numbers] == max(free[t][k + numbers], x[t][k]) for t in range(net.size) for k in range(1, 57)), net


def latest(net, due, last):
    """The latest dates for what is due up to a number."""
    y = [[inf] * (last + 2) for _ in range(net.size)]
    for k in range(last, 0, -1):
        for t in reversed(net.order):
            ahead = [y[to][k + tokens] - hold for source, to, hold, tokens, _ in net.places if source == t and k + tokens <= last]
            y[t][k] = min([due.get((t, k), inf), y[t][k + 1]] + ahead)
    return y


def given_inputs_meet_in_time(draw):
    """Given first inputs can be met just where each is at most its latest date, and then these go on."""
    net, last = drawn(draw, True), 8
    due = {(draw.randrange(net.size), draw.randint(1, last)): draw.randint(5, 30) for _ in range(4)}
    y = latest(net, due, last)

    def meets(v):
        x = least(net, last, lambda t, k: v[t][k])
        return all(x[t][k] <= date for (t, k), date in due.items())

    if not meets([[0] * (last + 1)] * net.size):
        return None
    upto = {t: draw.randint(0, last) for t in net.inputs}
    given = {t: sorted(draw.randint(0, 14) for _ in range(last)) for t in net.inputs}
    v = [[given[t][k - 1] if t in upto and 0 < k <= upto[t] else y[t][k] for k in range(last + 1)] for t in range(net.size)]
    in_time = all(given[t][k - 1] <= y[t][k] for t in upto for k in range(1, upto[t] + 1))
    zeros = [[given[t][k - 1] if t in upto and 0 < k <= upto[t] else given[t][upto[t] - 1] if t in upto and upto[t] else 0 for k in range(last + 1)] for t in range(net.size)]
    later = all(not meets([row[:k] + [row[k] + 1] + row[k + 1:] if s == t else row for s, row in enumerate(v)])
                for t in upto for k in range(upto[t] + 1, last + 1) if v[t][k] < inf)
    return meets(zeros) == in_time and (not in_time or (meets(v) and later)), net


def dates_repeat_by_parts(draw):
    """The dates of a transition repeat by what leads to it at its slope."""
    net = drawn(draw, draw.random() < 0.7)
    on, t = reach(net), draw.randrange(net.size)
    slope = slope_towards(net, t, on)
    if slope is None:
        return None
    parts = [d for own, d in divisors_by_part(net, slope) if any(t in on[c] for c in own)] if slope else []
    lists = [e for i, (_, e, gap) in net.inputs.items() if t in on[i] and Fraction(gap, e) == slope] if slope else []
    by = lcm(*(parts + lists + [1]))
    return repeats(least(net)[t], by, slope) if by <= 120 else None, net


def transfers_repeat_by_parts(draw):
    """The times of walks between two transitions repeat by what lies between, at its rate."""
    net = drawn(draw, False)
    on, i, t = reach(net), draw.randrange(net.size), draw.randrange(net.size)
    if t not in on[i]:
        return None
    rate = max([ratio_of(net, c) for c in circuits(net) if net.places[c[0]][0] in on[i] and t in on[net.places[c[0]][0]]] + [Fraction(0)])
    parts = [d for own, d in divisors_by_part(net, rate) if any(c in on[i] and t in on[c] for c in own)] if rate else []
    by = lcm(*(parts + [1]))
    return repeats(walk_times(net, i)[t], by, rate) if by <= 120 else None, net


def cyclicity_is_by_parts(draw):
    """In a strongly connected net the periods of all transfers have the least common multiple of the parts."""
    net = drawn(draw, False)
    on = reach(net)
    if any(len(row) < net.size for row in on) or not net.places:
        return None
    ratio = max(ratio_of(net, c) for c in circuits(net))
    by = lcm(*(d for _, d in divisors_by_part(net, ratio))) if ratio else 1
    rows = [row for i in range(net.size) for row in walk_times(net, i)]
    own = next(n for n in range(1, 121) if all(repeats(row, n, ratio) for row in rows)) if by <= 120 else by
    return own == by if by <= 120 and ratio else None, net


LAWS = [
    greatest_times_are_places_back, periods_from_the_ratio_are_workable, waits_are_bounded_by_equal_slopes,
    places_hold_within_circuits_and_fill_up, varying_holds_lie_between, changes_are_slower, releases_move_dates,
    given_inputs_meet_in_time, dates_repeat_by_parts, transfers_repeat_by_parts, cyclicity_is_by_parts,
]


def main():
    nets, seed = ([int(word) for word in sys.argv[1:]] + [300, 1][len(sys.argv) - 1:])[:2]
    failed = 0
    for law in LAWS:
        draw, tried, wrong = random.Random(seed), 0, []
        for _ in range(nets):
            holds, net = law(draw) or (None, None)
            tried += holds is not None
            wrong += [net] if holds is False else []
        print(f"{law.__name__}: {tried} tried, {len(wrong)} failed")
        for net in wrong[:3]:
            print(f"  {net}")
        failed += len(wrong)
    sys.exit(1 if failed else 0)


if __name__ == "__main__":
    main()
