"""Inputs within the limits that ask for much work, each with the answer that is due (of two of them the status alone);
hostile_run.py runs them.

What is due is worked out here, by other ways than the program's: in closed form where the net has one, and
otherwise by the definitions (circuits by raising a ratio, slacks by the shortest circuit through a place).
"""
import heapq
import math
from functools import partial

from common import Status
from random_net import random_places

DONE, NET, LATE, TOO_LONG, LOG, CALC = Status.DONE, Status.NET, Status.LATE, Status.TOO_LONG, Status.LOG, Status.CALC
TOO_LONG_TEXT = "too long: no settled form within {}\n"


class Net:
    """Transitions by name, with roles; places of a name, two ends, a holding time and tokens; and input lists."""

    def __init__(self, names, places, inputs=(), outputs=(), lists=""):
        self.names, self.places, self.lists = list(names), list(places), lists
        self.roles = {name: "input" for name in inputs} | {name: "output" for name in outputs}

    def text(self):
        roles = {name: f'role = "{role}"\n' for name, role in self.roles.items()}
        return "".join(f'[[transition]]\nname = "{name}"\n{roles.get(name, "")}' for name in self.names) + "".join(
            f'[[place]]\nname = "{name}"\nfrom = "{start}"\nto = "{end}"\nhold = {hold}\ntokens = {tokens}\n'
            for name, start, end, hold, tokens in self.places) + self.lists


# ---- nets

def input_list(name, dates, every, gap):
    return f'[[input]]\ntransition = "{name}"\ndates = [{",".join(map(str, dates))}]\nevery = {every}\ngap = {gap}\n'


def hidden_gates(count, height, turned=False):
    """Gates whose own places have slowly rising ratios. A place from one of two clocks hides each of them, which strike
    later from round to round of policy iteration: it takes more than `count * height` rounds."""
    gates, steps = [f"g{j}" for j in range(count)], [f"r{t}" for t in range(count + height)]
    clocks, tick = ["c0", "c1"], 1000
    begin, top = (len(steps) + 5) * tick, 4 * (len(steps) + 10) * tick
    base = 100 * top
    places = [("s0", "g0", "g0", base + 1, 1)]
    places += [(f"gb{j}", gate, "b", 0, 0) for j, gate in enumerate(gates)]
    places += [(f"i{t}", "b", step, 0, 0) for t, step in enumerate(steps)]
    places += [("x0", "b", "c0", begin, 0), ("x1", "b", "c1", begin + tick, 0)]
    places += [(f"cg{j}", "c0", gate, 0, 1) for j, gate in enumerate(gates)]
    places += [("x2", "b", "c0", begin + 2 * tick, 0), ("j", "b", "r0", top, 0)]
    places += [(f"ch{t}", steps[t - 1], steps[t], 0, 0) for t in range(1, len(steps))]
    places += [(f"k{t}", steps[t - 1], clocks[t % 2], t * tick, 0) for t in range(1, height + 1)]
    places += [(f"ci{j}", "c1", gate, 0, 1) for j, gate in enumerate(gates)]
    for j, gate in enumerate(gates):
        places += [(f"p{j}_{s}", steps[height + 1 + s], gate, (height + 2 + s) * tick, 1) for s in range(j)]
    places += [(f"s{j}", gate, gate, base + 1 + j, 1) for j, gate in enumerate(gates) if j]
    names = gates + ["b"] + clocks + steps
    return Net(reversed(names) if turned else names, places), (base + count, 1)


def machines(count):
    """A line of machines, with room for three parts between each two."""
    places = [(f"s{k}", f"m{k}", f"m{k}", 3 + k * 7 % 11, 1) for k in range(count)]
    for k in range(count - 1):
        places += [(f"f{k}", f"m{k}", f"m{k + 1}", 2, 0), (f"r{k}", f"m{k + 1}", f"m{k}", 0, 3)]
    return Net([f"m{k}" for k in range(count)], places)


def near_rates(count, room):
    """A line of machines of 3,600 s with room for so many parts, behind an input; the last takes a second more. Its
    dates settle after some 3,600 times the room, which is past what is looked through for an input."""
    names = [f"m{k}" for k in range(count)]
    places = [("feed", "feed", "m0", 0, 0)]
    places += [(f"s{k}", name, name, 3_601 if name == names[-1] else 3_600, 1) for k, name in enumerate(names)]
    for k in range(count - 1):
        places += [(f"f{k}", f"m{k}", f"m{k + 1}", 3_600, 0), (f"r{k}", f"m{k + 1}", f"m{k}", 0, room)]
    return Net(["feed"] + names, places, ["feed"])


def steady_inputs(count, jump, length=100_000):
    """Inputs whose lists are zeros for ever, and one whose dates are 1 behind the jump: a list says nothing before."""
    steady = [f"z{k}" for k in range(count)]
    lists = "".join(input_list(name, [0] * length, 1, 0) for name in steady)
    lists += input_list("u", [0] * jump + [1] * (length - jump), 1, 0)
    return Net(steady + ["u", "a"], [("ua", "u", "a", 0, 0)], steady + ["u"], lists=lists)


def own_places(count, tokens):
    """Transitions that wait for nothing, and behind them one for each number of tokens in its own place, of hold 1."""
    names = [f"c{k}" for k in range(count - len(tokens))] + [f"s{k}" for k in range(len(tokens))]
    return Net(names, [(f"l{k}", f"s{k}", f"s{k}", 1, own) for k, own in enumerate(tokens)])


def overtaken(inputs, lead, count=400, places=4000, later=0):
    """From each input two ways to c: by a, which is slow to begin and does a firing in 10, and by d, in 11. The
    second overtakes the first after `lead` firings. From each input all places are held `later` longer than from the
    one before. The other transitions and places are there to be gone through."""
    inputs = [f"u{k}" for k in range(inputs)]
    rest = [f"x{k}" for k in range(count - len(inputs) - 3)]
    held = [(f"{name}{end}", name, end, later * k, 0) for k, name in enumerate(inputs) for end in "ad"]
    held += [("aa", "a", "a", 10, 1), ("dd", "d", "d", 11, 1), ("ac", "a", "c", lead, 0), ("dc", "d", "c", 0, 0)]
    held += [(f"p{k}", rest[k % len(rest)], rest[(k * 7 + 1) % len(rest)], 0, 1) for k in range(len(held), places)]
    return Net(inputs + ["a", "d", "c"] + rest, held, inputs, ["c"])


def ring(count, tokens, hold):
    return Net([f"t{k}" for k in range(count)],
               [(f"p{k}", f"t{k}", f"t{(k + 1) % count}", hold, tokens) for k in range(count)])


def joined_own_places(tokens):
    """A ring without holding times whose transitions have own places of cycle time 1, of so many tokens."""
    places = []
    for k, own in enumerate(tokens):
        places += [(f"l{k}", f"s{k}", f"s{k}", own, own), (f"n{k}", f"s{k}", f"s{(k + 1) % len(tokens)}", 0, 1000)]
    return Net([f"s{k}" for k in range(len(tokens))], places)


def joined_loops(tokens):
    """Transitions with own places of cycle time 1, of so many tokens, and one behind all of them."""
    places = []
    for k, own in enumerate(tokens):
        places += [(f"l{k}", f"s{k}", f"s{k}", own, own), (f"j{k}", f"s{k}", "j", 0, 0)]
    return Net([f"s{k}" for k in range(len(tokens))] + ["j"], places)


def fed_own_places(tokens):
    """An input before transitions with own places of cycle time 1, of so many tokens."""
    places = []
    for k, own in enumerate(tokens):
        places += [(f"ua{k}", "u", f"a{k}", 0, 0), (f"l{k}", f"a{k}", f"a{k}", own, own)]
    return Net(["u"] + [f"a{k}" for k in range(len(tokens))], places, ["u"])


def long_chain(inputs, ends, apart=0):
    """Inputs before a chain of 18 places of 1,000 tokens, and transitions behind it that take what comes. The hold from
    each input is greater by `apart` than that from the input before."""
    inputs, ends = [f"u{k}" for k in range(inputs)], [f"d{k}" for k in range(ends)]
    places = [(f"{name}c", name, "c0", apart * k, 0) for k, name in enumerate(inputs)]
    places += [(f"cc{k}", f"c{k}", f"c{k + 1}", 0, 1000) for k in range(18)]
    places += [(f"c{name}", "c18", name, 0, 0) for name in ends]
    return Net(inputs + [f"c{k}" for k in range(19)] + ends, places, inputs, ends)


def two_rates(slow, room, ahead):
    """A transition that does a firing in `slow`, and one behind it that takes 1 longer and begins `ahead` later: the
    first waits for the second once that is so far behind that the tokens of a place between them, `room`, are used up."""
    return Net(["a", "b"], [("aa", "a", "a", slow, 1), ("ab", "a", "b", ahead, 0), ("bb", "b", "b", slow + 1, 1), ("ba", "b", "a", 0, room)])


def hub(inputs, ends, tokens):
    """Inputs, each held 1 longer than the one before, whose tokens come to a transition with own places of cycle time 1,
    of so many tokens; and transitions behind it."""
    inputs, ends = [f"u{k}" for k in range(inputs)], [f"d{k}" for k in range(ends)]
    places = [(f"{name}h", name, "h", k, 0) for k, name in enumerate(inputs)]
    places += [(f"o{own}", "h", "h", own, own) for own in tokens] + [(f"h{name}", "h", name, 0, 0) for name in ends]
    return Net(inputs + ["h"] + ends, places, inputs, ends)


def card_lines(cards, machines, back):
    """A line of machines of hold 1 for each number of cards, which come back from the last machine to the first in `back`
    units. A round takes longer than the cards of a line take through its first machine, so a line goes on by its cards."""
    places = []
    for line, own in enumerate(cards):
        names = [f"s{line}_{j}" for j in range(machines)]
        places += [(f"m{name}", name, name, 1, 1) for name in names]
        places += [(f"f{start}", start, end, 1, 0) for start, end in zip(names, names[1:])]
        places.append((f"c{line}", names[-1], names[0], back, own))
    return Net([f"s{line}_{j}" for line in range(len(cards)) for j in range(machines)], places)


def braid(count, last):
    """A ring of `count` places of hold 1, the last with one token, and beside each nine of hold 0; so many tokens are
    in those beside the last one."""
    places = []
    for k in range(count):
        ends, closing = (f"t{k}", f"t{(k + 1) % count}"), k == count - 1
        places += [(f"p{k}", *ends, 1, int(closing))] + [(f"p{k}_{i}", *ends, 0, last * closing) for i in range(9)]
    return Net([f"t{k}" for k in range(count)], places)


def downhill(count, places):
    """Places without tokens, each from a transition to one before it in the file: the order to fire in is the last first."""
    gaps = [gap for gap in range(1, count) for _ in range(count - gap)][:places]
    starts = [start for gap in range(1, count) for start in range(gap, count)][:places]
    return Net([f"t{k}" for k in range(count)],
               [(f"p{k}", f"t{start}", f"t{start - gap}", 1, 0) for k, (start, gap) in enumerate(zip(starts, gaps))])


def drawn():
    """The net that random_net.py draws."""
    return Net([f"m{k}" for k in range(1, 401)], [(f"p{k}", f"m{start}", f"m{end}", hold, tokens)
                                                  for k, (start, end, hold, tokens) in enumerate(random_places(400, 4000, 1), 1)])


# ---- what is due

def raised(net, ratio):
    """For a ratio, the greatest sums of paths to each transition, each place with its time by the ratio's tokens, less its
    tokens by the ratio's time; or a circuit of a greater ratio, if there is one."""
    time, tokens = ratio
    sums, last = dict.fromkeys(net.names, 0), {}
    for _ in range(len(net.names) + 1):
        changed = False
        for place in net.places:
            _, start, end, hold, own = place
            if (most := sums[start] + tokens * hold - time * own) > sums[end]:
                sums[end], last[end], changed = most, place, True
        if not changed:
            return sums, None
        for name in net.names:
            seen = {}
            while name in last and name not in seen:
                seen[name] = last[name]
                name = last[name][1]
            if name in seen:
                circuit = [seen[name]]
                while circuit[-1][1] != name:
                    circuit.append(seen[circuit[-1][1]])
                return None, circuit
    raise AssertionError("sums rise past every path, and no circuit is met")


def greatest_ratio(net):
    """The greatest ratio of time to tokens of a circuit, in lowest terms: it is raised from circuit to circuit."""
    time, tokens = 0, 1
    while circuit := raised(net, (time, tokens))[1]:
        time, tokens = sum(place[3] for place in circuit), sum(place[4] for place in circuit)
        divisor = math.gcd(time, tokens)
        time, tokens = time // divisor, tokens // divisor
    return time, tokens


def cycle_text(net, ratio, circuit, first):
    """The text of `cycle` for a net of one part, by its greatest ratio, the circuit that is due, and where this begins."""
    assert raised(net, ratio)[1] is None, "a circuit has a greater ratio"
    time, tokens = ratio
    sums, changed = {first: 0}, True
    while changed:
        changed = False
        for _, start, end, hold, own in net.places:
            if start in sums and (end not in sums or sums[start] + tokens * hold - time * own > sums[end]):
                sums[end], changed = sums[start] + tokens * hold - time * own, True
    head = f"{time}/{tokens}\ncircuit {' '.join(circuit)}\n"
    return f"cycle time {head}part 1 ratio {head}" + "".join(f"potential {name} {sums[name]}\n" for name in net.names)


def slack_text(net):
    """The text of `slack`: a place may rise by what the least circuit through it loses against the greatest ratio."""
    time, tokens = greatest_ratio(net)
    sums, _ = raised(net, (time, tokens))
    losses = [sums[end] - sums[start] - tokens * hold + time * own for _, start, end, hold, own in net.places]
    leave = {name: [] for name in net.names}
    for (_, start, end, _, _), loss in zip(net.places, losses):
        leave[start].append((end, loss))
    least = {name: least_losses(leave, name) for name in net.names}
    lines = [f"cycle time {time}/{tokens}\n"]
    for (name, start, end, _, _), loss in zip(net.places, losses):
        back = least[end].get(start)
        told = "no circuit" if back is None else "critical" if loss + back == 0 else f"slack {(loss + back) // tokens}"
        lines.append(f"place {name} {told}\n")
    return "".join(lines)


def least_losses(leave, first):
    """The least losses of paths from a transition, nearest first."""
    found, waiting = {}, [(0, first)]
    while waiting:
        loss, name = heapq.heappop(waiting)
        if name not in found:
            found[name] = loss
            for end, more in leave[name]:
                if end not in found:
                    heapq.heappush(waiting, (loss + more, end))
    return found


def row(values):
    return " ".join(map(str, values))


def overtaken_text(net, lead):
    """The text of `dates` for a net in which c is overtaken."""
    numbers = range(lead + 1)
    lines = {"a": f"{row(10 * k for k in numbers)} step 10\n", "d": f"{row(11 * k for k in numbers)} step 11\n",
             "c": f"{row(max(10 * k + lead, 11 * k) for k in numbers)} step 11\n"}
    others = f"{row(0 for _ in numbers)} step 0\n"
    return f"settled after {lead} period 1\n" + "".join(
        f"transition {name} {lines.get(name, others)}" for name in net.names)


def overtaken_times(inputs, lead, later):
    """The text of `transfer` for the same: from each input alike, but so much later than from the one before."""
    times = [max(10 * k + lead, 11 * k) for k in range(lead + 1)]
    return f"transfer of {inputs} inputs to 1 outputs\n" + "".join(
        f"from u{k} settled after {lead} period 1\nto c {row(time + later * k for time in times)} step 11\n"
        for k in range(inputs))


def bound_text(net, time, tokens, after, period):
    """The text of `bound` for a net of this greatest ratio that settles so."""
    count, hold, most = len(net.names), max(place[3] for place in net.places), max([1] + [place[4] for place in net.places])
    ways, all_ways = (count - 1) * most, count * most
    number = ways + all_ways * (tokens * (count - 1) * hold + time * (ways + all_ways)) + 1
    return f"bound {number}\nsettled after {after} period {period}\n"


def late_overtaken(inputs, lead, later, due):
    """`forever` where c is due 12 apart from `due` on: the way through a, which is slow to begin, tells each date."""
    return (f"forever: {inputs} inputs overtaken after {lead:,}, each {later} later", ["forever", "net", "rows"],
            {"net": overtaken(inputs, lead, later=later).text(), "rows": f"c,1,12,{due}\n"}, DONE,
            "latest inputs forever\n" + "".join(f"input u{k} {due - lead - later * k} period 1 step 12\n" for k in range(inputs)))


def hub_rows(ends, dates=10_000):
    """Due rows behind a hub, 1 apart and each a date later than the row before it; the last date is 7 later still."""
    return "".join(f"d{j},1,1,{','.join(str(20_000 + j + k + 7 * (k == dates - 1)) for k in range(dates))}\n" for j in range(ends))


def hub_inputs(inputs, ends):
    """`forever` behind a hub: each firing is due by itself in the first row, as no walk takes longer than its tokens are later."""
    dates = [20_000 + k + 7 * (k == 9_999) for k in range(10_000)]
    return (f"forever: {inputs} inputs and {ends} rows of 10,000 dates behind a hub of period 19,043", ["forever", "net", "rows"],
            {"net": hub(inputs, ends, (137, 139)).text(), "rows": hub_rows(ends)}, DONE,
            partial(hub_text, inputs, dates))


def hub_text(inputs, dates):
    return "latest inputs forever\n" + "".join(f"input u{k} {row(date - k for date in dates)} period 1 step 1\n" for k in range(inputs))


def steady_text(net, jump):
    """The text of `dates` for inputs of which one jumps, and a follows it."""
    zeros, jumping = row([0] * (jump + 1)), row([0] * jump + [1])
    dates = {name: jumping if name in ("u", "a") else zeros for name in net.names}
    return f"settled after {jump} period 1\n" + "".join(f"transition {name} {dates[name]} step 0\n" for name in net.names)


def own_places_text(net, tokens):
    """The text of `dates` for own places of two numbers of tokens without a common divisor."""
    period = tokens[0] * tokens[1]
    lines = [f"settled after 0 period {period}\n"]
    for name in net.names:
        own = tokens[int(name[1:])] if name[0] == "s" else period
        lines.append(f"transition {name} {row(k // own for k in range(period))} step {period // own if name[0] == 's' else 0}\n")
    return "".join(lines)


def card_date(own, machines, back, machine, number):
    """A date of a line of `card_lines`: so many cards a round, 1 apart, and each machine 1 behind the one before."""
    rounds, card = divmod(number - 1, own)
    return rounds * (machines - 1 + back) + card + machine


def card_lines_text(cards, machines, back):
    """The text of `dates` for such lines: they go on by a number that all numbers of cards divide."""
    period = math.lcm(*cards)
    lines = [f"settled after 0 period {period}\n"]
    for line, own in enumerate(cards):
        for j in range(machines):
            dates = row(card_date(own, machines, back, j, k) for k in range(1, period + 1))
            lines.append(f"transition s{line}_{j} {dates} step {period // own * (machines - 1 + back)}\n")
    return "".join(lines)


def plan_text(count, numbers):
    """The text of `jit` for a line of machines whose last one is due 1,000 apart: each other one waits for the next."""
    last, date = count - 1, 10**10
    lines = [f"latest inputs for {numbers} firings\n"]
    for k in range(count):
        ahead, by = 2 * (last - k), f"by f{k}" if k < last else "due"
        lines += [f"latest m{k} {number} {date + 1000 * number - ahead} {by}\n" for number in range(1, numbers + 1)]
    return "".join(lines)


def late_ring_text(count):
    """The text of `timetable` for a ring of places of 1,000 tokens: a delay of 50 goes round and round."""
    names, period = [f"p{k}" for k in range(count)], 1000 * count
    lines = [f"settled after 50 period {period}\nkept\ncircuit {' '.join(names)}\n"]
    falling = list(range(50, 0, -1))
    for k in range(count):
        begun = [0] * (1000 * k) + falling
        left = (begun + [0] * (period - len(begun)) + (falling if k == 0 else [0] * 50))
        lines.append(f"delays t{k} {row(left)}\n")
    return "".join(lines)


# ---- series

def stepped(stars, k):
    """At shift k, the greatest of series that each rise by a step every so many shifts."""
    return max(k // every * step for every, step in stars)


def sum_of(stars, ahead=0):
    """The expression of the greatest of them, which is so much ahead."""
    return "(" + "+".join(f"g0d{ahead}.star(g{every}d{step})" for every, step in stars) + ")"


def series(values, period=1, step=0):
    return f"series {row(values)} period {period} step {step}\n"


def repeated(expression, most=4096):
    """An expression added to itself as often as an expression may be long: the same series."""
    return "+".join([expression] * ((most + 1) // (len(expression) + 1)))


SLOW, FAST = [(139, 139), (137, 137)], [(140, 280), (131, 262)]
LESS, MORE = [(130, 70), (117, 63), (91, 49)], [(132, 72), (121, 66), (77, 42)]
SLOW_SERIES = series([stepped(SLOW, k) for k in range(19043)], 19043, 19043)
FAST_SERIES = series([stepped(FAST, k) for k in range(18340)], 18340, 36680)
LESS_SERIES = series([stepped(LESS, k) for k in range(8190)], 8190, 4410)
MORE_SERIES = series([200 + stepped(MORE, k) for k in range(10164)], 10164, 5544)
DENSE = {
    "residual": ("left(star(g1d1)+g19000d19500,star(g1d1)+g19000d19500)", series([0] * 501, 1, 1)),
    "residual of lists that are flat but for a jump": ("left(e+g19041d1,e+g19041d1)", series([0])),
    "product": ("g9999d0.g9999d0", series(["epsilon"] * 19998 + [0])),
    "star": ("star(star(g1d1)+g19900d0.never)", series([*range(19900), "never"])),
}


def series_cases():
    """Series of long periods and long lists. In a sum or a minimum one of the two is the greater at every shift; where
    the one of the lesser slope leads at first, the need is past their common period, and the sum is refused."""
    slow, fast, less, more = sum_of(SLOW), sum_of(FAST), sum_of(LESS), sum_of(MORE, 200)
    table = [
        ("a sum of long periods", f"{slow}+{fast}", DONE, FAST_SERIES),
        ("sums of long periods", repeated(f"{slow}+{fast}"), DONE, FAST_SERIES),
        ("a sum of long periods that is refused", f"{sum_of(SLOW, 200)}+{fast}", CALC, f"refused: series needs {19043 * 18340 + 18340}\n"),
        ("a minimum of long periods", f"min({slow},{fast})", DONE, SLOW_SERIES),
        ("minima of long periods", repeated(f"min({slow},{fast})"), DONE, SLOW_SERIES),
        ("a sum of slopes that nearly agree", f"{less}+{more}", DONE, MORE_SERIES),
        ("sums of slopes that nearly agree", repeated(f"{less}+{more}"), DONE, MORE_SERIES),
        ("a sum of slopes that nearly agree, refused", f"{sum_of(LESS, 200)}+{sum_of(MORE)}", CALC, f"refused: series needs {1981980 + 10164}\n"),
        ("a minimum of slopes that nearly agree", f"min({less},{more})", DONE, LESS_SERIES),
        ("a residual of lists that are Early", "left(g19999d0,g19999d0)", DONE, series([0])),
        ("residuals of lists that are Early", repeated("left(g19999d0,g19999d0)"), DONE, series([0])),
    ]
    table += [(f"a {kind}", words, DONE, text) for kind, (words, text) in DENSE.items()]
    for label, words, status, text in table:
        yield f"calc: {label}", ["calc", words], {}, status, text


def dear_series():
    for kind, (words, text) in DENSE.items():
        yield f"calc: a {kind}, as often as an expression has room for it", ["calc", repeated(words)], {}, DONE, text


# ---- nets and files of rows

def cycle_cases():
    """Cycle times, slacks, tokens and what else looks at circuits alone."""
    for turned in False, True:
        net, ratio = hidden_gates(70, 250, turned)
        label = ", turned" if turned else ""
        yield f"cycle: many rounds{label}", ["cycle", "net"], {"net": net.text()}, DONE, partial(cycle_text, net, ratio, ["s69"], "g69")
        yield f"slack: many rounds{label}", ["slack", "net"], {"net": net.text()}, DONE, partial(slack_text, net)
    line = machines(400)
    yield "slack: 400 machines", ["slack", "net"], {"net": line.text()}, DONE, partial(slack_text, line)
    random = drawn()
    yield "slack: a random net", ["slack", "net"], {"net": random.text()}, DONE, partial(slack_text, random)
    wide = braid(400, 1000)
    round_trip = f"circuit {' '.join(f'p{k}' for k in range(400))}\n"
    yield "size: a wide ring", ["size", "net", "p399", "1/1"], {"net": wide.text()}, DONE, f"size p399 1/1 extra 399\n{round_trip}"
    yield "check: a wide ring", ["check", "net"], {"net": wide.text()}, DONE, "live\ntransitions 400\nplaces 4000\n"
    yield "check: the last first", ["check", "net"], {"net": downhill(400, 4000).text()}, DONE, "live\ntransitions 400\nplaces 4000\n"
    closed = downhill(400, 3999)
    closed.places.append(("back", "t0", "t399", 0, 0))
    # (a circuit without tokens leaves t0 by the place that closes it; which one goes on from t399 is free)
    yield "check: the last first, closed", ["check", "net"], {"net": closed.text()}, NET, None


def settled_cases():
    """Settled forms."""
    for count, limit in (1, 20_000), (19, 500), (19, 20_000):
        words = ["dates", "net"] + (["--limit", str(limit)] if limit != 20_000 else [])
        yield (f"dates: {count + 1} input lists of 100,000 dates, limit {limit}", words,
               {"net": steady_inputs(count, 39_000).text()}, TOO_LONG, TOO_LONG_TEXT.format(limit))
    steady = steady_inputs(19, 39_000)
    yield ("dates: 20 input lists of 100,000 dates, limit 40000", ["dates", "net", "--limit", "40000"],
           {"net": steady.text()}, DONE, partial(steady_text, steady, 39_000))
    long, short = own_places(400, [1000, 999]), own_places(400, [97, 89])
    yield "dates: own places of 1,000 and 999 tokens", ["dates", "net"], {"net": long.text()}, TOO_LONG, TOO_LONG_TEXT.format(20_000)
    yield ("dates: own places of 1,000 and 999 tokens, limit 200000", ["dates", "net", "--limit", "200000"],
           {"net": own_places(40, [1000, 999]).text()}, TOO_LONG, TOO_LONG_TEXT.format(200_000))
    yield "dates: own places of 97 and 89 tokens", ["dates", "net"], {"net": short.text()}, DONE, partial(own_places_text, short, [97, 89])
    yield ("date: own places of 97 and 89 tokens", ["date", "net", "s1", str(10**18)], {"net": short.text()}, DONE,
           f"date s1 {10**18} {(10**18 - 1) // 89}\n")
    yield from card_cases()
    yield from near_cases()
    late = overtaken(0, 19_990)
    yield "dates: overtaken after 19,990", ["dates", "net"], {"net": late.text()}, DONE, partial(overtaken_text, late, 19_990)
    yield "date: overtaken after 19,990", ["date", "net", "c", "1000000"], {"net": late.text()}, DONE, "date c 1000000 10999989\n"
    yield ("date: overtaken after 199,000", ["date", "net", "c", "1000000", "--limit", "200000"],
           {"net": overtaken(0, 199_000, 40, 200).text()}, DONE, "date c 1000000 10999989\n")
    much_later = {"net": overtaken(0, 1_000_000).text()}
    for words in ["dates", "net"], ["date", "net", "c", "5"]:
        yield f"{words[0]}: overtaken after 1,000,000, limit 200000", [*words, "--limit", "200000"], much_later, TOO_LONG, TOO_LONG_TEXT.format(200_000)
    yield overtaken_inputs(20, 990)
    yield overtaken_inputs(200, 990)
    yield overtaken_inputs(200, 990, 7)
    for tokens, bound in ([101, 103], 6_207_001), ([991, 997], 7_995_001):
        yield (f"bound: own places of {tokens[0]} and {tokens[1]} tokens", ["bound", "net"], {"net": joined_own_places(tokens).text()},
               DONE, f"bound {bound}\nsettled after 0 period {tokens[0] * tokens[1]}\n")
    for tokens in [5, 7, 8, 9, 11, 13], [101, 103, 107], [500, 499, 491], [997, 991, 983, 977]:
        several = joined_own_places(tokens)
        yield (f"bound: {len(tokens)} own places of {min(tokens)} to {max(tokens)} tokens", ["bound", "net"], {"net": several.text()},
               DONE, bound_text(several, 1, 1, 0, math.lcm(*tokens)))
    for slow in 3_600, 999_999_999:
        room, ahead = 1_000, 5
        late = two_rates(slow, room, ahead)
        after = (slow + 1) * room - ahead
        yield f"bound: settled after {after:,}", ["bound", "net"], {"net": late.text()}, DONE, bound_text(late, slow + 1, 1, after, 1)


def card_cases():
    """Lines of a few cards each, without a common divisor: many periods hold for some of the lines, and few for all."""
    few, more, most = (5, 7, 8, 9), (5, 7, 8, 9, 11), (5, 7, 8, 9, 11, 13)
    back, far = 90, 10**9
    yield ("dates: 4 lines of 5 to 9 cards", ["dates", "net"], {"net": card_lines(few, 10, back).text()}, DONE,
           partial(card_lines_text, few, 10, back))
    yield "dates: 6 lines of 5 to 13 cards", ["dates", "net"], {"net": card_lines(most, 60, back).text()}, TOO_LONG, TOO_LONG_TEXT.format(20_000)
    yield ("dates: 6 lines of 5 to 13 cards, limit 200000", ["dates", "net", "--limit", "200000"],
           {"net": card_lines(most, 10, back).text()}, TOO_LONG, TOO_LONG_TEXT.format(200_000))
    for cards, machines in (more, 10), (most, 1), (most, 10), ((7, 9, 11, 13, 16, 17), 10):
        yield (f"date: {len(cards)} lines of {cards[0]} to {cards[-1]} cards, {machines} machines each, without a limit", ["date", "net", "s0_0", str(far), "--limit", "none"],
               {"net": card_lines(cards, machines, back).text()}, DONE, f"date s0_0 {far} {card_date(cards[0], machines, back, 0, far)}\n")
    joined = joined_loops(more)
    yield (f"date: behind {len(more)} loops of 5 to {more[-1]} cards, without a limit", ["date", "net", "j", str(far), "--limit", "none"],
           {"net": joined.text()}, DONE, f"date j {far} {max((far - 1) // own * own for own in more)}\n")


def near_cases():
    """One date of a line of machines of 3,600 s of which the last takes a second more: it is never without parts, so its
    dates are 3,601 s apart. The first machine waits for it once the room between all of them is used up: each room is
    as many parts, and a part that is taken there makes the machine before free at once."""
    for count, room, number in (100, 80, 10**6), (20, 1_000, 10**9), (399, 10, 10**12):
        last = 3_600 * (count - 1) + 3_601 * (number - 1)
        net = near_rates(count, room).text()
        yield (f"date: number {number:,} of {count} machines whose rates nearly agree, room for {room:,} parts",
               ["date", "net", f"m{count - 1}", str(number), "--limit", "none"], {"net": net}, DONE, f"date m{count - 1} {number} {last}\n")
        first = max(3_600 * (number - 1), last - 3_601 * room * (count - 1))
        yield (f"date: number {number:,} of the first of {count} machines, room for {room:,} parts",
               ["date", "net", "m0", str(number), "--limit", "none"], {"net": net}, DONE, f"date m0 {number} {first}\n")
    slow, room, number = 999_999_999, 1_000, 10**12
    yield (f"date: number {number:,} of two transitions overtaken after 999,000,000,000", ["date", "net", "a", str(number), "--limit", "none"],
           {"net": two_rates(slow, room, 10**9).text()}, DONE, f"date a {number} {10**9 + (number - room - 1) * (slow + 1)}\n")


def late_ring(count, limited=True):
    """A delay on a ring of places of 1,000 tokens."""
    files = {"net": ring(count, 1000, 1000).text(), "rows": "".join(f"t{k},0\n" for k in range(count)) + "t0,1,50\n"}
    words, label = ["timetable", "net", "1", "rows"], f"timetable: a ring of {count} places of 1,000 tokens"
    if limited:
        return label, words, files, TOO_LONG, TOO_LONG_TEXT.format(20_000)
    return f"{label}, without a limit", words + ["--limit", "none"], files, DONE, partial(late_ring_text, count)


def chain_rows(ends, first=0):
    """Due rows of 10,000 dates: 9,000 times the first, and then 9 more in each 1,000."""
    dates = ",".join(map(str, [first] * 9000 + [first + j * 9 // 999 for j in range(1000)]))
    return "".join(f"d{k},1000,9,{dates}\n" for k in range(ends))


def chain_text(inputs, first=0, apart=0):
    """What is due at the end of the chain is due 18,000 numbers on: an input has its dates from number 18,001 on, less
    the hold from it."""
    dates = [first + 9 * (k // 1000) + k % 1000 * 9 // 999 for k in range(9000, 10_000)]
    return "latest inputs forever\n" + "".join(
        f"input u{k} {row(date - apart * k for date in dates)} period 1000 step 9\n" for k in range(inputs))


def rows_cases():
    """Files of rows."""
    yield late_ring(50)
    yield late_ring(200)
    yield late_ring(50, limited=False)
    line, due = machines(400), "".join(f"m399,{k},{10**10 + 1000 * k}\n" for k in range(1, 10_001))
    yield "jit: 400 machines", ["jit", "net", "rows"], {"net": line.text(), "rows": due}, DONE, partial(plan_text, 400, 10_000)
    yield ("jit: a random net", ["jit", "net", "rows"],
           {"net": drawn().text(), "rows": "".join(f"m400,{k},{10**10 + 100_000 * k}\n" for k in range(1, 10_001))}, DONE, None)
    loops = fed_own_places([997, 991]).text()
    for label, every, gap, dates, status, text in [
        ("that settles late", 999, 999, range(1000), TOO_LONG, "too long: input u\n"),
        ("a row that is late", 999, 998, range(999), LATE, "late a0 1995 due 1993 least 1994\n"),
        ("a row that is late at last", 1000, 999, range(10**6, 10**6 + 1000), LATE,
         "late a0 1000001968 due 1000001966 least 1000001967\n"),
    ]:
        yield (f"forever: own places of 997 and 991 tokens, {label}", ["forever", "net", "rows"],
               {"net": loops, "rows": f"a0,{every},{gap},{','.join(map(str, dates))}\n"}, status, text)
    for room in (10, 1_000):
        yield (f"forever: rates that nearly agree, room for {room:,} parts", ["forever", "net", "rows"],
               {"net": near_rates(20, room).text(), "rows": "m19,1,3601,10000000\n"}, TOO_LONG, "too long: input feed\n")
    yield ("forever: no rows, own places of 997 and 991 tokens", ["forever", "net", "rows"],
           {"net": own_places(400, (997, 991)).text(), "rows": ""}, DONE, "latest inputs forever\n")
    yield ("forever: an input and 10 rows of 10,000 dates behind a long chain", ["forever", "net", "rows"],
           {"net": long_chain(1, 10).text(), "rows": chain_rows(10)}, DONE, partial(chain_text, 1))
    yield ("forever: 100 inputs with equal places and 209 rows of 10,000 dates behind a long chain", ["forever", "net", "rows"],
           {"net": long_chain(100, 209).text(), "rows": chain_rows(209)}, DONE, partial(chain_text, 100))
    yield late_overtaken(25, 9_900, 7, 20_000)
    yield late_overtaken(380, 9_900, 7, 20_000)
    yield hub_inputs(10, 10)
    yield hub_inputs(20, 20)
    yield crossing_rows(50)
    yield crossing_rows(100, more=1)
    yield paired_rows(20)
    yield paired_lists(20)
    yield ("forever: 100 rows that go on after 30 firings, rates that nearly agree, room for 50 parts", ["forever", "net", "rows"],
           {"net": near_rates(100, 50).text(), "rows": steady_rows(100, 30)}, TOO_LONG, "too long: input feed\n")
    yield wide_replay(1_048_576, 1)
    yield longer_held_replay(100_000)


def crossing_rows(ends, every=998, unit=1_000, more=0):
    """Rows behind a hub of two own places of even numbers of tokens: firing k + 1 comes at k times the unit at most, and
    one unit earlier where k is odd, as it is due. The due dates of all numbers lie in part under the dates of some, but
    those of even numbers over the dates of even ones, and so do those of odd ones, which is all that meet. So they
    do where the due dates rise by `more` more in each turn."""
    names = ["s0", "s1", "h"] + [f"d{k}" for k in range(ends)]
    places = [(f"l{k}", f"s{k}", f"s{k}", own * unit, own) for k, own in enumerate((178, 202))]
    places += [(f"m{k}", f"s{k}", "h", 0, 0) for k in range(2)] + [(f"d{k}", "h", f"d{k}", 0, 0) for k in range(ends)]
    dates = ",".join(str(unit * (k - k % 2)) for k in range(every))
    later = f" and rise by {more} more" if more else ""
    return (f"forever: {ends} rows that share a divisor with a period of 17,978{later}, none late", ["forever", "net", "rows"],
            {"net": Net(names, places).text(), "rows": "".join(f"d{k},{every},{every * unit + more},{dates}\n" for k in range(ends))},
            DONE, "latest inputs forever\n")


def paired_net(count, lead):
    """Walk times of its own for each pair of an input and a row, of two ways: one begins slowly, the other gains on it."""
    inputs, ends = [f"u{k}" for k in range(count)], [f"c{k}" for k in range(count)]
    places = [("aa", "a", "a", 10, 1), ("dd", "d", "d", 11, 1)]
    for k in range(count):
        places += [(f"ua{k}", f"u{k}", "a", 0, 0), (f"ud{k}", f"u{k}", "d", k * count, 0)]
        places += [(f"ac{k}", "a", f"c{k}", lead, 0), (f"dc{k}", "d", f"c{k}", k, 0)]
    return Net(inputs + ["a", "d"] + ends, places, inputs).text()


def paired_rows(count, lead=19_000, due=10**9):
    """`forever` with such pairs. Each row is due as fast as the faster way, so the longer of the two ways to it at the start
    tells each date."""
    dates = [due - max(lead, k * count + count - 1) for k in range(count)]
    return (f"forever: {count} inputs and {count} rows, each pair with walk times of its own", ["forever", "net", "rows"],
            {"net": paired_net(count, lead), "rows": "".join(f"c{k},1,11,{due}\n" for k in range(count))},
            DONE, "latest inputs forever\n" + "".join(f"input u{k} {date} period 1 step 11\n" for k, date in enumerate(dates)))


def two_ways(inputs, lead=9_900):
    """Inputs with two ways each, the second held longer from each to the next, before 4,000 places that no date waits for."""
    names, rest = [f"u{k}" for k in range(inputs)], [f"x{k}" for k in range(396 - inputs)]
    places = [(f"ua{k}", name, "a", 0, 0) for k, name in enumerate(names)] + [(f"ud{k}", name, "d", k, 0) for k, name in enumerate(names)]
    places += [("aa", "a", "a", 10, 1), ("dd", "d", "d", 11, 1), ("ac", "a", "c", lead, 0), ("dc", "d", "c", 0, 0), ("cy", "c", "y", 0, 0)]
    places += [(f"r{k}", end, start, 0, 0) for k, (end, start) in enumerate(zip(["c"] + rest, rest))]
    pairs = ((start, end) for step in range(1, len(rest)) for start, end in zip(rest, rest[step:]))
    places += [(f"q{k}", start, end, 0, 1) for k, (start, end) in zip(range(4_000 - len(places)), pairs)]
    return Net(names + ["y", "a", "d", "c"] + rest, places, names, ["y"])


def two_way_cases(inputs, lead=9_900, due=10**6):
    """`transfer` and `forever` of these: the first way begins slowly and the second gains on it by 1 a number, as due dates do."""
    net = two_ways(inputs, lead).text()
    yield (f"forever: {inputs} inputs with two ways each before 4,000 places", ["forever", "net", "rows"], {"net": net, "rows": f"y,1,11,{due}\n"},
           DONE, "latest inputs forever\n" + "".join(f"input u{k} {due - max(lead, k)} period 1 step 11\n" for k in range(inputs)))
    yield (f"transfer: {inputs} inputs with two ways each before 4,000 places", ["transfer", "net"], {"net": net}, DONE,
           partial(two_way_times, inputs, lead))


def two_way_times(inputs, lead):
    return f"transfer of {inputs} inputs to 1 outputs\n" + "".join(
        f"from u{k} settled after {lead - k} period 1\nto y {row(max(10 * j + lead, 11 * j + k) for j in range(lead - k + 1))} step 11\n"
        for k in range(inputs))


def paired_lists(count, lead=12_000, due=10**6, dates=5_000):
    """`forever` with such pairs and rows of many dates, each seventh one later than 11 for each firing. From one firing to
    each later one the due dates rise by 10 or more for each, as the slow way does, and the other way is shorter at first
    by more than it ever gains on them: so each firing is due by itself, less the slow way at the start."""
    listed = [due + 11 * k + (k % 7 == 0) for k in range(dates)]
    told = row(date - lead for date in listed)
    return (f"forever: {count} inputs and {count} rows of {dates:,} dates, each pair with walk times of its own", ["forever", "net", "rows"],
            {"net": paired_net(count, lead), "rows": "".join(f"c{k},1,11,{','.join(map(str, listed))}\n" for k in range(count))},
            DONE, "latest inputs forever\n" + "".join(f"input u{k} {told} period 1 step 11\n" for k in range(count)))


def steady_rows(count, every, gap=3_601, first=10**8):
    """A row for each machine, due so far apart."""
    dates = ",".join(str(first + gap * k) for k in range(every))
    return "".join(f"m{k},{every},{gap * every},{dates}\n" for k in range(count))


def wide_replay(firings, most):
    """A log of one transition with 4,000 places to itself, of 1 token up to so many: each firing asks one place of each
    number of tokens, and the first 1,000 ask all."""
    own = [1 + k % most for k in range(4000)]
    net = Net(["a"], [(f"p{k}", "a", "a", 0, tokens) for k, tokens in enumerate(own)])
    return (f"replay: {firings:,} firings of a transition with 4,000 places of up to {most:,} tokens", ["replay", "net", "rows"],
            {"net": net.text(), "rows": "a,0\n" * firings}, DONE,
            f"replayed {firings} firings\nfirings {firings}\nhigh water {sum(own)}\ngreatest lateness 0\n")


def longer_held_replay(firings):
    """A log of one transition with places to itself, some held longer than others of as many tokens. A firing every 10
    units is in time, the second and the third 4 units late; the last comes before the tokens of the two last places,
    and the first of these is told."""
    held = [(k % 3 + 1, k % 7) for k in range(1_500)] + [(3, 29), (3, 30)]
    net = Net(["a"], [(f"p{k}", "a", "a", hold, tokens) for k, (tokens, hold) in enumerate(held)])
    dates = [10 * k for k in range(firings)]
    dates[-1] -= 2
    return (f"replay: {firings:,} firings of a transition with places held longer than others, the last too early",
            ["replay", "net", "rows"], {"net": net.text(), "rows": "".join(f"a,{date}\n" for date in dates)}, LOG,
            f"refused: log row {firings} illegal place p1500\nfirings {firings - 1}\n"
            f"high water {sum(own for own, _ in held)}\ngreatest lateness 4\n")


def overtaken_inputs(inputs, lead, later=0):
    """Times of walks from inputs, which settle late."""
    return (f"transfer: {inputs} inputs overtaken after {lead:,}, each {later} later", ["transfer", "net"],
            {"net": overtaken(inputs, lead, later=later).text()}, DONE, partial(overtaken_times, inputs, lead, later))


def answered_cases():
    """What is answered in time."""
    yield from cycle_cases()
    yield from settled_cases()
    yield from rows_cases()
    yield from series_cases()


def dear_cases():
    """What may take longer."""
    yield overtaken_inputs(20, 9_900)
    yield overtaken_inputs(200, 9_900)
    yield from two_way_cases(50)
    yield from dear_series()
    yield ("forever: 100 inputs with other holds each and 135 rows of 10,000 dates behind a long chain", ["forever", "net", "rows"],
           {"net": long_chain(100, 135, 1).text(), "rows": chain_rows(135, 99)}, DONE, partial(chain_text, 100, 99, 1))
    yield hub_inputs(329, 68)
    yield wide_replay(1_048_576, 1_000)
