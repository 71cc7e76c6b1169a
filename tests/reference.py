#!/usr/bin/env python3
"""An independent judge of job files, to hold the program against.

It is written from docs/FORMATS.md and docs/MODEL.md alone, over plain sets, and shares no code with the library.

  tests/reference.py answer    job files in hexadecimal, one a line, on standard input; their reports, each with an empty line after it
  tests/reference.py damage    damaged copies of a job file, in hexadecimal: cut at every byte, too long, and wrong at every byte
  tests/reference.py lines     job files of the models in `line_jobs`, in hexadecimal
"""
import sys

SHUTTLE = bytes.fromhex(
    "0200"
    "4d04020303"
    "0100000000000000"
    "0200000000000000"
    "00000202"
    "0001000102000300"
    "030000000100"
)
READ_AT_MOST = 4096
TABLES_AT_MOST = 100_000_000


class Fault(Exception):
    pass


def read_sheet(b):
    """The model that a sheet lays down, or a Fault with the words after `refused`."""
    if len(b) < 21:
        raise Fault(f"1 layer 2 byte {len(b)}")
    if b[0] != 77:
        raise Fault("2 layer 2 byte 0")
    states, actions, observations, records = b[1:5]
    for at, (count, most) in enumerate([(states, 64), (actions, 8), (observations, 16)], 1):
        if not 1 <= count <= most:
            raise Fault(f"3 layer 2 byte {at}")
    heads = 21 + states
    first = heads + states * actions
    if len(b) != first + 2 * records:
        raise Fault(f"1 layer 2 byte {len(b)}")
    initial, goal = ({t for t in range(64) if b[at + t // 8] >> t % 8 & 1} for at in (5, 13))
    if not initial or max(initial) >= states:
        raise Fault("4 layer 2 byte 5")
    if goal and max(goal) >= states:
        raise Fault("4 layer 2 byte 13")
    for s in range(states):
        if b[21 + s] >= observations:
            raise Fault(f"5 layer 2 byte {21 + s}")
    outcomes = {}
    for s in range(states):
        for a in range(actions):
            here = f"state {s} action {a}"
            at = heads + s * actions + a
            index = b[at]
            if index > records:
                raise Fault(f"6 layer 1 byte {at} {here}")
            targets = []
            while index:
                at = first + 2 * (index - 1)
                target, following = b[at], b[at + 1]
                if target >= states:
                    raise Fault(f"8 layer 1 byte {at} {here}")
                if target in targets:
                    raise Fault(f"9 layer 1 byte {at} {here}")
                if following > records:
                    raise Fault(f"6 layer 1 byte {at + 1} {here}")
                if following and following <= index:
                    raise Fault(f"7 layer 1 byte {at + 1} {here}")
                targets.append(target)
                index = following
            outcomes[s, a] = set(targets)
    return actions, observations, initial, goal, list(b[21 : 21 + states]), outcomes


def draw(model, table):
    """The kind of each reached configuration: a word, or the set of configurations that a move leads to."""
    _, _, initial, goal, sights, outcomes = model
    kinds = {}
    work = [(0, s) for s in initial]
    while work:
        m, s = work.pop()
        if (m, s) in kinds:
            continue
        entry = table.get((m, sights[s]))
        if entry is None:
            kinds[m, s] = "open"
        elif entry == "stop":
            kinds[m, s] = "in goal" if s in goal else "off goal"
        else:
            action, following = entry
            led = {(following, t) for t in outcomes[s, action]}
            kinds[m, s] = led or "stuck"
            work.extend(led)
    return kinds


def rejected(kinds, rule):
    if any(k in ("stuck", "off goal") for k in kinds.values()):
        return True
    settled = {c for c, k in kinds.items() if isinstance(k, str)}
    enough = (all, any)[rule]
    while True:
        more = {c for c, k in kinds.items() if c not in settled and enough(d in settled for d in k)}
        if not more:
            return len(settled) < len(kinds)
        settled |= more


def worst(kinds, initial):
    """The most moves of a full run, or None where a run can go round."""
    most = {c: 0 for c, k in kinds.items() if isinstance(k, str)}
    while len(most) < len(kinds):
        more = {c: 1 + max(most[d] for d in k) for c, k in kinds.items() if c not in most and all(d in most for d in k)}
        if not more:
            return None
        most.update(more)
    return max(most[0, s] for s in initial)


def fills(actions, bound):
    """What an entry may be filled with, in order."""
    return ["stop"] + [(a, n) for a in range(actions) for n in range(bound)]


def tables(model, bound, rule, table):
    """Each table of the tree from this one on, in order: the table, its picture, and whether it meets the rule."""
    kinds = draw(model, table)
    opened = sorted(c for c, k in kinds.items() if k == "open")
    bad = rejected(kinds, rule)
    yield table, kinds, not bad and not opened
    if opened and not bad:
        m, s = opened[0]
        for fill in fills(model[0], bound):
            yield from tables(model, bound, rule, {**table, (m, model[4][s]): fill})


def plan(file):
    file = file[:READ_AT_MOST]
    if len(file) < 2:
        raise Fault(f"1 layer 3 byte {len(file)}")
    bound, rule = file[:2]
    if not 1 <= bound <= 4:
        raise Fault("10 layer 3 byte 0")
    if rule > 1:
        raise Fault("18 layer 3 byte 1")
    model = read_sheet(file[2:])
    judged = 0
    for table, kinds, meets in tables(model, bound, rule, {}):
        judged += 1
        if meets:
            lines = [f"found {judged}"]
            for (m, o), entry in sorted(table.items()):
                lines.append(f"{m} {o} stop" if entry == "stop" else f"{m} {o} {entry[0]} {entry[1]}")
            steps = worst(kinds, model[2])
            return lines + [f"worst {'-' if steps is None else steps}"]
        if judged == TABLES_AT_MOST:
            break
    else:
        return [f"none {judged}"]
    return [f"open {judged}"]


def answer(file):
    try:
        return plan(file)
    except Fault as fault:
        return [f"refused {fault}"]


def damage(file):
    yield from (file[:n] for n in range(len(file)))
    yield file + b"\0"
    yield file + bytes(READ_AT_MOST - len(file))
    yield file + bytes(READ_AT_MOST)
    for at in range(len(file)):
        for value in (0, 1, 2, 4, 77, 128, 255):
            if value != file[at]:
                yield file[:at] + bytes([value]) + file[at + 1 :]


class Line:
    """A model as functions of states and actions, to be written as a sheet."""

    def __init__(self, actions, observations, initial, goal, sights, outcomes):
        self.actions, self.observations, self.initial, self.goal = actions, observations, initial, goal
        self.sights, self.outcomes = sights, outcomes
        self.states = len(sights)

    def sheet(self):
        heads, records = [], []
        for s in range(self.states):
            for a in range(self.actions):
                targets = sorted(self.outcomes(s, a))
                heads.append(len(records) + 1 if targets else 0)
                for left, target in zip(reversed(range(len(targets))), targets):
                    records.append((target, len(records) + 2 if left else 0))
        counts = [77, self.states, self.actions, self.observations, len(records)]
        masks = [sum(1 << t for t in states).to_bytes(8, "little") for states in (self.initial, self.goal)]
        return bytes(counts) + masks[0] + masks[1] + bytes(self.sights + heads) + b"".join(map(bytes, records))


def single(goal):
    """One state, in which the one action stays."""
    return Line(1, 1, {0}, goal, [0], lambda s, a: {0})


def jam_station():
    feed = {0: {1}, 5: {2}}
    read = {1: {2, 5}, 2: {4}}
    eject = {2: {3}}
    return Line(3, 3, {0}, {3}, [0, 1, 1, 2, 1, 0], lambda s, a: (feed, read, eject)[a].get(s, set()))


def shuttle(places):
    """State 2p + f is place p with a bit f, which is set on arriving at the far end; the goal is back at the start with the bit set."""
    last = places - 1

    def outcomes(s, a):
        p = s // 2 + (1 if a else -1)
        return {2 * p + (1 if p == last else s % 2)} if 0 <= p <= last else set()

    sights = [0 if s < 2 else 2 if s // 2 == last else 1 for s in range(2 * places)]
    return Line(2, 3, {0}, {1}, sights, outcomes)


def slip(line):
    """Each legal action may also leave the state as it is."""

    def outcomes(s, a):
        led = line.outcomes(s, a)
        return led | {s} if led else led

    return Line(line.actions, line.observations, line.initial, line.goal, line.sights, outcomes)


def pair(one, two):
    """Two lines side by side, of which one moves at a time."""
    n = two.states

    def both(x, y):
        return {s * n + t for s in x for t in y}

    def outcomes(s, a):
        if a < one.actions:
            return both(one.outcomes(s // n, a), {s % n})
        return both({s // n}, two.outcomes(s % n, a - one.actions))

    sights = [o * two.observations + q for o in one.sights for q in two.sights]
    return Line(one.actions + two.actions, one.observations * two.observations, both(one.initial, two.initial), both(one.goal, two.goal), sights, outcomes)


def line_jobs():
    """Bound, rule and model of some searches, small and large."""
    strict, patient = 0, 1
    yield from [(1, strict, single({0})), (1, strict, single(set()))]
    yield from [(bound, strict, jam_station()) for bound in (1, 2, 3, 4)]
    yield from [(bound, strict, shuttle(places)) for places in (2, 5, 32) for bound in (1, 2)]
    yield from [(2, rule, slip(shuttle(places))) for places in (2, 5, 32) for rule in (strict, patient)]
    yield from [(2, strict, pair(shuttle(2), shuttle(3))), (2, patient, slip(pair(shuttle(2), shuttle(3))))]


def main():
    if sys.argv[1:] == ["answer"]:
        for line in sys.stdin:
            print("\n".join(answer(bytes.fromhex(line.strip()))), end="\n\n")
    elif sys.argv[1:] == ["damage"]:
        for file in damage(SHUTTLE):
            print(file.hex())
    elif sys.argv[1:] == ["lines"]:
        for bound, rule, line in line_jobs():
            print((bytes([bound, rule]) + line.sheet()).hex())
    else:
        sys.exit(__doc__)


main()
