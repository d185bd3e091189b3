#!/usr/bin/env python3
"""Document 01, and document 02's writer and density run, in plain Python: a model that shares nothing with the library, for outputs to
compare with. `host/run` runs all of it.

  model.py test                  the bench cases, the judge against every set of tasks, the writer against the reader, series of calls, densities
  model.py odd-numbers           calls, with answers and values: what `oddnumbers` must print
  model.py sheets                damaged sheets, with verdicts: what `damaged_sheets` must print
  model.py written               tables, written into buffers of several lengths: what `written_sheets` must print
  model.py vectors SEED COUNT    random and damaged sheets: `verdict`, sheet, answer and strip (for `check -`)
  model.py calls SEED COUNT      series of calls on sheets: `call`, sheet, kind, task, phaser, other, sort, the buffer's length; answer,
                                 value, length and next sheet (for `check -`; bytes in hex, none as `-`)
  model.py densities FILE        what `sheetdensity` must print of a file
  model.py thousand-sheets       the file, of 1,000 sheets, that stands in `sheetdensity`'s folder as its standard input
  model.py density-files FOLDER  files for `sheetdensity`, NAME.sheets, each with what it must print, NAME.lines

Sections stand in document 01's order, with the writer, the entries and the density run after the sheet, and quoted words are the documents' own.
"""
import functools
import itertools
import pathlib
import random
import sys

TASKS, PHASERS, LARGEST_PHASE, GROUPS = 32, 16, 65535, 3

# ---- The table

FREE, RUNNING = "free", "running"  # a blocked task's state is its event, a pair (phaser, phase)


class Table:
    """A fresh table has no task and no open phaser."""

    def __init__(self):
        self.state = [FREE] * TASKS
        self.opened = [False] * PHASERS
        self.phase = [[0] * PHASERS for _ in range(TASKS)]
        self.member = [[False] * PHASERS for _ in range(TASKS)]

    def copy(self):
        other = Table()
        other.state, other.opened = self.state[:], self.opened[:]
        other.phase, other.member = [row[:] for row in self.phase], [row[:] for row in self.member]
        return other

    def blocked(self, task):
        return self.state[task] not in (FREE, RUNNING)

    def members(self, phaser):
        return [t for t in range(TASKS) if self.member[t][phaser]]


def sound(t):
    entries = list(itertools.product(range(TASKS), range(PHASERS)))
    awaited = [t.state[k] for k in range(TASKS) if t.blocked(k)]
    return (
        all(t.state[k] != FREE and t.opened[p] for k, p in entries if t.member[k][p])
        and all(p < PHASERS and t.opened[p] for p, _ in awaited)
        and all(t.phase[k][p] <= LARGEST_PHASE for k, p in entries)
        and all(n <= LARGEST_PHASE for _, n in awaited)
        and all(t.phase[k][p] == 0 for k, p in entries if not t.member[k][p])
    )


def impedes(t, task, event):
    """'A member with a phase less than n impedes event (p, n). Equal does not impede.'"""
    p, n = event
    return t.member[task][p] and t.phase[task][p] < n


# ---- The ten calls


class Refused(Exception):
    """Its argument is the answer number."""


def ask(holds, answer):
    if not holds:
        raise Refused(answer)


def live(t, task):
    return task < TASKS and t.state[task] != FREE


def running_task(t, task):
    ask(live(t, task), 10)
    ask(not t.blocked(task), 12)


def open_phaser_number(t, phaser):
    ask(phaser < PHASERS and t.opened[phaser], 11)


def open_task(t, task, phaser, other):
    free = [k for k in range(TASKS) if t.state[k] == FREE]
    ask(free, 16)
    t.state[free[0]] = RUNNING
    return 0, free[0]


def end_task(t, task, phaser, other):
    running_task(t, task)
    t.state[task] = FREE
    t.phase[task], t.member[task] = [0] * PHASERS, [False] * PHASERS
    return 0, 0


def open_phaser(t, task, phaser, other):
    running_task(t, task)
    unopened = [p for p in range(PHASERS) if not t.opened[p]]
    ask(unopened, 16)
    t.opened[unopened[0]] = True
    t.member[task][unopened[0]], t.phase[task][unopened[0]] = True, 0
    return 0, unopened[0]


def close_phaser(t, task, phaser, other):
    open_phaser_number(t, phaser)
    ask(not t.members(phaser) and not any(t.blocked(k) and t.state[k][0] == phaser for k in range(TASKS)), 19)
    t.opened[phaser] = False
    return 0, 0


def caller_member(t, task, phaser):
    running_task(t, task)
    open_phaser_number(t, phaser)
    ask(t.member[task][phaser], 13)


def admit(t, task, phaser, target):
    caller_member(t, task, phaser)
    ask(live(t, target), 10)
    ask(not t.blocked(target), 20)
    ask(not t.member[target][phaser], 14)
    t.member[target][phaser], t.phase[target][phaser] = True, t.phase[task][phaser]
    return 0, t.phase[task][phaser]


def leave(t, task, phaser, other):
    caller_member(t, task, phaser)
    t.member[task][phaser], t.phase[task][phaser] = False, 0
    return 0, 0


def arrive(t, task, phaser, other):
    caller_member(t, task, phaser)
    ask(t.phase[task][phaser] + 1 <= LARGEST_PHASE, 15)
    t.phase[task][phaser] += 1
    return 0, t.phase[task][phaser]


def wait_own(t, task, phaser, other):
    caller_member(t, task, phaser)
    return wait_stated(t, task, phaser, t.phase[task][phaser])


def wait_stated(t, task, phaser, phase):
    running_task(t, task)
    open_phaser_number(t, phaser)
    ask(phase <= LARGEST_PHASE, 15)
    if all(t.phase[k][phaser] >= phase for k in t.members(phaser)):
        return 1, 0
    t.state[task] = (phaser, phase)
    return 2, 0


def release(t, task, phaser, other):
    ask(live(t, task), 10)
    ask(t.blocked(task), 17)
    p, n = t.state[task]
    ask(all(t.phase[k][p] >= n for k in t.members(p)), 18)
    t.state[task] = RUNNING
    return 0, 0


KINDS = [open_task, end_task, open_phaser, close_phaser, admit, leave, arrive, wait_own, wait_stated, release]


def call(t, kind, task=0, phaser=0, other=0):
    """Answer, value and next table."""
    try:
        ask(kind < len(KINDS), 42)
        ask(sound(t), 44)
        after = t.copy()
        answer, value = KINDS[kind](after, task, phaser, other)
        return answer, value, after
    except Refused as refusal:
        return refusal.args[0], 0, t


# ---- Stuck


def blocked_tasks(t):
    return [k for k in range(TASKS) if t.blocked(k)]


def awaited_events(t):
    return sorted({t.state[k] for k in blocked_tasks(t)})


def totally_deadlocked(t, tasks):
    return bool(tasks) and all(t.blocked(k) and any(impedes(t, u, t.state[k]) for u in tasks) for k in tasks)


def named_by_sets(t):
    """Every set there is, one by one."""
    blocked = blocked_tasks(t)
    sets = (s for n in range(len(blocked) + 1) for s in itertools.combinations(blocked, n))
    return set().union(*(s for s in sets if totally_deadlocked(t, s)))


def with_endless_walk(nodes, edge):
    """An endless walk exists where a walk of as many steps as there are nodes does."""
    ways = {a: [b for b in nodes if edge(a, b)] for a in nodes}
    able = set(nodes)
    for _ in nodes:
        able = {a for a in nodes if any(b in able for b in ways[a])}
    return able


def task_edge(t, a, b):
    """Of two blocked tasks."""
    return impedes(t, b, t.state[a])


def event_edge(t, e, f):
    """Of two awaited events."""
    return any(t.state[k] == f and impedes(t, k, e) for k in blocked_tasks(t))


def named_by_tasks(t):
    return with_endless_walk(blocked_tasks(t), lambda a, b: task_edge(t, a, b))


def named_by_events(t):
    able = with_endless_walk(awaited_events(t), lambda e, f: event_edge(t, e, f))
    return {k for k in blocked_tasks(t) if t.state[k] in able}


def fewer_events(t):
    return len(awaited_events(t)) < len(blocked_tasks(t))


def named_by_fewer(t):
    """'A third route, 2, uses events where they are fewer than blocked tasks, and otherwise tasks.'"""
    return named_by_events(t) if fewer_events(t) else named_by_tasks(t)


ROUTES = [named_by_tasks, named_by_events, named_by_fewer]


def ring_of(t, named):
    walk = [min(named)] if named else []
    while walk:
        ways = [u for u in sorted(named) if impedes(t, u, t.state[walk[-1]])]
        ask(ways, 22)
        if ways[0] in walk:
            ring = walk[walk.index(ways[0]) :]
            turn = ring.index(min(ring))
            return ring[turn:] + ring[:turn]
        walk.append(ways[0])
    return []


# ---- The hall sheet


class Sheet:
    def __init__(self, data):
        self.data, self.at = data, 0

    def number(self, largest=None):
        value = 0
        for group in range(GROUPS):
            ask(self.at < len(self.data), 30)
            byte = self.data[self.at]
            self.at += 1
            value += byte % 128 * 128**group
            if byte < 128:
                ask(group == 0 or byte != 0, 31)
                ask(largest is None or value <= largest, 32)
                return value
        raise Refused(32)

    def rising(self, before, largest):
        value = self.number(largest)
        ask(not before or before[-1] < value, 33)
        before.append(value)
        return value

    def open_phaser(self, t, before=None):
        p = self.number(PHASERS - 1) if before is None else self.rising(before, PHASERS - 1)
        ask(t.opened[p], 36)
        return p

    def task(self, t, numbers):
        k = self.rising(numbers, TASKS - 1)
        state = self.number()
        ask(state in (0, 1), 34)
        t.state[k] = (self.open_phaser(t), self.number(LARGEST_PHASE)) if state else RUNNING
        phasers = []
        for _ in range(self.number(PHASERS)):
            p = self.open_phaser(t, phasers)
            t.phase[k][p], t.member[k][p] = self.number(LARGEST_PHASE), True

    def table(self):
        t = Table()
        ask(self.number() == 1, 34)
        phasers, numbers = [], []
        for _ in range(self.number(PHASERS)):
            t.opened[self.rising(phasers, PHASERS - 1)] = True
        for _ in range(self.number(TASKS)):
            self.task(t, numbers)
        ask(self.at == len(self.data), 35)
        return t


def groups(value):
    return bytes([value]) if value < 128 else bytes([128 + value % 128]) + groups(value // 128)


def sheet_of(t):
    phasers = [p for p in range(PHASERS) if t.opened[p]]
    tasks = [k for k in range(TASKS) if t.state[k] != FREE]
    fields = [1, len(phasers), *phasers, len(tasks)]
    for k in tasks:
        mine = [p for p in range(PHASERS) if t.member[k][p]]
        fields += [k, 1, *t.state[k]] if t.blocked(k) else [k, 0]
        fields += [len(mine)] + [x for p in mine for x in (p, t.phase[k][p])]
    return b"".join(map(groups, fields))


NOBODY = bytes(6) + b"\xff" * 32


def judge(t, route):
    """Answer and what the strip would hold."""
    try:
        ask(route < len(ROUTES), 41)
        ask(sound(t), 44)
        named = ROUTES[route](t)
        ring = ring_of(t, named)
        mask = sum(2**k for k in named)
        return 0, mask.to_bytes(4, "little") + bytes([len(named), len(ring), *ring]) + b"\xff" * (32 - len(ring))
    except Refused as refusal:
        return refusal.args[0], NOBODY


def sheet_verdict(data, route=0, strip=NOBODY):
    """Answer and the strip as it stands afterwards."""
    try:
        ask(route < len(ROUTES), 41)
        ask(len(strip) >= 38, 40)
        answer, written = judge(Sheet(data).table(), route)
        return answer, strip if answer else written + strip[38:]
    except Refused as refusal:
        return refusal.args[0], strip


def told(strip):
    """Mask, named tasks and ring of a strip."""
    mask = int.from_bytes(strip[:4], "little")
    return mask, [k for k in range(TASKS) if mask >> k & 1], list(strip[6 : 6 + strip[5]])


# ---- Document 02, M-100


def write(t, buffer):
    """'Write any sound table as a hall sheet into a lent buffer; the value is its length.' Answer, value and the buffer afterwards.
    'Refusals: 44 as in 01, then 43 if the buffer is shorter than the sheet.' 'Bytes after the sheet stay as they were.'"""
    try:
        ask(sound(t), 44)
        sheet = sheet_of(t)
        ask(len(sheet) <= len(buffer), 43)
        return 0, len(sheet), sheet + buffer[len(sheet) :]
    except Refused as refusal:
        return refusal.args[0], 0, buffer


def sheet_call(data, kind, task, phaser, other, sort, buffer):
    """The entry for C++: a call on a sheet's table, and the next table's sheet. Answer, value, its length and the buffer afterwards. 42
    'before all else', then the sheet, then the call's row, 43 last. `sort` is not looked at."""
    try:
        ask(kind < len(KINDS), 42)
        answer, value, after = call(Sheet(data).table(), kind, task, phaser, other)
        ask(answer < 10, answer)
        refusal, length, written = write(after, buffer)
        ask(refusal == 0, refusal)
        return answer, value, length, written
    except Refused as refusal:
        return refusal.args[0], 0, 0, buffer


# ---- Document 02, M-101

MOST_SHEETS, LARGEST_LENGTH = 1000, 4096
COUNTED = "blocked", "events", "task", "event", "task-event"


def density(t):
    """'The blocked tasks, the distinct awaited events, the edges of the task graph, of the event graph and of the task-event graph.' The last
    'has one edge per blocked task to its event, and one from an awaited event to each blocked task that impedes it'."""
    blocked, events = blocked_tasks(t), awaited_events(t)
    task = [(a, b) for a in blocked for b in blocked if task_edge(t, a, b)]
    event = [(e, f) for e in events for f in events if event_edge(t, e, f)]
    task_event = [(a, t.state[a]) for a in blocked] + [(e, a) for e in events for a in blocked if impedes(t, a, e)]
    return [len(counted) for counted in (blocked, events, task, event, task_event)]


@functools.lru_cache(maxsize=None)  # a file may have one sheet many times
def sheet_density(data):
    """Answer and counts."""
    try:
        return 0, density(Sheet(data).table())
    except Refused as refusal:
        return refusal.args[0], [0] * len(COUNTED)


def with_words(counts):
    return [word for pair in zip(COUNTED, counts) for word in pair]


def densities(data):
    """What `sheetdensity` prints of a file. 'A refused sheet prints its number and adds only to a total of refused ones.' 'A length is at most
    4,096; one that is refused or runs past the end (30), or a byte after the thousandth sheet (35), stops the run with that number in place
    of the totals.'"""
    file, totals, accepted, refused = Sheet(data), [0] * len(COUNTED), 0, 0
    try:
        while file.at < len(data):
            ask(accepted + refused < MOST_SHEETS, 35)
            length = file.number(LARGEST_LENGTH)
            start, file.at = file.at, file.at + length
            ask(file.at <= len(data), 30)
            answer, counts = sheet_density(data[start : file.at])
            accepted, refused = accepted + (answer == 0), refused + (answer != 0)
            totals = [total + count for total, count in zip(totals, counts)]
            yield "sheet", accepted + refused, *(["refused", answer] if answer else with_words(counts))
        yield "total", "sheets", accepted, "refused", refused, *with_words(totals)
    except Refused as refusal:
        yield "stopped", refusal.args[0]


# ---- Bench cases


def table(phasers, waits, members, running=()):
    """waits: task → event; members: phaser → {task: phase}."""
    t = Table()
    for p in phasers:
        t.opened[p] = True
    for k in running:
        t.state[k] = RUNNING
    for k, event in waits.items():
        t.state[k] = event
    for p, row in members.items():
        for k, n in row.items():
            t.member[k][p], t.phase[k][p] = True, n
    return t


P4 = table([0, 1], {0: (0, 1), 1: (1, 1)}, {0: {0: 1, 1: 0}, 1: {0: 0, 1: 1}})
BENCH = {  # case: table, named, ring
    "P1": (Table(), [], []),
    "P2": (table([0], {0: (0, 1)}, {0: {0: 0}}), [0], [0]),
    "P3": (table([0], {0: (0, 1)}, {0: {0: 1, 1: 0}}, [1]), [], []),
    "P4": (P4, [0, 1], [0, 1]),
    "P5": (table([0, 1], {0: (0, 1), 1: (1, 1)}, {0: {0: 1, 1: 0}, 1: {0: 1, 1: 1}}), [], []),
    "P6": (table([0, 1], {0: (0, 1), 1: (1, 1), 2: (0, 1)}, {0: {0: 1, 1: 0, 2: 1}, 1: {0: 0, 1: 1}}), [0, 1, 2], [0, 1]),
    "P7": (table([0, 1], {0: (0, 2), 1: (1, 1)}, {0: {0: 2, 1: 2, 2: 0}, 1: {0: 0, 1: 1, 2: 0}}, [2]), [], []),
    "P8": (
        table([0, 1, 2], {0: (0, 2), 1: (1, 1), 2: (2, 1)}, {0: {0: 2, 1: 2, 2: 0}, 1: {0: 0, 1: 1, 2: 0}, 2: {2: 0}}),
        [0, 1, 2],
        [2],
    ),
    "P9": (table([0, 1], {0: (0, 1), 1: (1, 1)}, {0: {0: 1, 1: 0, 2: 0}, 1: {1: 0}}, [2]), [0, 1], [1]),
}


# ---- The odd-numbers run: see `odd_numbers` for the series and the order of the loops

ODD = [0, 1, 15, 16, 31, 32, 255, 256, 65535, 65536, 2**32 - 1, 2**32, 2**32 + 3, 2**63, 2**64 - 1]

# Reached from a fresh table, each call accepted: task 0 runs, a member; 1 is blocked and its wait is met; 15 is blocked and its
# wait is not; 16 is free; 31 runs, a member of nothing. Phaser 0 has members; 1 has none and is awaited; 7 is not open; 15 has none.
SERIES = (
    [(0, 0, 0, 0)] * 32  # tasks 0 to 31
    + [(1, 16, 0, 0)]  # task 16 is free again
    + [(2, 0, 0, 0)] * 16  # phasers 0 to 15, task 0 a member of each at phase 0
    + [(5, 0, 7, 0), (3, 0, 7, 0)]  # task 0 leaves phaser 7, which is closed
    + [(4, 0, 0, 2), (6, 0, 0, 0)]  # task 2 joins phaser 0 at phase 0; task 0 arrives there: 0: 0@1, 2@0
    + [(8, 1, 1, 1), (5, 0, 1, 0)]  # task 1 waits (1, 1), impeded by task 0, who then leaves phaser 1
    + [(8, 15, 0, 1)]  # task 15 waits (0, 1), impeded by task 2
    + [(5, 0, 15, 0)]  # task 0 leaves phaser 15
)

# For each kind, the task, phaser and other number that are accepted from there; kind 10 is none.
ACCEPTED = [
    (0, 0, 0),
    (0, 0, 0),
    (0, 0, 0),
    (0, 15, 0),
    (0, 0, 31),
    (0, 0, 0),
    (0, 0, 0),
    (0, 2, 0),
    (0, 0, 1),
    (1, 0, 0),
    (0, 0, 0),
]


def odd_table():
    t = Table()
    for numbers in SERIES:
        answer, _, t = call(t, *numbers)
        assert answer < 10, numbers
    return t


def odd_numbers():
    """Each call starts from the table of SERIES. For each kind 0 to 10, for each place (task, phaser, other), for each odd number:
    the call with the number in that place and ACCEPTED's in the two others. Then each odd number as the kind, with 0, 0 and 31."""
    t = odd_table()
    for kind, accepted in enumerate(ACCEPTED):
        for place in range(3):
            for odd in ODD:
                numbers = list(accepted)
                numbers[place] = odd
                yield (kind, *numbers, *call(t, kind, *numbers)[:2])
    for kind in ODD:
        yield (kind, 0, 0, 31, *call(t, kind, 0, 0, 31)[:2])


# ---- The sheets run: see `sheets` for the damages and the order

WIDE = table([3, 15], {9: (3, 300), 31: (15, 65535)}, {3: {9: 16384, 31: 299}, 15: {7: 128, 9: 65534, 31: 65535}}, [7])
BASE = [sheet_of(t) for t in [Table()] + [BENCH[p][0] for p in ("P2", "P4", "P6", "P8", "P9")] + [WIDE]]


def sheets():
    """For each base sheet, for each damage, for each place: base, damage, place, answer and, if that is 0, mask, count, the ring's
    length and the ring. The route is the place's remainder by 2. Damages: 0 none (places 0 and 1); 1 the first so many bytes, for
    each place below the length; 2 to 5, for each place below the length, the byte b there replaced by (b + 128) % 256,
    (b + 1) % 256, 0 and 255; 6 the byte `place` added at the end (places 0 and 1)."""
    for number, base in enumerate(BASE):
        for damage in range(7):
            for place in range(2 if damage in (0, 6) else len(base)):
                if damage == 1:
                    data = base[:place]
                elif damage == 6:
                    data = base + bytes([place])
                else:
                    data = bytearray(base)
                    if damage:
                        data[place] = ((data[place] + 128) % 256, (data[place] + 1) % 256, 0, 255)[damage - 2]
                answer, strip = sheet_verdict(bytes(data), place % 2)
                mask, named, ring = told(strip)
                yield (number, damage, place, answer) if answer else (number, damage, place, 0, mask, len(named), len(ring), *ring)


# ---- The written run: see `written` for the tables, the buffers and the lines

EDGES = [0, 1, 127, 128, 16383, 16384, 65534, 65535]  # phases about the edges of one, two and three groups
LONGEST = table(range(16), {k: (k % 16, 65535) for k in range(32)}, {p: {k: 40000 for k in range(32)} for p in range(16)})
PATTERN = bytes((i * 7 + 1) % 256 for i in range(2300))


class Draws:
    """Numbers from the high byte of a state, since its low bits soon repeat."""

    def __init__(self):
        self.state = 1

    def below(self, bound):
        self.state = (self.state * 25173 + 13849) % 65536
        return self.state // 256 % bound

    randrange = below

    def choice(self, values):
        return values[self.below(len(values))]

    def phase(self):
        groups = self.below(4)
        if groups == 0:
            return EDGES[self.below(8)]
        if groups == 1:
            return self.below(128)
        if groups == 2:
            return 128 + self.below(254) * 64 + self.below(64)
        return 16384 + self.below(192) * 256 + self.below(256)


def drawn_table(draws, absent, shut):
    """A sound table in which task `absent` is free and phaser `shut` not open. Few tasks live, but for one table in 16."""
    t = Table()
    opened, joined = draws.below(256), draws.below(256)
    live = draws.below(256 if draws.below(16) == 0 else 40)
    for p in range(PHASERS):
        t.opened[p] = draws.below(256) < opened and p != shut
    for k in range(TASKS):
        if draws.below(256) < live and k != absent:
            awaited, phase, runs = draws.below(16), draws.phase(), draws.below(3) == 0
            t.state[k] = RUNNING if runs or not t.opened[awaited] else (awaited, phase)
            for p in range(PHASERS):
                if draws.below(256) < joined and t.opened[p]:
                    t.member[k][p], t.phase[k][p] = True, draws.phase()
    return t


def with_fault(t, fault, absent, shut):
    """A drawn table with one fault, at the task and the phaser that it leaves out."""
    state, opened, member, phase = [
        (RUNNING, False, True, 0),  # a member of a phaser that is not open
        (FREE, True, True, 0),  # a member that is no live task
        (FREE, False, False, 1),  # a non-member that keeps a phase, free
        (RUNNING, True, False, 1),  # and live
        (RUNNING, True, True, 65536),  # a kept phase too large
        ((shut, 65536), True, False, 0),  # an awaited phase too large
        ((shut, 1), False, False, 0),  # an awaited phaser that is not open
        ((16, 1), True, False, 0),  # one that there is not
        ((2**32 + shut, 1), True, False, 0),  # one that is an open one in its low 32 bits
    ][fault]
    t.state[absent], t.opened[shut], t.member[absent][shut], t.phase[absent][shut] = state, opened, member, phase
    return t


def written_tables():
    """Numbered from 1: the bench cases, the table with the longest sheet, and 200 drawn ones, of which every eighth gets a fault."""
    draws = Draws()
    p10 = [table([0], {}, {0: {0: phase}}, [0]) for phase in (65534, 65535)]
    p11 = table([], {}, {}, range(TASKS))
    yield from enumerate([t for t, _, _ in BENCH.values()] + p10 + [p11, LONGEST], 1)
    for number in range(14, 214):
        absent, shut = draws.below(32), draws.below(16)
        t = drawn_table(draws, absent, shut)
        yield number, t if number % 8 else with_fault(t, number // 8 % 9, absent, shut)


def written_line(number, t, length):
    """A write into the first so many bytes of PATTERN: number, length, answer, value, and a sum over all of them."""
    answer, value, after = write(t, PATTERN[:length])
    total = 0
    for byte in after + PATTERN[length:]:
        total = (total * 31 + byte) % 65521
    return number, length, answer, value, total


def written():
    """For each table a line of a write into all 2,300 bytes. After answer 0 a line with the sheet and the four bytes after it, in hex (but
    for the longest), and lines of writes into one byte less than the sheet, as many, and one more. After 44 one of a write into none."""
    for number, t in written_tables():
        yield written_line(number, t, len(PATTERN))
        _, value, after = write(t, PATTERN)
        if value and t is not LONGEST:
            yield after[:value].hex(), after[value : value + 4].hex()
        for length in (value - 1, value, value + 1) if value else (0,):
            yield written_line(number, t, length)


# ---- Random sheets


def random_table(rand, tasks=TASKS):
    t = Table()
    reach = rand.choice([1, 2, 3, 130, LARGEST_PHASE])
    phasers = rand.sample(range(PHASERS), rand.randint(0, rand.choice([2, 4, PHASERS])))
    blocked, joined = rand.random(), rand.random() ** 2
    for p in phasers:
        t.opened[p] = True
    for k in rand.sample(range(TASKS), rand.randint(0, tasks)):
        t.state[k] = (rand.choice(phasers), rand.randint(0, reach)) if phasers and rand.random() < blocked else RUNNING
        for p in phasers:
            if rand.random() < joined:
                t.member[k][p], t.phase[k][p] = True, rand.randint(0, reach)
    return t


def stepping_table(rand):
    """All 32 tasks blocked, each impeded first by a task drawn at random: on phaser p task 2p is at phase 1, task 2p + 1 at 0."""
    t = Table()
    t.opened = [True] * PHASERS
    for k in range(TASKS):
        u = rand.randrange(TASKS)
        t.state[k] = (u // 2, 2 - u % 2)
        t.member[k][k // 2], t.phase[k][k // 2] = True, 1 - k % 2
    return t


def damaged(rand, data):
    at, odd = rand.randrange(len(data)), rand.choice([0, 1, 2, 15, 16, 31, 32, 127, 128, 255, rand.randrange(256)])
    return rand.choice(
        [
            data,
            data[:at],
            data[:at] + bytes([odd]) + data[at + 1 :],
            data[:at] + bytes([odd]) + data[at:],
            data[:at] + data[at + 1 :],
            data + bytes([odd]),
        ]
    )


def vectors(seed, count):
    rand = random.Random(seed)
    for _ in range(count):
        data = sheet_of(stepping_table(rand) if rand.random() < 0.1 else random_table(rand))
        data = data if rand.random() < 0.3 else damaged(rand, data)
        answer, strip = sheet_verdict(data, rand.randrange(len(ROUTES)))
        yield "verdict", data.hex() or "-", answer, strip.hex()


# ---- Files of sheets


def file_of(*sheets):
    """'Each after its length as a house number.'"""
    return b"".join(groups(len(sheet)) + sheet for sheet in sheets)


def crowd(tasks, phasers):
    """Tasks blocked on the first phases of so many phasers, by turns, each a member of all at phase 0."""
    waits = {k: (k % phasers, 1) for k in range(tasks)}
    return table(range(phasers), waits, {p: {k: 0 for k in range(tasks)} for p in range(phasers)})


def gathered_table(draws):
    """Up to four tasks at up to three phasers, at low phases: so many await the same event, and some waits are met."""
    t = Table()
    apart, first = 1 + draws.below(8), draws.below(14)
    phasers = [first + p for p in range(1 + draws.below(3))]
    for p in phasers:
        t.opened[p] = True
    for k in range(0, apart * (1 + draws.below(4)), apart):
        t.state[k] = RUNNING if draws.below(8) == 0 else (draws.choice(phasers), draws.below(4))
        for p in phasers:
            if draws.below(3):
                t.member[k][p], t.phase[k][p] = True, draws.below(3)
    return t


def thousand_sheets():
    """The bench cases, the longest sheet, four crowds, a needless group, and small drawn tables. Of these every ninth is damaged, which some
    of them bear, and every 25th has no bytes."""
    draws = Draws()
    first = [t for t, _, _ in BENCH.values()] + [LONGEST, crowd(30, 2), crowd(32, 1), crowd(5, 3), crowd(16, 16)]
    sheets = [sheet_of(t) for t in first] + [b"\x01\x80\x00\x00"]
    for number in range(len(sheets), MOST_SHEETS):
        sheet = sheet_of(gathered_table(draws))
        sheets.append(b"" if number % 25 == 0 else damaged(draws, sheet) if number % 9 == 0 else sheet)
    return sheets


P6 = sheet_of(BENCH["P6"][0])
STOPS = {  # how a file may go on so that the run stops there
    "30-length-cut-after-one": b"\x80",
    "30-length-cut-after-two": b"\xff\xff",
    "30-past-the-end": groups(len(P6)) + P6[:-1],
    "30-largest-length-past-the-end": groups(LARGEST_LENGTH) + bytes(LARGEST_LENGTH - 1),
    "31-needless-second-group": b"\x9e\x00" + P6,
    "31-needless-third-group": b"\x9e\x80\x00" + P6,
    "31-nothing-in-two-groups": b"\x80\x00",
    "32-third-byte-goes-on": b"\x80\x80\x80",
    "32-third-byte-goes-on-and-more": b"\x9e\x80\x80\x00" + P6,
    "32-one-over-the-largest-length": groups(LARGEST_LENGTH + 1) + bytes(LARGEST_LENGTH + 1),
    "32-as-much-as-three-groups-hold": b"\xff\xff\x7f",
}


def random_sheets(rand, count):
    for _ in range(count):
        sheet = sheet_of(stepping_table(rand) if rand.random() < 0.1 else random_table(rand, rand.choice([4, 12, TASKS])))
        yield b"" if rand.random() < 0.1 else damaged(rand, sheet) if rand.random() < 0.5 else sheet


def density_files():
    """By name. Each stop comes at once, after three sheets, as the thousandth, and after it, where it is 35."""
    rand, thousand, longest = random.Random(20261116), thousand_sheets(), sheet_of(LONGEST)
    bench = [sheet_of(t) for t, _, _ in BENCH.values()]
    files = {
        "none": b"",
        "one": file_of(bench[3]),
        "bench": file_of(*bench),
        "thousand": file_of(*thousand),
        "thousand-and-one": file_of(*thousand, bench[3]),
        "thousand-of-no-bytes": file_of(*[b""] * MOST_SHEETS),
        "thousand-of-the-longest": file_of(*[longest] * MOST_SHEETS),
        "the-largest-length": file_of(bench[3], longest + bytes(LARGEST_LENGTH - len(longest)), bytes(LARGEST_LENGTH), b"\xff" * 4095, bench[3]),
        "longest-among-small": file_of(*[longest, bench[1], b"", longest + b"\x00", bench[5]] * 20),
    }
    files.update({f"random-{number}": file_of(*random_sheets(rand, 100)) for number in range(1, 9)})
    for stop, rest in STOPS.items():
        files.update({f"stop-{stop}-after-{count}": file_of(*thousand[:count]) + rest for count in (0, 3, 999, 1000)})
    mixed = file_of(bench[1], b"", bench[3] + b"\x00", longest[:130])
    files.update({f"cut-before-{at}": mixed[:at] for at in range(44)})
    return files


def write_density_files(folder):
    for name, data in density_files().items():
        (folder / f"{name}.sheets").write_bytes(data)
        (folder / f"{name}.lines").write_text("".join(" ".join(map(str, line)) + "\n" for line in densities(data)))


# ---- Series of calls


def hopeful(rand, t, kind):
    """Numbers with which a call of this kind may well be accepted, where there are any; and any number where the kind looks at none."""

    def one_of(*lists):
        return rand.choice(next((numbers for numbers in lists if numbers), [rand.choice(ODD)]))

    running = [k for k in range(TASKS) if t.state[k] == RUNNING]
    opened = [p for p in range(PHASERS) if t.opened[p]]
    task, phaser, other = rand.choice(ODD), rand.choice(ODD), rand.choice(ODD)
    if kind in (1, 2, 8):
        task = one_of(running)
    if kind in (4, 5, 6, 7):
        task = one_of([k for k in running if any(t.member[k])], running)
        phaser = one_of([p for p in opened if live(t, task) and t.member[task][p]], opened)
    if kind == 3:
        phaser = one_of([p for p in opened if not t.members(p)], opened)
    if kind == 4:
        other = one_of([k for k in running if phaser in opened and not t.member[k][phaser]], running)
    if kind == 8:
        phaser = one_of(opened)
        other = one_of([t.phase[k][phaser] for k in t.members(phaser)] if phaser in opened else [], [0]) + rand.randrange(3)
    if kind == 9:
        blocked = [k for k in range(TASKS) if t.blocked(k)]
        task = one_of([k for k in blocked if not any(impedes(t, u, t.state[k]) for u in range(TASKS))], blocked)
    return task, phaser, other


def called_with(rand, t):
    """Kind, task, phaser, other and sort of a call on a table: hopeful numbers, one in eight with an odd one in some place."""
    kind = rand.choices(range(10), [5, 1, 2, 1, 12, 2, 9, 2, 3, 6])[0]
    numbers = [kind, *hopeful(rand, t, kind), rand.choice(ODD)]
    if rand.random() < 0.125:
        numbers[rand.randrange(4)] = rand.choice(ODD + [9, 10, 11])
    return numbers


def crowded(rand):
    """The table with the longest sheet, but that some tasks run, and that these are at other phases."""
    t = LONGEST.copy()
    for k in rand.sample(range(TASKS), 8):
        t.state[k], t.phase[k] = RUNNING, [rand.choice([127, 40000, 65534, 65535]) for _ in range(PHASERS)]
    return t


def calls(seed, count):
    """Series from the fresh sheet or another table's, each next sheet into the next call. Beside them calls on damaged sheets, and into
    buffers that are too short or just long enough."""
    rand, left = random.Random(seed), 0
    for _ in range(count):
        if left == 0:
            start, left = rand.choices([(Table(), 400), (random_table(rand), 100), (crowded(rand), 50)], [6, 10, 1])[0]
            data = sheet_of(start)
        left -= 1
        numbers, given, buffer = called_with(rand, Sheet(data).table()), data, PATTERN
        if rand.random() < 0.1:
            given = damaged(rand, data)
        elif rand.random() < 0.2:
            reached = sheet_call(data, *numbers, PATTERN)[2] or len(data)
            buffer = PATTERN[: rand.choice([0, 1, reached - 1, reached, reached + 1])]
        answer, value, written, after = sheet_call(given, *numbers, buffer)
        assert after[written:] == buffer[written:]
        yield "call", given.hex() or "-", *numbers, len(buffer), answer, value, written, after[:written].hex() or "-"
        if answer < 10 and given == data:
            data = after[:written]


# ---- The model against the documents' own figures, against every set of tasks, and its writer against its reader


def test():
    for case, (t, named, ring) in BENCH.items():
        data = sheet_of(t)
        strips = [sheet_verdict(data, route) for route in range(3)]
        assert all(answer == 0 and told(strip)[1:] == (named, ring) for answer, strip in strips), case
    assert sheet_of(P4).hex(" ") == "01 02 00 01 02 00 01 00 01 02 00 01 01 00 01 01 01 01 02 00 00 01 01"
    assert sheet_verdict(sheet_of(P4))[1] == bytes.fromhex("0300000002020001") + b"\xff" * 30
    assert sheet_of(Table()).hex(" ") == "01 00 00" and sheet_verdict(b"")[0] == 30
    assert sheet_verdict(b"", 3, b"")[0] == 41 and sheet_verdict(b"", 0, bytes(37)) == (40, bytes(37))
    assert sheet_verdict(sheet_of(P4), 0, bytes(40))[1][38:] == bytes(2)
    t = Table()  # P10, P11
    for _ in range(32):
        _, _, t = call(t, 0)
    assert call(t, 0)[:2] == (16, 0) and call(call(t, 1, 4)[2], 0)[:2] == (0, 4)
    _, _, t = call(t, 2)
    t.phase[0][0] = 65534
    assert call(t, 6)[:2] == (0, 65535) and call(call(t, 6)[2], 6)[:2] == (15, 0) and call(t, 8, 0, 0, 65536)[:2] == (15, 0)
    assert [Sheet(bytes.fromhex(h)).number() for h in ("ac02", "ffff03")] == [300, 65535]  # P12
    for hex_bytes, answer in (("8000", 31), ("808004", 32)):
        try:
            Sheet(bytes.fromhex(hex_bytes)).number(LARGEST_PHASE)
            assert False
        except Refused as refusal:
            assert refusal.args[0] == answer
    full = table(range(16), {k: (15, 65535) for k in range(32)}, {p: {k: 65535 for k in range(32)} for p in range(16)})
    assert len(sheet_of(full)) == 2291

    rand, stuck, fewer = random.Random(1), 0, 0
    for _ in range(3000):
        t = random_table(rand, 9)
        named = named_by_sets(t)
        assert sound(t) and all(route(t) == named for route in ROUTES)
        back = Sheet(sheet_of(t)).table()
        assert vars(back) == vars(t)
        stuck, fewer = stuck + bool(named), fewer + fewer_events(t)
        kind, numbers = rand.randrange(11), [rand.choice(ODD[:6] + list(range(9))) for _ in range(3)]
        answer, value, after = call(t, kind, *numbers)
        assert sound(after) and (answer < 10 or value == 0 and vars(after) == vars(t))
    print(f"model: bench as document 01 states it; 3000 random tables, {stuck} with stuck tasks, all by sets and all three routes alike")
    print(f"model: route 2 went by events on {fewer} of them, and by tasks on the others")
    test_write(rand)


def test_write(rand):
    """What is written is read back, and what was read is written back."""
    tables = [t for t, _, _ in BENCH.values()] + [LONGEST] + [random_table(rand) for _ in range(300)]
    accepted = 0
    for t in tables:
        answer, value, after = write(t, PATTERN)
        sheet = after[:value]
        assert answer == 0 and after[value:] == PATTERN[value:] and vars(Sheet(sheet).table()) == vars(t)
        assert write(t, PATTERN[:value]) == (0, value, sheet) and write(t, PATTERN[: value - 1]) == (43, 0, PATTERN[: value - 1])
        for data in [damaged(rand, sheet) for _ in range(20)]:
            try:
                assert write(Sheet(data).table(), data) == (0, len(data), data)
                accepted += data != sheet
            except Refused:
                pass
    for fault in range(9):
        for t in [with_fault(Table(), fault, 31, 15), with_fault(drawn_table(Draws(), 7, 3), fault, 7, 3)]:
            assert not sound(t) and write(t, PATTERN) == (44, 0, PATTERN) and write(t, b"") == (44, 0, b"")
    assert write(P4, PATTERN)[:2] == (0, 23) and write(LONGEST, PATTERN)[:2] == (0, 2291) and write(Table(), b"") == (43, 0, b"")
    print(f"model: {len(tables)} tables written and read back, {accepted} damaged sheets that are accepted still, read and written back")
    test_calls()


def test_calls():
    """P4 by calls, and the order of tests. A series of sheet_calls is the same series of calls."""
    data = sheet_of(Table())
    p4 = [(0, 9, 9, 9), (0, 9, 9, 9), (2, 0, 9, 9), (2, 0, 9, 9), (4, 0, 0, 1), (4, 0, 1, 1), (6, 0, 0, 9), (6, 1, 1, 9), (7, 0, 0, 9), (8, 1, 1, 1)]
    for numbers in p4:
        answer, _, length, after = sheet_call(data, *numbers, 9, PATTERN)
        assert answer < 10 and after[length:] == PATTERN[length:]
        data = after[:length]
    assert data == sheet_of(P4)
    for sort in ODD:
        assert sheet_call(b"\x02", 10, 0, 0, 0, sort, b"") == (42, 0, 0, b"") and sheet_call(b"\x02", 9, 0, 0, 0, sort, b"") == (34, 0, 0, b"")
        assert sheet_call(data, 9, 0, 0, 0, sort, b"") == (18, 0, 0, b"") and sheet_call(data, 0, 0, 0, 0, sort, data) == (43, 0, 0, data)
        assert sheet_call(data, 0, 0, 0, 0, sort, PATTERN[:26]) == (0, 2, 26, data[:4] + b"\x03" + data[5:] + b"\x02\x00\x00")
    rand, t, seen = random.Random(2), Table(), set()
    for _ in range(3000):
        numbers = called_with(rand, t)
        answer, value, after = call(t, *numbers[:4])
        data = sheet_of(after)
        outcome = (answer, value, len(data), data + PATTERN[len(data) :]) if answer < 10 else (answer, 0, 0, PATTERN)
        assert sheet_call(sheet_of(t), *numbers, PATTERN) == outcome
        for room in (0, len(data) - 1):
            assert sheet_call(sheet_of(t), *numbers, PATTERN[:room]) == (43 if answer < 10 else answer, 0, 0, PATTERN[:room])
        seen.add(answer)
        t = after if rand.random() < 0.995 else Table()
    assert seen <= {0, 1, 2, *range(10, 21), 42}
    print(f"model: 3000 calls in series, on sheets as on tables; {len(seen)} different answers")
    test_densities()


def test_densities():
    """The counts that are known by hand, and each way in which a run ends."""
    by_hand = {"P1": [0, 0, 0, 0, 0], "P2": [1, 1, 1, 1, 2], "P3": [1, 1, 0, 0, 1], "P4": [2, 2, 2, 2, 4], "P5": [2, 2, 1, 1, 3]}
    by_hand.update({"P6": [3, 2, 3, 2, 5], "P7": [2, 2, 1, 1, 3], "P8": [3, 3, 4, 4, 7], "P9": [2, 2, 2, 2, 4]})
    assert {case: density(t) for case, (t, _, _) in BENCH.items()} == by_hand
    assert density(crowd(30, 1)) == [30, 1, 900, 1, 60] and density(crowd(32, 2)) == [32, 2, 1024, 4, 96]
    p4 = sheet_of(P4)
    lines = "sheet 1 blocked 2 events 2 task 2 event 2 task-event 4|sheet 2 refused 30|"
    ends = {
        b"": "total sheets 1 refused 1 blocked 2 events 2 task 2 event 2 task-event 4",
        b"\x80": "stopped 30",
        b"\x80\x80": "stopped 30",
        b"\x80\x80\x80": "stopped 32",
        b"\x80\x00": "stopped 31",
        b"\x81\x20": "stopped 32",
        b"\x80\x20": "stopped 30",
        b"\x02\x01": "stopped 30",
    }
    for rest, end in ends.items():
        assert "|".join(" ".join(map(str, line)) for line in densities(file_of(p4, b"") + rest)) == lines + end
    full = file_of(*[b""] * MOST_SHEETS)
    assert [*densities(full)][-1][:5] == ("total", "sheets", 0, "refused", 1000) and [*densities(full + b"\x80")][-1] == ("stopped", 35)
    files = density_files()
    ends = {end: sum([*densities(data)][-1] == ("stopped", end) for data in files.values()) for end in (30, 31, 32, 35)}
    print(f"model: densities as stated; {len(files)} files, stopped: {', '.join(f'{count} with {end}' for end, count in ends.items())}")


def main(words):
    if words == ["test"]:
        test()
    elif words in (["odd-numbers"], ["sheets"], ["written"]):
        for line in {"odd-numbers": odd_numbers, "sheets": sheets, "written": written}[words[0]]():
            print(*line)
    elif words == ["thousand-sheets"]:
        sys.stdout.buffer.write(file_of(*thousand_sheets()))
    elif len(words) == 2 and words[0] == "densities":
        for line in densities(pathlib.Path(words[1]).read_bytes()):
            print(*line)
    elif len(words) == 2 and words[0] == "density-files":
        write_density_files(pathlib.Path(words[1]))
    elif len(words) == 3 and words[0] in ("vectors", "calls"):
        for line in {"vectors": vectors, "calls": calls}[words[0]](int(words[1]), int(words[2])):
            print(*line)
    else:
        sys.exit(__doc__)


if __name__ == "__main__":
    main(sys.argv[1:])
