#!/usr/bin/env python3
"""Lists of frames for the linkage engine of document 01 with requests K1, K3, K4.

    generate.py KIND SEED LINES > list      a list, the same for the same seed
    generate.py answers < list > answers    the answers of the model below
    generate.py answers 4294967294 < list   the same, the system version not 0 at
                                            the start but this one
    generate.py mandates < list             how many reads under a mandate it has,
                                            by the row they would meet without it

KIND is one of
    mixed     all calls; deep states, chosen sets that conflict, every verdict
    reads     a set-up, then 95 reads in 100 lines
    edges     limits, eighth and ninth flow, a reach of 64, malformed lines
    versions  the system version driven past 65535: flows, users and calls of
              all kinds on either side of it
    noise     random bytes, broken frames, huge lines, no last line feed
    turns     the server's and the term bank's frames in turn, on one session
              number at a time

In all of them about half of the frames about sessions are the term bank's.
In mixed and reads the product is drawn for each frame, so that no program can
learn the order.  In reads there are no mandates, in the others only a few:
none is ever lifted, and with many most reads would be granted.

A list has LINES lines, or more where the kind needs them: a list of kind
edges has some 1500 at least, one of kind versions some 66600, one of kind
turns some 250.  Row 9 needs 4294967295 changes before it, and no list meets it.
A program that keeps 16 bits of a version is right up to 65535.  The mixed lists
of 150000 lines or more go past that, and those of kind versions always do.  Of
these the lists of even seeds have flows from version 256 on, those of seeds 1, 5,
9 and so on from 65530 on, those of seeds 3, 7, 11 and so on from 65537 on, and
forwarding is open till then.  Of the lists of kind turns the server's first flow
closes forwarding where the seed is odd, the term bank's where it is even.
"""

import random
import sys

USERS, ROLES, DATABASES, SESSIONS, FLOWS = 256, 64, 64, 16, 8
LAST_VERSION = 4294967295
VERSION_DIGITS = 8
FOUR_DIGITS = 65535         # the last version of four digits: lists go past it
PRODUCTS = SERVER, BANK = "server", "bank"


# ---------------------------------------------------------------- the model
# Slow, over sets of pairs, the definitions written out as document 01 has
# them.  It steers the lists and is a second opinion on the answers.

class Flow:
    def __init__(self, root, reach, version, deny, role_sets):
        self.root, self.reach, self.version = root, reach, version
        self.deny, self.role_sets = deny, role_sets


class Engine:
    def __init__(self, system=0):
        self.holds = set()          # (user, role)
        self.may_read = set()       # (role, database)
        self.forwards = set()       # (database, database)
        self.mandates = set()       # (role, database)
        self.system = system
        self.version = {u: 0 for u in range(USERS)}
        self.sessions = {}          # (product, number): list of flows
        self._roles = {}            # roles(u), kept until the user's roles change

    # Definitions.

    def roles(self, u):
        if u not in self._roles:
            self._roles[u] = frozenset(r for r in range(ROLES) if (u, r) in self.holds)
        return self._roles[u]

    def holders(self, r):
        return {u for (u, q) in self.holds if q == r}

    def reach(self, root):
        """The root and every database that forwarding leads to from it."""
        found = {root}
        while True:
            more = {e for (d, e) in self.forwards if d in found and e not in found}
            if not more:
                return frozenset(found)
            found |= more

    def readers(self, reach):
        """Roles that may read a database in the reach."""
        return {r for (r, d) in self.may_read if d in reach}

    def conflicting(self, reaches):
        """Roles c such that some user holds c and may statically read two flows."""
        readers = [self.readers(x) for x in reaches]

        def static(u, i):           # some role of u may read a database in reach i
            return any(r in readers[i] for r in self.roles(u))

        flows = range(len(reaches))
        linking = {u for u in {v for (v, r) in self.holds}
                   if any(static(u, i) and static(u, j) for i in flows for j in flows if i < j)}
        return {c for (u, c) in self.holds if u in linking}

    def parent(self, r, o):
        """r is a parent of o: some user holds both."""
        return any((u, r) in self.holds and (u, o) in self.holds for u in self.holders(r))

    def under_mandate(self, u, d):
        """K3: u holds a role with a mandate at d."""
        return any(e == d and (u, r) in self.holds for (r, e) in self.mandates)

    # Calls.  Each returns (number, answer); checks in the order of the rows.
    # Those about sessions are told the product first.

    def new_version(self, users):
        self.system += 1
        for u in users:
            self.version[u] = self.system

    def done(self):
        return 0, version(self.system)

    def assign(self, u, r):
        if r >= ROLES:
            return 2, ""
        if (u, r) in self.holds:
            return 3, ""
        if self.system == LAST_VERSION:
            return 9, ""
        self.holds.add((u, r))
        self._roles.pop(u, None)
        self.new_version({u})
        return self.done()

    def withdraw(self, u, r):
        if r >= ROLES:
            return 2, ""
        if (u, r) not in self.holds:
            return 4, ""
        self.holds.remove((u, r))
        self._roles.pop(u, None)
        return self.done()

    def permit(self, r, d):
        if r >= ROLES or d >= DATABASES:
            return 2, ""
        if (r, d) in self.may_read:
            return 3, ""
        who = self.holders(r)
        if who and self.system == LAST_VERSION:
            return 9, ""
        self.may_read.add((r, d))
        if who:
            self.new_version(who)
        return self.done()

    def revoke(self, r, d):
        if r >= ROLES or d >= DATABASES:
            return 2, ""
        if (r, d) not in self.may_read:
            return 4, ""
        if (r, d) in self.mandates:
            return 15, ""
        who = self.holders(r)
        if who and self.system == LAST_VERSION:
            return 9, ""
        self.may_read.remove((r, d))
        if who:
            self.new_version(who)
        return self.done()

    def mandate(self, r, d):
        if r >= ROLES or d >= DATABASES:
            return 2, ""
        if (r, d) in self.mandates:
            return 3, ""
        if (r, d) not in self.may_read:
            return 4, ""
        self.mandates.add((r, d))
        return self.done()

    def forward(self, d, e):
        if d >= DATABASES or e >= DATABASES:
            return 2, ""
        if any(len(flows) > 0 for flows in self.sessions.values()):
            return 5, ""
        if (d, e) in self.forwards:
            return 3, ""
        self.forwards.add((d, e))
        return self.done()

    def open(self, product, s):
        if s >= SESSIONS:
            return 2, ""
        if (product, s) in self.sessions:
            return 3, ""
        self.sessions[product, s] = []
        return self.done()

    def query(self, product, s, d):
        if s >= SESSIONS or d >= DATABASES:
            return 2, ""
        if (product, s) not in self.sessions:
            return 6, ""
        flows = self.sessions[product, s]
        if len(flows) == FLOWS:
            return 7, ""
        return 0, role_set(self.conflicting([f.reach for f in flows] + [self.reach(d)]))

    def add(self, product, s, d, chosen):
        if s >= SESSIONS or d >= DATABASES:
            return 2, ""
        if (product, s) not in self.sessions:
            return 6, ""
        flows = self.sessions[product, s]
        if len(flows) == FLOWS:
            return 7, ""
        reaches = [f.reach for f in flows] + [self.reach(d)]
        if not chosen <= self.conflicting(reaches):
            return 8, ""
        deny = (flows[-1].deny if flows else set()) | chosen
        parents = {r for r in {q for (u, q) in self.holds} if any(self.parent(r, o) for o in deny)}
        role_sets = [{r for r in parents if r in self.readers(x)} for x in reaches]
        flows.append(Flow(d, reaches[-1], self.system, frozenset(deny), role_sets))
        return 0, "%02x%02x%s" % (len(flows) - 1, len(reaches[-1]), version(self.system))

    def read(self, product, u, s, f, d):
        """K3: under a mandate 13 and 14 are passed, and no row is left after them."""
        row = self.free_read(product, u, s, f, d)
        return 0 if row in (13, 14) and self.under_mandate(u, d) else row

    def free_read(self, product, u, s, f, d):
        """The read as document 01 has it, without mandates."""
        if s >= SESSIONS or f >= FLOWS or d >= DATABASES:
            return 2
        if (product, s) not in self.sessions:
            return 6
        flows = self.sessions[product, s]
        if f >= len(flows):
            return 10
        flow = flows[f]
        if d not in flow.reach:
            return 11
        held = self.roles(u)
        if not any((r, d) in self.may_read for r in held):
            return 12
        if self.version[u] > flow.version:
            return 13
        return 14 if self.linkable(u, flow) else 0

    def linkable(self, u, flow):
        held = self.roles(u)
        return (any(r in flow.deny for r in held)
                and len([x for x in flow.role_sets if any(r in x for r in held)]) >= 2)

    def show(self, product, s, f):
        if s >= SESSIONS or f >= FLOWS:
            return 2, ""
        if (product, s) not in self.sessions:
            return 6, ""
        flows = self.sessions[product, s]
        if f >= len(flows):
            return 10, ""
        flow = flows[f]
        return 0, "%s%s%s" % (version(flow.version), role_set(flow.deny),
                              "".join(role_set(x) for x in flow.role_sets))

    # Frames: the call, whose it is, how many fields of two digits, and whether
    # a role set follows them.

    def verdict(self, *x):
        return self.read(*x), ""

    FRAMES = {
        "01": (assign, None, 2, False), "02": (withdraw, None, 2, False),
        "03": (permit, None, 2, False), "04": (revoke, None, 2, False),
        "05": (forward, None, 2, False), "10": (mandate, None, 2, False),
        "06": (open, SERVER, 1, False), "0b": (open, BANK, 1, False),
        "07": (query, SERVER, 2, False), "0c": (query, BANK, 2, False),
        "08": (add, SERVER, 2, True), "0d": (add, BANK, 2, True),
        "09": (verdict, SERVER, 4, False), "0e": (verdict, BANK, 4, False),
        "0a": (show, SERVER, 2, False), "0f": (show, BANK, 2, False),
    }

    def answer(self, line):
        """The answer line, without its line feed, to a line without its own."""
        try:
            text = line.decode("ascii")
        except UnicodeDecodeError:
            return "01"
        kind, rest = text[:2], text[2:]
        if kind not in self.FRAMES or not all(c in "0123456789abcdef" for c in rest):
            return "01"
        function, product, fields, chosen = self.FRAMES[kind]
        if len(rest) != 2 * fields + (16 if chosen else 0):
            return "01"
        values = [int(rest[i:i + 2], 16) for i in range(0, 2 * fields, 2)]
        if chosen:
            mask = int(rest[2 * fields:], 16)
            values.append({r for r in range(ROLES) if mask // 2 ** r % 2 == 1})
        if product is not None:
            values.insert(0, product)
        number, rest = function(self, *values)
        return "%02x%s" % (number, rest)


def role_set(roles):
    return "%016x" % sum(2 ** r for r in roles)


def version(number):
    return "%0*x" % (VERSION_DIGITS, number)


def answers(start=0):
    engine, data = Engine(start), sys.stdin.buffer.read()
    lines = data.split(b"\n")
    for line in lines[:-1]:
        print(engine.answer(line))
    if lines[-1]:
        print("01")


def mandates():
    """Counts the reads under a mandate in a list, by product."""
    engine, table = Engine(), {}
    rows = [2, 6, 10, 11, 12, "13 alone", "14 alone", "13 and 14", "none"]
    for line in sys.stdin.buffer.read().split(b"\n")[:-1]:
        if engine.answer(line) != "01" and line[:2] in (b"09", b"0e"):
            product = SERVER if line[:2] == b"09" else BANK
            u, s, f, d = (int(line[i:i + 2], 16) for i in (2, 4, 6, 8))
            if engine.under_mandate(u, d):
                row = engine.free_read(product, u, s, f, d)
                if row == 13:
                    linkable = engine.linkable(u, engine.sessions[product, s][f])
                    row = "13 and 14" if linkable else "13 alone"
                row = {0: "none", 14: "14 alone"}.get(row, row)
                table[product, row] = table.get((product, row), 0) + 1
    print("without it" + "".join("%10s" % p for p in PRODUCTS))
    for row in rows:
        print("%-10s" % row + "".join("%10d" % table.get((p, row), 0) for p in PRODUCTS))


# ------------------------------------------------------------------ frames

def frame(kind, *fields):
    return "%02x" % kind + "".join("%02x" % x for x in fields)


def ask(product, kind, *fields):
    """The server's frame of that kind, 6 to 10, or the term bank's like of it."""
    return frame(kind + 5 * PRODUCTS.index(product), *fields)


def frame_add(product, s, d, roles):
    return ask(product, 8, s, d) + role_set(roles)


class List:
    """The lines so far, and the engine after them."""

    def __init__(self, kind, seed, lines):
        # Only random() is used: its stream is the same for all versions of Python.
        self.random = random.Random("%s %s" % (kind, seed)).random
        self.engine = Engine()
        # Without kind 10 the lists of reads are those of before K3, and their
        # times can be compared.
        self.last_kind = 15 if kind == "reads" else 16
        self.wanted = lines
        self.count = 0
        self.parts = []

    # Chance.

    def below(self, n):
        return int(self.random() * n)

    def between(self, low, high):
        return low + self.below(high - low + 1)

    def chance(self, p):
        return self.random() < p

    def pick(self, seq):
        return seq[int(self.random() * len(seq))]

    def some(self, seq, n):
        seq = list(seq)
        for i in range(min(n, len(seq))):
            j = self.between(i, len(seq) - 1)
            seq[i], seq[j] = seq[j], seq[i]
        return seq[:n]

    def weighted(self, table):
        """table: list of (weight, thing)"""
        x = self.random() * sum(w for (w, _) in table)
        for w, thing in table:
            x -= w
            if x < 0:
                return thing
        return table[-1][1]

    def product(self):
        return self.pick(PRODUCTS)

    # Output.

    def quiet(self, text):
        """A line that the engine is not asked about: it changes nothing."""
        self.parts.append(text.encode("latin-1") + b"\n")
        self.count += 1
        if len(self.parts) >= 10000:
            self.flush()

    def line(self, text):
        """A line; returns the number answered."""
        self.quiet(text)
        return int(self.engine.answer(text.encode("latin-1"))[:2], 16)

    def flush(self):
        sys.stdout.buffer.write(b"".join(self.parts))
        self.parts = []

    def more(self):
        return self.count < self.wanted

    def progress(self):
        return self.count / max(1, self.wanted)

    # Malformed lines.

    def any_frame(self):
        kind = self.between(1, self.last_kind)
        fields = {6: 1, 8: 10, 9: 4, 11: 1, 13: 10, 14: 4}.get(kind, 2)
        return frame(kind, *[self.below(256) for _ in range(fields)])

    def small_frame(self):
        """A frame that may well be accepted."""
        kind = self.between(1, self.last_kind)
        if kind in (8, 13):
            return frame(kind, self.below(4), self.below(8)) + role_set([])
        fields = {6: 1, 9: 4, 11: 1, 14: 4}.get(kind, 2)
        return frame(kind, *[self.below(4) for _ in range(fields)])

    def malformed(self):
        good = self.pick([self.any_frame, self.small_frame])()
        at = self.below(len(good))
        how = self.below(12)
        if how == 0:
            return ""
        if how == 1:                                        # cut
            return good[:at]
        if how == 2:                                        # one digit or field too many
            return good + self.pick(["0", "00", "f", "a0"])
        if how == 3:                                        # a byte that is no digit
            return good[:at] + self.pick("\0\r\t gGzZ/:@`x-+_\x7f\x80\xff\x0b\x1c") + good[at + 1:]
        if how == 4:                                        # capitals
            up = good.upper()
            return up if up != good else good[:at] + "A" + good[at + 1:]
        if how == 5:
            return good + "\r"
        if how == 6:
            return self.pick([" ", "\t", "0x", "\0"]) + good
        if how == 7:
            return good + self.pick([" ", "\0", "\t", "\0\0"])
        if how == 8:                                        # unknown kind
            return self.pick(["00", "12", "11", "1a", "1b", "1f", "80", "a0", "e0", "ff"]) + good[2:]
        if how == 9:                                        # the length of another kind
            kind = "%02x" % self.between(1, self.last_kind)
            return kind + self.any_frame()[2:] + self.pick(["", "00"])
        if how == 10:                                       # overlong
            return good + "0" * self.pick([1, 2, 13, 16, 23, 64, 300])
        return good[:at] + " " + good[at:]


# --------------------------------------------------- mixed lists and reads

class World(List):
    """Steady users hold steady roles that seldom change, so that flows can
    still be read long after; changes go mostly to the other users and roles."""

    def __init__(self, kind, seed, lines):
        super().__init__(kind, seed, lines)
        some = self.some
        users = some(range(1, 255), self.between(16, 40))
        roles = some(range(1, 63), self.between(12, 26))
        self.databases = some(range(1, 63), self.between(14, 30)) + [0, 63]
        cut_u, cut_r = len(users) * 3 // 5, len(roles) * 3 // 5
        self.steady_users, self.other_users = users[:cut_u] + [0], users[cut_u:] + [255]
        self.steady_roles, self.other_roles = roles[:cut_r] + [63], roles[cut_r:] + [0]
        self.roles_all = self.steady_roles + self.other_roles
        self.users_all = self.steady_users + self.other_users
        self.unrest = min(0.04, 200 / max(1, lines))    # changes of steady users and roles
        # Of each product: its flows (session, flow number, reach), and reads by
        # their verdict.
        self.flows = {p: [] for p in PRODUCTS}
        self.pool = {p: {n: [] for n in (0, 11, 12, 13, 14, "passes 13", "passes 14")}
                     for p in PRODUCTS}
        # How many mandates there may be at the end.
        self.duties = self.between(6, 9) if self.last_kind == 16 else 0

    # Set-up.

    def set_up(self):
        """Frames for the tables, refused ones among them; to be shuffled."""
        frames = []
        for u in self.steady_users:
            frames += [frame(1, u, r) for r in self.some(self.steady_roles, self.between(1, 4))]
        for u in self.other_users:
            frames += [frame(1, u, r) for r in self.some(self.roles_all, self.between(1, 4))]
        for r in self.steady_roles:
            frames += [frame(3, r, d) for d in self.some(self.databases, self.between(0, 5))]
        for r in self.other_roles:
            frames += [frame(3, r, d) for d in self.some(self.databases, self.between(0, 3))]
        for _ in range(self.between(3, len(self.databases))):
            frames.append(frame(5, self.pick(self.databases), self.pick(self.databases)))
        frames.append(frame(5, *[self.pick(self.databases)] * 2))
        return self.some(frames, len(frames))

    def early(self, p):
        """A session, or an addition that is refused: one flow alone conflicts
        with nothing.  Forwarding stays open."""
        s = self.pick([0, 7, 15])
        return ask(p, 6, s) if self.chance(0.5) else \
            frame_add(p, s, self.root(), self.some(self.roles_all, self.between(1, 2)))

    # Changes.

    def change(self):
        steady = self.chance(self.unrest)
        u = self.pick(self.steady_users if steady else self.other_users)
        r = self.pick(self.steady_roles if steady else self.other_roles)
        d = self.pick(self.databases)
        kind = self.weighted([(5, 1), (4, 2), (4, 3), (4, 4)])
        e = self.engine
        if self.chance(0.03):
            return frame(kind, u, 64 + self.below(192)) if kind <= 2 else \
                frame(kind, *self.pick([(64 + self.below(192), d), (r, 64 + self.below(192))]))
        if self.chance(0.75):               # one that is accepted, if there is one
            if kind == 2:
                r = self.pick(sorted(e.roles(u)) or [r])
            elif kind == 4:
                pairs = [p for p in sorted(e.may_read)
                         if steady or p[0] in self.other_roles] if self.chance(0.5) else []
                r, d = self.pick(pairs or [(r, d)])
            elif kind == 1:
                r = self.pick([q for q in self.roles_all if (u, q) not in e.holds] or [r]) \
                    if not steady else r
        return frame(kind, u, r) if kind <= 2 else frame(kind, r, d)

    # Mandates.

    def early_duties(self, frames):
        """The frames with some mandates put among them, before or behind the
        permission."""
        pairs = [f[2:] for f in frames if f[:2] == "03"]
        frames = list(frames)
        for pair in self.some(pairs, 2):
            for _ in range(2):
                frames.insert(self.below(len(frames) + 1), "10" + pair)
        return frames

    def duty(self):
        """A mandate that is refused, or a revocation under a mandate.  One that
        is accepted, if it is time for one."""
        e = self.engine
        if len(e.mandates) < self.duties * self.progress():
            return frame(16, *self.pick(self.dutiful() or [(0, 0)]))
        r, d = self.pick(self.roles_all), self.pick(self.databases)
        way = self.weighted([(1, 2), (2, 3), (2, 4), (4, 15)])
        if way == 2:
            r, d = self.pick([(r, 64 + self.below(192)), (64 + self.below(192), d)])
        elif way == 4:
            while (r, d) in e.may_read:
                r, d = self.below(ROLES), self.below(DATABASES)
        elif e.mandates:
            r, d = self.pick(sorted(e.mandates))
        else:
            r, d = self.pick([(64, d), (r, 64)])
        return frame(4 if way == 15 else 16, r, d)

    def dutiful(self):
        """Pairs that may get a mandate: mostly such that a read which is refused
        now would pass."""
        e = self.engine
        p, row = self.product(), self.pick([13, 14])
        stock = [x for x in self.pool[p][row] if e.read(p, *x) == row]
        if stock and self.chance(0.7):
            u, _, _, d = self.pick(stock)
            return [(r, d) for r in sorted(e.roles(u)) if (r, d) in e.may_read]
        return sorted(e.may_read - e.mandates)

    def verdict(self, p, x):
        """The number answered to a read; told apart if it passes by a mandate."""
        row, free = self.engine.read(p, *x), self.engine.free_read(p, *x)
        return row if row == free else "passes %d" % free

    # Sessions and flows, each of one product.

    def opened(self, p):
        return [s for s in range(SESSIONS) if (p, s) in self.engine.sessions]

    def closed(self, p):
        return [s for s in range(SESSIONS) if (p, s) not in self.engine.sessions]

    def growing(self, p):
        return [s for s in self.opened(p) if len(self.engine.sessions[p, s]) < FLOWS]

    def full(self, p):
        return [s for s in self.opened(p) if len(self.engine.sessions[p, s]) == FLOWS]

    def root(self):
        return self.pick(self.databases) if self.chance(0.9) else self.below(DATABASES)

    def conflicts(self, p, s, d):
        """The roles that conflict in the session with a flow of that root."""
        flows = self.engine.sessions.get((p, s), [])
        return sorted(self.engine.conflicting([f.reach for f in flows] + [self.engine.reach(d)]))

    def real_addition(self, p, s=None):
        """An addition with a chosen set that conflicts; accepted."""
        growing = self.growing(p) if s is None else [s]
        if not growing:
            return
        s = max(growing, key=lambda x: len(self.engine.sessions[p, x])) if self.chance(0.5) \
            else self.pick(growing)
        for _ in range(4):                  # look for a root that conflicts
            d = self.root()
            found = self.conflicts(p, s, d)
            if found:
                break
        size = self.weighted([(1, 0), (5, 1), (3, 2), (1, 3), (0.3, 64)])
        if self.line(frame_add(p, s, d, self.some(found, size))) == 0:
            self.added(p, s)

    def added(self, p, s):
        flows = self.engine.sessions[p, s]
        self.flows[p].append((s, len(flows) - 1, sorted(flows[-1].reach)))

    def gone(self, p):
        """A denied role that nobody holds any more: chosen again, and in the
        constraint of the next flow."""
        e = self.engine
        some = [s for s in self.growing(p) if e.sessions[p, s] and e.sessions[p, s][-1].deny]
        if not some:
            return
        s = self.pick(some)
        flows = e.sessions[p, s]
        role = min(self.some(sorted(flows[-1].deny), 3), key=lambda r: len(e.holders(r)))
        who = sorted(e.holders(role))
        for u in who:
            self.line(frame(2, u, role))
        d = self.pick([d for (r, d) in sorted(e.may_read) if r == role] or [self.root()])
        self.line(frame_add(p, s, d, [role]))
        self.real_addition(p, s)
        self.quiet(ask(p, 10, s, len(flows) - 1))
        for u in who:
            if self.chance(0.7):
                self.line(frame(1, u, role))

    def wrong_roles(self, p, s, d):
        """A set that has a role which doesn't conflict."""
        found = self.conflicts(p, s, d)
        others = [r for r in range(ROLES) if r not in found]
        flows = self.engine.sessions.get((p, s), [])
        gone = [r for r in others if flows and r in flows[-1].deny]
        if gone and self.chance(0.5):                   # denied before, but no conflict now
            return self.some(gone, 1)
        return self.some(found, self.below(3)) + self.some(others, self.between(1, 2))

    def wrong_addition(self, p, dear):
        """An addition that is refused, or accepted by chance.  Only dear ones
        come as far as row 8."""
        roles = self.some(range(ROLES) if self.chance(0.3) else self.roles_all, self.between(0, 4))
        d = self.root()
        way = self.weighted([(4 if dear else 0, 8), (2, 7), (2, 6), (1, 2)])
        s = {8: self.growing, 7: self.full, 6: self.closed}.get(way, self.growing)(p)
        s = self.pick(s) if s else 16 + self.below(240)
        if way == 2:
            s, d = self.pick([(s, 64 + self.below(192)), (16 + self.below(240), d)])
        if way == 8:
            roles = self.wrong_roles(p, s, d)
        if self.line(frame_add(p, s, d, roles)) == 0:
            self.added(p, s)
            assert sum(len(f) for f in self.engine.sessions.values()) \
                == sum(len(f) for f in self.flows.values())

    # Queries and reads, each of one product.

    def query(self, p):
        s = self.weighted([(10, self.growing), (1, self.full), (1, self.closed)])(p)
        s = self.pick(s) if s else self.below(SESSIONS)
        d = self.root()
        if self.chance(0.03):
            s, d = self.pick([(s, 64 + self.below(192)), (16 + self.below(240), d)])
        self.quiet(ask(p, 7, s, d))

    def show(self, p):
        if self.flows[p] and self.chance(0.9):
            s, f, _ = self.pick(self.flows[p])
        else:
            s, f = self.between(0, SESSIONS), self.between(0, FLOWS)
        self.quiet(ask(p, 10, s, f))

    def read(self, p, outside):
        """outside: the part of reads that meet rows 2, 6 and 10."""
        flows = self.flows[p]
        if not flows or self.chance(outside):
            way = self.below(3)
            u, s, f, d = self.pick(self.users_all), self.below(16), self.below(8), self.root()
            if way == 0:
                s, f, d = self.pick([(s, f, 64 + self.below(192)), (s, 8 + self.below(248), d),
                                     (16 + self.below(240), f, d)])
            elif way == 1:
                s = self.pick(self.closed(p) or [s])
            else:
                s = self.pick(self.growing(p) or [s])
                f = self.between(min(7, len(self.engine.sessions.get((p, s), []))), 7)
            self.quiet(ask(p, 9, u, s, f, d))
            return
        # One candidate into the pool of its verdict, then one out of the pool
        # of the verdict that is wanted.
        last = len(flows)
        s, f, reach = flows[max(self.below(last), self.below(last))]     # sooner a late one
        u = self.pick(self.steady_users if self.chance(0.8) else self.other_users) \
            if self.chance(0.95) else self.below(USERS)
        d = self.pick(reach) if self.chance(0.9) else self.below(DATABASES)
        pool = self.pool[p][self.verdict(p, (u, s, f, d))]
        if len(pool) < 200:
            pool.append((u, s, f, d))
        else:
            pool[self.below(200)] = (u, s, f, d)
        wanted = self.weighted([(34, 0), (26, 14), (15, 13), (15, 12), (10, 11)]
                               + [(3, "passes 13"), (3, "passes 14")] * bool(self.engine.mandates))
        for _ in range(3):
            stock = self.pool[p][wanted]
            if not stock:
                break
            i = self.below(len(stock))
            if self.verdict(p, stock[i]) == wanted:
                u, s, f, d = stock[i]
                break
            stock[i] = stock[-1]            # the tables have changed since
            stock.pop()
        self.quiet(ask(p, 9, u, s, f, d))

    def story(self, p):
        """One user's reads of the flows of one session, before and after a
        role is withdrawn, and after it came back."""
        stock = [x for x in self.pool[p][14] if self.engine.read(p, *x) == 14]
        if not stock:
            return
        u, s, f, _ = self.pick(stock)
        flows = self.engine.sessions[p, s]

        def tour():
            for g, flow in self.some(list(enumerate(flows)), FLOWS):
                at = [d for d in sorted(flow.reach)
                      if any((r, d) in self.engine.may_read for r in self.engine.roles(u))]
                if at:
                    self.quiet(ask(p, 9, u, s, g, self.pick(at)))

        held, deny = sorted(self.engine.roles(u)), flows[f].deny
        role = self.pick([r for r in held if r not in deny] or held) if self.chance(0.7) \
            else self.pick(held)
        tour()
        self.line(frame(2, u, role))
        tour()
        if self.chance(0.6):
            self.line(frame(1, u, role))
            tour()

    def duty_story(self, p):
        """A user's reads at a database before and after a role with a mandate
        there is withdrawn, and after it came back."""
        stock = [x for n in ("passes 13", "passes 14") for x in self.pool[p][n]
                 if self.verdict(p, x) == n]
        if not stock:
            return
        u, s, f, d = self.pick(stock)
        roles = [r for r in sorted(self.engine.roles(u)) if (r, d) in self.engine.mandates]

        def tour():
            for q in self.some(PRODUCTS, 2):
                self.quiet(ask(q, 9, u, s, f, d))

        tour()
        self.line(frame(4, self.pick(roles), d))
        for r in roles:
            self.line(frame(2, u, r))
            tour()
        for r in self.some(roles, len(roles)):
            self.line(frame(1, u, r))
            tour()

    # Versions.

    def toggle(self):
        """A change that raises the version by one, in one line."""
        held = sorted({r for (u, r) in self.engine.holds if r in self.other_roles})
        if not held:
            return self.change()
        r, d = self.pick(held), self.pick(self.databases)
        if (r, d) in self.engine.mandates:
            return self.change()
        return frame(4 if (r, d) in self.engine.may_read else 3, r, d)


def mixed(seed, lines):
    w = World("mixed", seed, lines)
    frames = w.early_duties(w.set_up()[:max(10, lines // 4)])
    for i, f in enumerate(frames):
        w.line(f)
        if w.chance(0.08):
            w.line(w.pick(frames[:i + 1]))              # the pair is there already
        if w.chance(0.04):
            w.line(w.pick(["05", "03", "01", "10"]) + "%02x%02x" % (w.below(80), w.below(80)))
        if w.chance(0.03):
            w.line(w.malformed())
        if w.chance(0.03):
            w.read(w.product(), 1)
        if w.chance(0.03):
            w.query(w.product())
        if w.chance(0.06):
            w.line(w.early(w.product()))
    additions = w.between(100, SESSIONS * FLOWS)        # in each product
    # The part of changes in a long list is less, as before K4, when they could
    # give 65535 versions in all: so times can be compared.
    changes = min(24, 40000 / max(1, lines) * 100)
    dear = min(1, 20000 / max(1, lines))
    while w.more():
        if w.chance(min(0.006, 60 / max(1, lines))):
            w.story(w.product())
        if w.chance(min(0.003, 60 / max(1, lines))):
            w.duty_story(w.product())
        for p in w.some([p for p in PRODUCTS if len(w.flows[p]) < additions * w.progress()], 2):
            if w.closed(p) and (not w.growing(p) or len(w.opened(p)) < 14 * w.progress()):
                w.line(ask(p, 6, w.pick(w.closed(p))))
            if w.chance(0.08):
                w.gone(p)
            else:
                w.real_addition(p)
        # A long list goes past 65535: every second line rises when it is time.
        missing = FOUR_DIGITS + 1 - w.engine.system
        if lines >= 150000 and 0 < missing and (0.97 * lines - w.count) / 2 <= missing:
            w.line(w.toggle())
        call = w.weighted([(45, "read"), (changes, "change"), (5, "query"), (5, "add"),
                           (5, "show"), (2, "forward"), (1.5, "open"), (4, "malformed"),
                           (3, "duty")])
        p = w.product()
        if call == "read":
            w.read(p, 0.12)
        elif call == "change":
            w.line(w.change())
        elif call == "query":
            w.query(p)
        elif call == "add":
            w.wrong_addition(p, w.chance(dear))
        elif call == "show":
            w.show(p)
        elif call == "forward":
            if any(w.flows.values()) or w.chance(0.3):
                w.line(frame(5, w.root(), w.root() if w.chance(0.8) else w.below(256)))
        elif call == "open":
            s = w.pick(w.opened(p)) if w.opened(p) and w.chance(0.7) else 16 + w.below(240)
            w.line(ask(p, 6, s))
        elif call == "duty":
            w.line(w.duty())
        else:
            w.line(w.malformed())
    w.flush()


def reads(seed, lines):
    w = World("reads", seed, lines)
    for f in w.set_up():
        w.line(f)
    for s in w.some(range(SESSIONS), SESSIONS):
        for p in w.some(PRODUCTS, 2):
            w.line(ask(p, 6, s))
    additions = SESSIONS * FLOWS if lines >= 4000 else max(8, lines // 40)      # in each product
    for _ in range(additions):
        for p in w.some(PRODUCTS, 2):
            w.real_addition(p)
            if w.chance(0.3):
                w.line(w.change())
    changes = min(3.0, 30000 / max(1, lines) * 100)
    while w.more():
        if w.chance(min(0.001, 6 / max(1, lines))):
            w.story(w.product())
        p = w.product()
        if w.chance(0.95):
            w.read(p, 0.01)
        elif w.chance(changes / 5):
            w.line(w.change())
        else:
            call = w.below(4)
            if call == 0:
                w.query(p)
            elif call == 1:
                w.show(p)
            elif call == 2:
                w.wrong_addition(p, False)
            else:
                w.line(w.malformed() if w.chance(0.2) else frame(5, w.root(), w.root()))
    w.flush()


# ------------------------------------------------------------------- edges

def edges(seed, lines):
    w = List("edges", seed, lines)
    top = [0x3f, 0x40, 0x41, 0x7f, 0x80, 0xff]

    # Malformed lines, on a fresh engine.
    good = ["010000", "020000", "030000", "040000", "050000", "100000"]
    for p in PRODUCTS:
        good += [ask(p, 6, 0), ask(p, 7, 0, 0), frame_add(p, 0, 0, []), ask(p, 9, 0, 0, 0, 0),
                 ask(p, 10, 0, 0)]
    for g in good:
        n = len(g)
        for bad in (g[:-1], g[:-2], g + "0", g + "00", g + "\r", g + " ", g + "\0", " " + g,
                    g[:2], g[:1], g[:n // 2] + "\0" + g[n // 2 + 1:], g[:-1] + "\r",
                    g[:-1] + "A", g[:-1] + "g", g[:-1] + "/", g[:-1] + ":", g[:-1] + "`",
                    g[:-1] + "@", g[:-1] + "\x80", g[:-1] + "\xb0", g[:-1] + "\xff",
                    "\x80" + g[1:], "0" + "\x00" + g[2:], g + g, g + "\t" + g):
            w.line(bad)
    for bad in ("", "\r", "\0", " ", "0", "00", "0b", "0f", "0A", "0A0000", "0B00", "0F0000",
                "000000", "0b0000", "0f00", "10", "1000", "10000000", "1100", "110000", "1a0000",
                "a00000", "ff0000", "0x0600", "\xef\xbb\xbf0600", "0" * 1000, "f" * 65535,
                "06" * 40000, "\0" * 70000):
        w.line(bad)

    # Row 2 on a fresh engine: limits before everything else.
    for x in top:
        for kind in (1, 2):
            w.line(frame(kind, 255, x))
        for kind in (3, 4, 16):
            w.line(frame(kind, x, 0x40))
            w.line(frame(kind, 0x40, x))
        w.line(frame(5, x, 0x40))
        w.line(frame(5, 0x40, x))
        for p in PRODUCTS:
            for s in (0x0f, 0x10):
                w.line(ask(p, 7, s, x))
                w.line(frame_add(p, s, x, []))
                w.line(frame_add(p, s, x, [63]))
                w.line(ask(p, 9, 0, s, 7, x))
                w.line(ask(p, 9, 0, s, 8, x))
            w.line(ask(p, 10, 15, x))
            w.line(ask(p, 10, x, 7))
    for s, f in ((15, 7), (15, 8), (16, 7), (16, 8)):
        for p in PRODUCTS:
            w.line(ask(p, 10, s, f))
            w.line(ask(p, 9, 255, s, f, 63))

    # Tables at their limits.
    for u in (0, 255):
        for r in (0, 0x3f, 0x40):
            w.line(frame(2, u, r))
            w.line(frame(1, u, r))
            w.line(frame(1, u, r))
            w.line(frame(2, u, r))
            w.line(frame(2, u, r))
            w.line(frame(1, u, r))
    for r in (0, 0x3f, 0x40):
        for d in (0, 0x3f, 0x40):
            w.line(frame(4, r, d))
            w.line(frame(16, r, d))
            w.line(frame(3, r, d))
            w.line(frame(3, r, d))
    w.line(frame(3, 9, 9))                              # nobody holds role 9
    w.line(frame(4, 9, 9))
    w.line(frame(4, 9, 9))
    for x in (0x3e, 0x3e, 0x40):                        # nor role 3e
        w.line(frame(16, x, 0x3e))
        w.line(frame(3, x, 0x3e))
        w.line(frame(16, x, 0x3e))
        w.line(frame(4, x, 0x3e))

    # A chain through all 64 databases, in an order of the seed's; the reach of
    # its first is 64, of its last 1 or, by forwarding to itself, still 1.
    chain = w.some(range(DATABASES), DATABASES)
    for d, e in w.some(list(zip(chain, chain[1:])), DATABASES - 1):
        w.line(frame(5, d, e))
    w.line(frame(5, chain[0], chain[1]))
    w.line(frame(5, chain[-1], chain[-1]))
    w.line(frame(5, chain[-1], chain[-1]))
    w.line(frame(5, chain[3], chain[3]))
    if w.chance(0.3):
        w.line(frame(5, chain[-1], chain[0]))           # a cycle: every reach is 64
    w.line(frame(5, 0x3f, 0x40))
    w.line(frame(5, 0x40, 0x3f))

    # Sessions: 16 to 31 are not the other product's.
    for s in (0, 0, 0x0f, 0x0f, 0x10, 0x1f, 0x20, 0xff):
        for p in PRODUCTS:
            w.line(ask(p, 6, s))
    for p in PRODUCTS:
        w.line(ask(p, 7, 1, 0))
        w.line(ask(p, 9, 0, 1, 0, 0))
        w.line(ask(p, 10, 1, 0))
        w.line(frame_add(p, 1, 0, []))

    # Flow 0 to flow 8 of the sessions; choices that conflict and that do not.
    # The products take turns, and the seed says which is first.
    def conflicts(p, s, d):
        flows = w.engine.sessions[p, s]
        return sorted(w.engine.conflicting([f.reach for f in flows] + [w.engine.reach(d)]))

    order = w.some(PRODUCTS, 2)
    for s in (0, 15):
        roots = [chain[0], chain[-1], chain[0]] + [w.pick(chain) for _ in range(6)]
        for i, root in enumerate(roots):
            for p in order:
                d = root if w.chance(0.7) else w.pick(chain)
                w.line(ask(p, 7, s, d))
                w.line(ask(p, 10, s, min(i, 8)))
                w.line(frame_add(p, s, d, [5]))         # nobody holds role 5
                if i == 0:
                    w.line(frame_add(p, s, d, [63]))    # one flow conflicts with nothing
                chosen = w.some(conflicts(p, s, d), 1) if i < 8 and w.chance(0.6) else []
                w.line(frame_add(p, s, d, chosen))
                w.line(frame(5, 0, 1))                  # closed, also for a pair that is there
                w.line(frame(5, chain[0], chain[1]))
                for f in (i, i + 1):
                    w.line(ask(p, 10, s, f))
                    for u in (0, 255, 7):
                        w.line(ask(p, 9, u, s, f, d))
                        w.line(ask(p, 9, u, s, f, 0x3f))
        for p in order:
            w.line(frame_add(p, s, 0x40, []))
            w.line(frame_add(p, s, 0, range(64)))

    # A mandate at the limits.  Reads at its database pass from now on, those
    # at the others don't.
    r, d = w.pick([0, 0x3f]), w.pick([0, 0x3f])
    for kind in (16, 16, 4, 3):
        w.line(frame(kind, r, d))
    for s in (0, 15):
        for f in range(9):
            for p in order:
                w.line(ask(p, 9, w.pick([0, 255]), s, f, d))
                w.line(ask(p, 9, w.pick([0, 255]), s, f, 0x3f - d))

    # Lines at the limits by chance.
    values = [0, 1, 0x3e, 0x3f, 0x40, 0x41, 0x7f, 0x80, 0xff]
    users, sessions, flows = [0, 1, 7, 255], [0, 0, 1, 2, 14, 15, 15, 16, 17, 255], [0, 1, 6, 7, 8, 9, 255]
    roles = [0, 0, 1, 0x3f, 0x3f, 0x40, 0xff]
    databases = [0, 0, 1, 0x3e, 0x3f, 0x3f, 0x40, 0xff] + chain[:2] + chain[-2:]
    while w.more():
        kind = w.weighted([(3, 1), (3, 2), (2, 3), (2, 4), (1, 5), (0.5, 6), (2, 7), (2, 8),
                           (8, 9), (3, 10), (2, 0), (1, 99), (1, 16)])
        p, u, s, f = w.product(), w.pick(users), w.pick(sessions), w.pick(flows)
        r, d = w.pick(roles), w.pick(databases)
        if kind in (1, 2):
            w.line(frame(kind, u, r))
        elif kind in (3, 4):
            w.line(frame(kind, r, d))
        elif kind == 16:
            # A fourth only by chance, so that other permissions can be revoked.
            if (r, d) in w.engine.may_read and len(w.engine.mandates) >= 3:
                r, d = w.pick(sorted(w.engine.mandates))
            w.line(frame(w.pick([16, 16, 4]), r, d))
        elif kind == 5:
            w.line(frame(5, d, w.pick(databases)))
        elif kind == 6:
            w.line(ask(p, 6, s))
        elif kind == 7:
            w.line(ask(p, 7, s, d))
        elif kind == 8:
            chosen = w.pick([[], [], [0], [63], [0, 63], range(64), [32], [31]])
            if len(w.engine.sessions.get((p, s), [0] * FLOWS)) < FLOWS and w.chance(0.5):
                chosen = conflicts(p, s, min(d, 63))
            w.line(frame_add(p, s, d, chosen))
        elif kind == 9:
            w.line(ask(p, 9, u, s, f, d))
        elif kind == 10:
            w.line(ask(p, 10, s, f))
        elif kind == 0:
            w.line(w.malformed())
        else:
            w.line(frame(w.between(1, 16), *[w.pick(values) for _ in range(w.pick([1, 2, 4]))]))
    w.flush()


# ---------------------------------------------------------------- versions

def versions(seed, lines):
    w = List("versions", seed, lines)
    e = w.engine
    # Early flows close forwarding long before 65535; with late ones it is
    # still open at 65536.
    case = int(seed) % 4 if str(seed).lstrip("-").isdigit() else w.below(4)
    early, late = case % 2 == 0, case == 3
    users, roles, databases = [0, 1, 2, 3, 254, 255], [0, 1, 2, 3, 62, 63], list(range(6)) + [62, 63]
    held = roles[:-1]                                   # role 63 is for one user alone
    # Users who get a version near 65535 and keep it, one who has its version
    # from the start, and one who gets 32768.  Role 24 is theirs and reads all
    # databases; each of the first has the role twelve below its own number too.
    keepers, first, middle, theirs = list(range(16, 36)), 36, 37, 24
    readers = keepers + [first, middle]
    apart = set(range(4, 25))
    sessions = [0, 1, 15]
    for u in users:
        for r in w.some(held, w.between(2, 3)):
            w.line(frame(1, u, r))
    w.line(frame(1, 9, 63))
    for d in databases:
        w.line(frame(3, theirs, d))                     # nobody holds it yet
    w.line(frame(1, first, theirs))
    for r in held:
        for d in w.some(databases, 3):
            w.line(frame(3, r, d))
    for _ in range(5):
        w.line(frame(5, w.pick(databases), w.pick(databases)))
    for s in sessions:
        for p in PRODUCTS:
            w.line(ask(p, 6, s))

    def add(p, s, denied=()):
        """A flow; of the keepers' roles none but those named is chosen."""
        flows = e.sessions[p, s]
        d = w.pick(databases)
        found = sorted(e.conflicting([f.reach for f in flows] + [e.reach(d)])) \
            if len(flows) < FLOWS else []
        chosen = w.some([r for r in found if r not in apart], w.between(0, 2))
        return w.line(frame_add(p, s, d, chosen + [r for r in denied if r in found]))

    def pair():
        """A role that somebody holds, and a database; no mandate is there."""
        r, d = w.pick(held), w.pick(databases)
        while not e.holders(r) or (r, d) in e.mandates:
            r, d = w.pick(held), w.pick(databases)
        return r, d

    def rise():
        """One line, one version."""
        if w.chance(0.2):
            u, r = w.pick(users), w.pick(held)
            if (u, r) not in e.holds:
                return frame(1, u, r)
        r, d = pair()
        return frame(4 if (r, d) in e.may_read else 3, r, d)

    def risen(text):
        before = e.system
        w.line(text)
        assert e.system == before + 1

    def look():
        """A line that raises nothing."""
        u, r, d = w.pick(users + [9]), w.pick(roles), w.pick(databases)
        p, s, f = w.product(), w.pick(sessions), w.below(8)
        how = w.below(8)
        if how == 0:
            w.line(ask(p, 7, s, d))
        elif how == 1:
            w.line(ask(p, 10, s, f))
        elif how == 2:                                  # a role that nobody holds
            w.line(frame(4 if (40, d) in e.may_read else 3, 40, d))
        elif how == 3 and len([x for x in e.holds if x[1] == r]) > 1 and (u, r) in e.holds:
            w.line(frame(2, u, r))
        elif how == 4 and e.holds:
            w.line(frame(1, *w.pick(sorted(e.holds))))
        else:
            f = w.below(max(1, len(e.sessions[p, s])))
            w.line(ask(p, 9, u, s, f, d))

    near = [1, 2, 255, 256, 4095, 4096, 32767, 32768, 65279, 65280]
    while e.system < FOUR_DIGITS - 60:
        risen(frame(1, middle, theirs) if e.system == 32767 else rise())
        if e.system in near:
            if early and e.system > 255:
                for p in w.some(PRODUCTS, 2):
                    add(p, w.pick([0, 1]))
            for _ in range(8):
                look()
        elif w.chance(0.002):
            look()

    # The keepers.  A third of them gets role 24 when it is time, a third a
    # permission for the role of its own, and of a third it is revoked.
    ways = w.some([1, 3, 4], 3) * 7
    for u, way in zip(keepers, ways):
        if way == 4:
            w.line(frame(3, u - 12, 60))                # nobody holds it yet
        if way != 1:
            risen(frame(1, u, u - 12))
            risen(frame(1, u, theirs))
    order = w.some(PRODUCTS, 2)
    while e.system < FOUR_DIGITS - 10:
        risen(rise())

    def standing(k):
        """All that needs no new version, and rows 2, 3, 4 and 15 of what does."""
        before = e.system
        there = w.pick([x for x in sorted(e.holds) if x[0] in users])
        absent = w.pick([(u, r) for u in users for r in held if (u, r) not in e.holds] or [(77, 0)])
        r, d = pair()
        while (r, d) not in e.may_read:
            r, d = pair()
        unread = pair()
        while unread in e.may_read:
            unread = pair()
        w.line(frame(1, *there))                        # 3
        w.line(frame(1, absent[0], 64))                 # 2
        w.line(frame(2, *absent))                       # 4
        w.line(frame(2, *there))                        # accepted
        w.line(frame(2, *there))                        # 4
        w.line(frame(3, r, d))                          # 3
        w.line(frame(3, r, 64))
        w.line(frame(4, *unread))                       # 4
        w.line(frame(4, 64, 0))
        for kind in (3, 3, 4, 4, 3):                    # nobody holds role 50
            w.line(frame(kind, 50, 60 + k))
        for to in (61 + k, 61 + k, 60 + k):             # accepted if there is no flow, else 5
            w.line(frame(5, 60 + k, to))
        w.line(frame(16, *unread))                      # 4
        w.line(frame(16, r, 64))
        w.line(frame(16, 64, d))
        for kind in (16, 16, 4, 3):                     # accepted, 3, 15, 3
            w.line(frame(kind, r, d))
        for kind in (16, 3, 16, 16, 4):                 # nobody holds role 51
            w.line(frame(kind, 51, 60 + k))
        for p in order * 2:
            w.line(ask(p, 6, 2 + k))
        for p in order:
            w.line(ask(p, 7, 15, w.pick(databases)))
            w.line(ask(p, 7, 2 + k, w.pick(databases)))
        sessions.append(2 + k)
        assert e.system == before

    def reached(p, s, f):
        return [d for flow in e.sessions[p, s][f:f + 1] for d in databases if d in flow.reach]

    # From 65525 to 65545, a version with each keeper.  Flows are added at some
    # of them, in session 15 and from 65535 on in session 2.
    for u, way in zip(keepers, ways):
        k = e.system - FOUR_DIGITS
        if k in (0, 1):
            standing(k)
        if k in (-5, -1, 0, 1, 2, 5) and not (late and k < 2):
            for p in order:
                add(p, 15)
                if k >= 0:                              # from flow 1 on they are denied there
                    add(p, 2, [theirs])
                w.line(ask(p, 10, 15, len(e.sessions[p, 15]) - 1))
        for p in order:
            flows = [(s, f) for s in sessions for f in range(len(e.sessions[p, s]))]
            s, f = w.pick(flows or [(15, 0)])
            w.line(ask(p, 9, w.pick(readers), s, f, w.pick(reached(p, s, f) or databases)))
        risen(frame(1, u, theirs) if way == 1 else frame(way, u - 12, 60))
    assert e.system == FOUR_DIGITS + 10

    def tour(p, s, who):
        """Each flow of the session is shown, and read where it gets to."""
        for f in range(len(e.sessions[p, s])):
            w.line(ask(p, 10, s, f))
            for u in who:
                w.line(ask(p, 9, u, s, f, w.pick(reached(p, s, f))))

    for p in order:
        add(p, 15)
        tour(p, 15, readers)
        tour(p, 2, w.some(readers, 6))
        for s in (0, 1):                                # flows of long ago, if there are any
            tour(p, s, w.some(keepers, 2) + [first, middle])

    # One user alone holds role 63; nobody but user 5 gets role 50.
    risen(frame(3, 63, 60))
    w.line(frame(2, 9, 63))
    w.line(frame(4, 63, 60))                            # nobody holds it now
    w.line(frame(3, 63, 60))
    risen(frame(1, 9, 63))
    risen(frame(4, 63, 60))
    risen(frame(1, 5, 50))
    risen(frame(3, 50, 62))
    w.line(frame(5, 61, 62))

    # On for some hundred versions; 65791 and 65792 are 255 and 256 in 16 bits.
    while e.system < FOUR_DIGITS + 260:
        risen(rise())
        if e.system in (65600, 65791, 65792):
            for p in order:
                add(p, 3)
                w.line(ask(p, 10, 3, len(e.sessions[p, 3]) - 1))
        if w.chance(0.15):
            look()
    for p in order:
        while add(p, 2) != 7:
            pass
        for s in sessions:
            tour(p, s, w.some(users, 2) + w.some(readers, 2))
            w.line(ask(p, 10, s, min(7, len(e.sessions[p, s]))))

    # Mandates need no new version, and row 15 keeps the permission.
    there = w.some([x for x in sorted(e.may_read - e.mandates) if x[0] in held and e.holders(x[0])], 3)
    for r, d in there + [(theirs, w.pick(databases))]:
        if r in held:
            risen(frame(4, r, d))
            w.line(frame(16, r, d))                     # 4
            risen(frame(3, r, d))
        w.line(frame(16, r, d))                         # accepted
        w.line(frame(16, r, d))                         # 3
        w.line(frame(4, r, d))                          # 15
        w.line(frame(3, r, d))                          # 3: it is still permitted
        for s in sessions:
            for p in order:
                flows = [f for f, flow in enumerate(e.sessions[p, s]) if d in flow.reach]
                for f in w.some(flows, 3) or [w.below(8)]:
                    w.line(ask(p, 9, w.pick(sorted(e.holders(r)) or users), s, f, d))
                    w.line(ask(p, 9, w.pick(users + readers), s, f, d))
    while w.more():
        if w.chance(0.3):
            how = w.pick([1, 2, 3, 4, 4, 16])
            u, r, d = w.pick(users + [9]), w.pick(roles + [50]), w.pick(databases + [60])
            if how == 2 and not w.chance(0.02):
                r = 65
            if how == 16 and (r, d) in e.may_read or how == 4 and w.chance(0.2):
                r, d = w.pick(sorted(e.mandates))
            w.line(frame(how, u, r) if how <= 2 else frame(how, r, d))
        else:
            look()
    w.flush()


# ------------------------------------------------------------------- noise

def noise(seed, lines):
    w = List("noise", seed, lines)
    out = sys.stdout.buffer
    huge = 300000 if lines >= 1000 else 1500

    def bytes_of(n, alphabet=None):
        if alphabet:
            return "".join(w.pick(alphabet) for _ in range(n))
        return "".join(chr(w.below(256)) for _ in range(n))

    for i in range(max(1, lines - 1)):
        how = w.below(12)
        if i == lines // 2 or w.chance(0.002):          # huge
            n = w.between(huge // 2, huge)
            text = w.pick(["0", "0601", "\0", "\xff", "09", "g", "\r"]) * n
            w.quiet(text[:n])
        elif how < 3:
            w.quiet(bytes_of(w.below(40)))              # may hold line feeds of its own
        elif how < 5:
            w.quiet(bytes_of(w.below(26), "0123456789abcdef"))
        elif how < 6:
            w.quiet(bytes_of(w.pick([4, 6, 10, 22]), "0123456789abcdefA \0\r"))
        elif how < 8:
            w.quiet(w.small_frame())
        elif how < 9:
            w.quiet(w.any_frame())
        else:
            w.quiet(w.malformed())
    w.flush()
    # The last piece has no line feed: often a frame that would be accepted.
    last = w.weighted([(3, "frame"), (2, "any"), (1, "bytes"), (1, "huge")])
    if last == "frame":
        piece = w.pick(["0600", "0b00", "010000", "030000", frame(9, 0, 0, 0, 0), "0a0000",
                        frame(14, 0, 0, 0, 0), "0f0000", "100000"])
    elif last == "any":
        piece = w.any_frame()
    elif last == "bytes":
        piece = bytes_of(w.between(1, 30)).replace("\n", "x")
    else:
        piece = "0" * w.between(23, huge)
    out.write(piece.encode("latin-1"))


# ------------------------------------------------------------------- turns

class Turns(World):
    """The products take turns: of any two neighbours among the frames about
    sessions one is the server's and one the term bank's."""

    def __init__(self, kind, seed, lines):
        super().__init__(kind, seed, lines)
        self.now = self.product()

    def turn(self, text):
        """A line of the product whose turn it is; returns the number answered."""
        number = self.line(text)
        self.now = PRODUCTS[1 - PRODUCTS.index(self.now)]
        return number

    def flows_of(self, p, s):
        return self.engine.sessions.get((p, s), [])

    def wanted_read(self, p, s):
        """A read of the session that gets the verdict wanted, if one is found."""
        wanted = self.weighted([(30, 0), (22, 14), (14, 13), (12, 12), (10, 11), (8, 10), (4, 2)]
                               + [(4, "passes 13"), (4, "passes 14")] * bool(self.engine.mandates))
        flows = self.flows_of(p, s)
        if wanted == 2:
            return self.pick([(0, 16 + s, 0, 0), (0, s, 8 + self.below(248), 0),
                              (0, s, 0, 64 + self.below(192)), (0, 16 + self.below(240), 0, 0)])
        if wanted == 10 or not flows:
            return self.pick(self.users_all), s, self.between(min(7, len(flows)), 7), self.root()
        e = self.engine
        if wanted in ("passes 13", "passes 14"):        # too rare to be met by chance
            found = [(u, s, f, d) for (r, d) in sorted(e.mandates) for u in sorted(e.holders(r))
                     for f in range(len(flows)) if self.verdict(p, (u, s, f, d)) == wanted]
            if found:
                return self.pick(found)
        for _ in range(25):
            f = max(self.below(len(flows)), self.below(len(flows)))
            d = self.pick(sorted(flows[f].reach)) if wanted != 11 else self.below(DATABASES)
            x = self.pick(self.users_all), s, f, d
            if self.verdict(p, x) == wanted:
                break
        row = self.verdict(p, x)
        if row in (13, 14):                             # a mandate may let it pass
            self.pool[p][row] = self.pool[p][row][-20:] + [x]
        return x

    def addition(self, p, s):
        """An addition that is accepted where the session has room."""
        d = self.root()
        found = self.conflicts(p, s, d) if len(self.flows_of(p, s)) < FLOWS else []
        return frame_add(p, s, d, self.some(found, self.weighted([(2, 0), (5, 1), (3, 2)])))

    def asked(self, p, s):
        """Any frame of the product about the session."""
        call = self.weighted([(50, 9), (8, 7), (8, 10), (7, 8), (3, 6), (4, 2)])
        if call == 9:
            return ask(p, 9, *self.wanted_read(p, s))
        if call == 7:
            return ask(p, 7, s, self.root())
        if call == 10:
            return ask(p, 10, s, self.between(0, min(7, len(self.flows_of(p, s)))))
        if call == 8:
            d = self.root()
            return frame_add(p, s, d, self.wrong_roles(p, s, d))
        if call == 6:
            return ask(p, 6, s)
        return self.pick([ask(p, 6, 16 + s), ask(p, 7, 16 + s, 0), frame_add(p, 16 + s, 0, []),
                          ask(p, 10, 16 + s, 0), ask(p, 7, s, 64), frame_add(p, s, 64, []),
                          ask(p, 10, s, 8), ask(p, 6, 16 + self.below(240))])

    def like(self, text):
        """The other product's frame with the same fields."""
        return "%02x" % (int(text[:2], 16) + (5 if self.now == BANK else -5)) + text[2:]

    def aside(self):
        """Now and then a frame that is no product's."""
        if self.chance(0.12):
            self.line(self.change())
        if self.chance(0.03):
            self.line(self.duty())
        if self.chance(0.02):
            self.line(frame(5, self.root(), self.root()))
        if self.chance(0.01):                           # never a frame: the turns stay
            self.line(self.any_frame() + self.pick(["0", "\r", " ", "000"]))


def turns(seed, lines):
    w = Turns("turns", seed, lines)
    odd = int(seed) % 2 == 1 if str(seed).lstrip("-").isdigit() else w.chance(0.5)
    closer = SERVER if odd else BANK

    # The tables.  Openings, questions, refused additions and reads of either
    # product leave forwarding open.
    for f in w.early_duties(w.set_up()):
        w.line(f)
        if w.chance(0.3):
            p, s = w.now, w.pick([0, 7, 15])
            w.turn(w.pick([w.early(p), ask(p, 7, s, w.root()), ask(p, 9, *w.wanted_read(p, s))]))
    numbers = w.some(range(SESSIONS), SESSIONS)
    new = [(d, e) for d in w.databases for e in w.databases if (d, e) not in w.engine.forwards]
    new = w.some(new, 4)
    for _ in range(2):                                  # open now, at the latest
        w.turn(ask(w.now, 6, numbers[0]))
    w.line(frame(5, *new[0]))
    if w.now != closer:
        w.turn(frame_add(w.now, numbers[0], w.root(), [w.pick(w.roles_all)]))
    w.line(frame(5, *new[1]))
    w.turn(w.addition(closer, numbers[0]))              # the first flow of all
    for pair in (new[2], new[0]):
        w.line(frame(5, *pair))
    w.turn(w.addition(w.now, numbers[0]))               # the other product's first
    w.line(frame(5, *new[3]))

    # One session number at a time.  One product, by chance, opens its session
    # first and has eight flows in it before the other has.
    chapters = max(1, min(SESSIONS, lines // 120))
    for c in range(chapters):
        s, begin = numbers[c], w.count
        share = max(90, (w.wanted - begin) // (chapters - c))
        ahead = w.product()
        text = None
        while w.count < begin + share:
            w.aside()
            p, part = w.now, (w.count - begin) / share
            if text and w.chance(0.5):                  # what the other was asked just now
                w.turn(w.like(text))
                text = None
                continue
            due = min(FLOWS, FLOWS * part / (0.45 if p == ahead else 0.8))
            if (p, s) not in w.engine.sessions and part > (0.08 if p == ahead else 0.16):
                text = ask(p, 6, s)
            elif len(w.flows_of(p, s)) < due and w.chance(0.7):
                text = w.addition(p, s)
            elif c and w.chance(0.1):                   # an older session
                text = w.asked(p, w.pick(numbers[:c]))
            else:
                text = w.asked(p, s)
            w.turn(text)
    w.flush()


def decimal(text):
    return text.isascii() and text.isdigit()


KINDS = {"mixed": mixed, "reads": reads, "edges": edges, "versions": versions, "noise": noise,
         "turns": turns}


def main(argv):
    if argv[1:] in (["answers"], ["mandates"]):
        {"answers": answers, "mandates": mandates}[argv[1]]()
        return 0
    if argv[1:2] == ["answers"] and len(argv) == 3 and decimal(argv[2]) \
            and int(argv[2]) <= LAST_VERSION:
        answers(int(argv[2]))
        return 0
    if len(argv) != 4 or argv[1] not in KINDS or not argv[3].isdigit():
        sys.stderr.write(__doc__)
        return 2
    KINDS[argv[1]](argv[2], int(argv[3]))
    sys.stdout.buffer.flush()
    return 0


if __name__ == "__main__":
    try:
        sys.exit(main(sys.argv))
    except BrokenPipeError:
        sys.exit(1)
