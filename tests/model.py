#!/usr/bin/env python3
"""The planning rules as plain Python, from documents 01 and 02 (E2, E9 and E3), with nothing taken from the crates or from rust/reference.

tests/model.py plan FILE      compares the model with plan vectors (`ok LENGTH PARKED : plan`)
tests/model.py answers FILE   prints plan vectors (`ok LENGTH : plan`) with the model's answers; refusals 1 to 6 stay as they are
tests/model.py vacate FILE    prints crates/search_cases/data/vacate for the requests of vacate vectors, with the model's answers
tests/model.py files FOLDER   writes the print of each map and scenario of the folder that was a plan, or refused by 7 or 8
tests/model.py timed FOLDER   the same with the slots of both editions
"""
import glob
import sys

MOST = 65536


class Stop(Exception):
    """A refusal: its number and what it carries."""


class Yard:
    def __init__(self, bays, ends):
        self.bays = bays
        self.beside = [set() for _ in range(bays)]
        for a, b in zip(ends[::2], ends[1::2]):
            self.beside[a].add(b)
            self.beside[b].add(a)

    def junction(self, bay):
        return len(self.beside[bay]) >= 3

    def carousel(self):
        return all(len(beside) == 2 for beside in self.beside)

    def distances(self, x, held):
        """Rails from x to each bay that is reached through bays not held."""
        far, ring = {x: 0}, [x]
        while ring:
            following = []
            for a in ring:
                for b in sorted(self.beside[a]):
                    if b not in far and b not in held:
                        far[b] = far[a] + 1
                        following.append(b)
            ring = following
        return far

    def path(self, u, v, held=frozenset()):
        """Fewest rails; among equals the lowest list of bays compared from the first bay on."""
        far = self.distances(v, held)
        path = [u]
        while path[-1] != v:
            here = far[path[-1]]
            path.append(min(b for b in self.beside[path[-1]] if far.get(b) == here - 1))
        return path


class Vault:
    """A placement, the crossings so far, and how many vacates filled a junction."""

    def __init__(self, yard, placement):
        self.yard, self.at, self.list, self.parked = yard, list(placement), [], 0

    def copy(self):
        other = Vault(self.yard, self.at)
        other.list, other.parked = list(self.list), self.parked
        return other

    def take(self, other):
        self.at, self.list, self.parked = other.at, other.list, other.parked

    def who(self, bay):
        return self.at.index(bay) if bay in self.at else None

    def cross(self, carrier, to):
        self.list.append((carrier, self.at[carrier], to))
        self.at[carrier] = to

    def vacate(self, x, held):
        """Whether x is empty afterwards."""
        if x not in self.at:
            return True
        if x in held:
            return False
        far = self.yard.distances(x, held)
        empty = [b for b in far if b not in self.at]
        if not empty:
            return False
        e = min(empty, key=lambda b: (far[b], len(self.yard.beside[b]), b))
        path = self.yard.path(x, e, held)
        for a, b in reversed(list(zip(path, path[1:]))):
            self.cross(self.who(a), b)
        self.parked += self.yard.junction(e)
        return True

    def bring(self, r, s, v):
        path = self.yard.path(self.at[r], v)
        if len(path) > 1 and path[1] == self.at[s]:
            leader, follower, ahead = s, r, path[2:]
        else:
            leader, follower, ahead = r, s, path[1:]
        for x in ahead:
            if not self.vacate(x, {self.at[leader], self.at[follower]}):
                return None
            old = self.at[leader]
            self.cross(leader, x)
            self.cross(follower, old)
        return leader, follower

    def clear(self, v, leader, follower):
        b = self.at[follower]
        others = sorted(self.yard.beside[v] - {b})
        kept = [x for x in others if x not in self.at][:2]
        for x in [x for x in others if x not in kept]:
            if len(kept) >= 2:
                break
            if self.vacate(x, {v, b, *kept}):
                kept.append(x)
        if len(kept) == 1:
            return self.clear_on(v, b, kept[0], others, leader, follower)
        return sorted(kept) if len(kept) == 2 else None

    def clear_on(self, v, b, e, others, leader, follower):
        """E2: one kept bay e."""
        rest = [x for x in others if x != e]
        for x in rest:
            trial = self.copy()
            if trial.vacate(x, {v, b}) and trial.vacate(e, {v, b, x}) and x not in trial.at and e not in trial.at:
                self.take(trial)
                return sorted([x, e])
        for x in rest:
            trial = self.copy()
            if e in trial.at or v != trial.at[leader]:
                continue
            trial.cross(leader, e)
            trial.cross(follower, v)
            if not trial.vacate(x, {v, e}) or not trial.vacate(b, {v, e, x}):
                continue
            trial.cross(follower, b)
            trial.cross(leader, v)
            if x not in trial.at and e not in trial.at:
                self.take(trial)
                return sorted([x, e])
        return None

    def trial(self, r, s, v):
        first = len(self.list)
        led = self.bring(r, s, v)
        if led is None:
            return False
        leader, follower = led
        kept = self.clear(v, leader, follower)
        if kept is None:
            return False
        made = self.list[first:]
        x, y = kept
        b = self.at[follower]
        for carrier, to in [(leader, x), (follower, v), (follower, y), (leader, v), (leader, b), (follower, v)]:
            self.cross(carrier, to)
        traded = {leader: follower, follower: leader}
        for carrier, a, _ in reversed(made):
            self.cross(traded.get(carrier, carrier), a)
        return True

    def swap(self, r, s):
        far = self.yard.distances(self.at[r], set())
        for v in sorted((b for b in far if self.yard.junction(b)), key=lambda b: (far[b], b)):
            trial = self.copy()
            if trial.trial(r, s, v):
                self.take(trial)
                return True
        return False

    def step(self, r, to, finished):
        if self.vacate(to, {self.at[r], *self.at[:finished]}):
            self.cross(r, to)
        elif not self.swap(r, self.who(to)):
            raise Stop(7, r)


def plan(yard, room, starts, goals):
    vault = Vault(yard, starts)
    for r in range(len(starts)):
        avoid = frozenset(vault.at[:r] if yard.carousel() else [])
        if goals[r] not in yard.distances(vault.at[r], avoid):
            raise Stop(7, r)
        path = yard.path(vault.at[r], goals[r], avoid)
        for to in path[1:]:
            vault.step(r, to, r)
        for v in reversed(path[1:-1]):
            owners = [f for f in range(r + 1) if goals[f] == v]
            if owners and vault.at[owners[0]] != v:
                vault.step(owners[0], v, r + 1)
    if len(vault.list) > min(room, MOST):
        raise Stop(8, len(vault.list))
    return vault


def packed(crossing):
    carrier, a, b = crossing
    return carrier << 32 | a << 16 | b


def numbers(text):
    return [int(word) for word in text.split()]


def requests(name):
    with open(name) as lines:
        for line in lines:
            request, answer = line.rstrip("\n").split(" =>")
            head, *lists = request.split("|")
            yield numbers(head.split(" ", 1)[1]), [numbers(one) for one in lists], answer.strip()


def answer(bays, room, ends, starts, goals):
    """The number, what it carries or the length, how many were parked, and the plan."""
    try:
        vault = plan(Yard(bays, ends), room, starts, goals)
        return 0, len(vault.list), vault.parked, vault.list
    except Stop as stop:
        return (*stop.args, 0, [])


def told(number, value, parked, crossings):
    if number:
        return f"refused {number} {value}"
    counts = str(value) if parked is None else f"{value} {parked}"
    return f"ok {counts} : " + " ".join(str(packed(crossing)) for crossing in crossings)


def early(text):
    """A refusal by 1 to 6, of which the model says nothing."""
    words = text.split()
    return words[0] == "refused" and int(words[1]) < 7


def compare(name):
    agree = cases = 0
    for (bays, room), lists, expected in requests(name):
        cases += 1
        if early(expected) or told(*answer(bays, room, *lists)).strip() == expected:
            agree += 1
        else:
            print(f"case {cases} does not agree")
    print(f"{agree} of {cases} agree")


def answers(name):
    with open(name) as lines:
        for line, ((bays, room), lists, expected) in zip(lines, requests(name)):
            if not early(expected):
                number, value, _, crossings = answer(bays, room, *lists)
                said = told(number, value, None, crossings)
                if said.strip() != expected:
                    line = line.split("=>")[0] + "=> " + said + "\n"
            print(line, end="")


def vacates(name):
    cases = []
    for (bays, x), (ends, placement, held), _ in requests(name):
        vault = Vault(Yard(bays, ends), placement)
        was = x not in placement
        done = vault.vacate(x, set(held))
        row = [bays, x]
        for one in (ends, placement, held):
            row += [len(one), *one]
        row += [0 if was else 1 if done else 2, len(vault.list), *(packed(crossing) for crossing in vault.list)]
        cases.append(" ".join(map(str, row)))
    print(len(cases))
    print("\n".join(cases))


def prints(folder, end):
    """The files with this end that hold a plan or a refusal by 7 or 8; each with the model's answer for its map and scenario."""
    for name in sorted(glob.glob(f"{folder}/*.{end}")):
        last = open(name).read().splitlines()[-1]
        if not last.startswith(("; cost", "; refused 7 ", "; refused 8 ")):
            continue
        given = name[: -len(end)]
        rows = open(given + "map").read().splitlines()[4:]
        cells = [(y, x) for y, row in enumerate(rows) for x, letter in enumerate(row) if letter in ".G"]
        bay = {cell: number for number, cell in enumerate(cells)}
        ends = [end for y, x in cells for cell in ((y, x + 1), (y + 1, x)) if cell in bay for end in (bay[y, x], bay[cell])]
        lines = [line.split("\t") for line in open(given + "scen").read().splitlines()[1:]]
        starts = [bay[int(line[5]), int(line[4])] for line in lines]
        goals = [bay[int(line[7]), int(line[6])] for line in lines]
        yield name, answer(len(cells), 8192, ends, starts, goals)


def write(name, number, value, moves):
    with open(name, "w") as out:
        out.writelines(move + "\n" for move in moves)
        out.write(f"; refused {number} {value}\n" if number else f"; cost = {value} (unit cost)\n")


def move(crossing):
    return "(move c%d b%d b%d)" % crossing


def files(folder):
    for name, (number, value, _, crossings) in prints(folder, "out"):
        write(name, number, value, map(move, crossings))


def slots(crossings, edition):
    """Edition 1: above every earlier crossing of the carrier or of either bay. Edition 2: above the carrier's, and no lower than the latest out of the bay entered."""
    carrier, bay, out, told = {}, {}, {}, []
    for c, a, b in crossings:
        if edition == 1:
            slot = 1 + max(carrier.get(c, 0), bay.get(a, 0), bay.get(b, 0))
            bay[a] = bay[b] = slot
        else:
            slot = max(1 + carrier.get(c, 0), out.get(b, 0))
            out[a] = slot
        carrier[c] = slot
        told.append(slot)
    return told


def timed(folder):
    for edition in (1, 2):
        for name, (number, value, _, crossings) in prints(folder, f"timed{edition}"):
            at = slots(crossings, edition)
            write(name, number, value, [f"{slot - 1}: {move(crossing)} [1]" for slot, crossing in zip(at, crossings)])


{"plan": compare, "answers": answers, "vacate": vacates, "files": files, "timed": timed}[sys.argv[1]](sys.argv[2])
