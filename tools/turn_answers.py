#!/usr/bin/env python3
"""Writes the names that the check makes for a function's steps, places and goals as today's kit makes them, in the proof files of a crate.

usage: tools/turn_answers.py NAMES CRATE [GENERATED]

NAMES is the names.json that `rt check --generated FOLDER --old-names` writes for the crate in the folder CRATE. It lists each name as older kits made it beside today's.
GENERATED is a folder that `rt check --generated GENERATED` has written: its records tell how far out a place lies today.
"""

import difflib
import glob
import json
import os
import re
import sys

WORD = r"[^\s(){}.;,@\"«»\[\]\\]+"
FIELDS = ("args", "requires", "ensures", "invariant", "new", "auto", "result", "now", "old", "given")

# Steps that are named by no function of the source.
MADE = re.compile(r"(loop|if|slice-known|slice_known|shared-slice-known|shared_slice_known|array-known|array_known|match|loop-test|if-test)\d*$")


def alike(name):
    return re.sub(r"[-_]", "", name)


def functions(names):
    """For each path below proofs/: its goals, its steps and its places, as older kits named them, beside today's names."""
    out = {}
    for module, of in json.load(open(names, encoding="utf-8")).items():
        m = re.match(r"[^.]*\.(.*)\.Lts(.*)$", module)
        if not m:
            continue
        path = m[1].replace(".", "/")
        goals, steps, places, arms, tree = out.setdefault(path, ({}, {}, {}, {}, {}))
        stem = of.get("stem") or ""
        for old, new in of["needs"]:
            goals.setdefault(alike(stem + old), stem + new)
            goals.setdefault(alike(old), stem + new)
        for (old, _), (_, at) in zip(of["needs"], of["asked_at"]):
            tree["?" + alike(old)] = stem + at
            tree["?" + alike(stem + old)] = stem + at
        for (old, new), _ in of["loops"]:
            for word in ("", stem):
                goals.setdefault("=" + alike(word + old), stem + new)
            steps.setdefault(alike(old), new)
        for place, by_name, arm in zip(of["places"], of["places_by_name"], of["arms"]):
            # What a match has told is one step today.
            by_name = "I" + arm[0][1:] if arm else by_name
            places.setdefault(alike(stem + place[0]), stem + by_name)
            places.setdefault(alike(place[0]), stem + by_name)
            old, new = place[2][0], place[2][1]
            if old:
                steps.setdefault(alike(old), new)
            if old and place[3] in of["params"]:
                arms.setdefault("=" + alike(old), of["params"][place[3]])
                arms.setdefault("=" + alike(new), of["params"][place[3]])
        tree.setdefault("args", []).extend(of.get("args", []))
        tree["old"] = [old for old, _ in of["needs"]]
        tree["="] = [stem + new for _, new in of["needs"]]
        for arm in of["arms"]:
            if arm:
                for field, old, way in arm[2]:
                    arms.setdefault(alike(old), {}).setdefault(tuple(way), (arm[0], field))
    return out


def nested(folder, path):
    """For each place of the function, the place that its record calls `before`, as today's kit makes them."""
    out = {}
    for file in glob.glob(os.path.join(folder, "*-proofs", glob.escape(path), "Lts*.antt")):
        with open(file, encoding="utf-8") as f:
            for m in re.finditer(r"(?m)^ *pub record (\S+)(?: .*)? : Type \S+ where\n +pub before :\s+(\S+)", f.read()):
                out[m[1]] = m[2]
    return out


def joins(folder, path):
    """For each step at which branches meet: the two ways, each with the fields of its record."""
    records, ways, steps, comes = {}, {}, {}, {}
    for file in glob.glob(os.path.join(folder, "*-proofs", glob.escape(path), "Lts*.antt")):
        with open(file, encoding="utf-8") as f:
            text = f.read()
        for m in re.finditer(r"(?m)^( *)pub record (\S+)(?: .*)? : Type \S+ where\n((?:\1  .*\n)+)", text):
            fields = re.findall(rf"(?m)^{m[1]}  pub (?!open )(\S+) :", m[3])
            records[m[2]] = fields
            for branch in re.findall(rf"(?m)^{m[1]}  pub branch : (\S+)", m[3]):
                comes[m[2]] = branch
            for name, kind in re.findall(rf"(?m)^{m[1]}  pub (\S+) : (Step-Joined\S*)", m[3]):
                steps[name] = kind
        for m in re.finditer(r"(?m)^( *)pub data (Came-\S+) : Type 0 where\n((?:\1  .*\n)+)", text):
            ways[m[2]] = re.findall(rf"(?m)^{m[1]}  (\S+) : (\S+) →", m[3])
    # Steps that older kits had not.
    records = {it: [f for f in fields if not f.startswith("way_told")] for it, fields in records.items()}
    return {step: [(way, records.get(record, [])) for way, record in ways[comes[kind]]] for step, kind in steps.items() if kind in comes}


def closing(text, at):
    deep = 0
    for i in range(at, len(text)):
        deep += (text[i] == "(") - (text[i] == ")")
        if not deep:
            return i
    return len(text) - 1


def by_ways(text, steps, joined, module):
    """A case split over how branches came together goes by the names of the branches."""
    used, at = [], 0
    while (at := text.find("⊎_elim", at)) >= 0:
        end = at + len("⊎_elim")
        arms = []
        for _ in range(2):
            m = re.compile(r"\s+\(λ (\w+)\. ?").match(text, end)
            if not m:
                break
            stop = closing(text, text.index("(", m.start()))
            arms.append((m[1], text[m.end() : stop]))
            end = stop + 1
        m = re.compile(rf"\s+(\w+)((?:\.before)*)\.({WORD})\.branch\b").match(text, end)
        step = m and m[3]
        if not m:
            m = re.compile(rf"\s+({WORD})()()\.branch\b").match(text, end)
            lets = m and re.findall(rf"let {re.escape(m[1])} = \w+(?:\.before)*\.({WORD}) in", text[:at])
            step = lets[-1] if lets else None
        ways = step and len(arms) == 2 and joined.get(steps.get(alike(step), step))
        if not ways or len(ways) != 2:
            at = end
            continue
        out = []
        for (name, body), (way, fields) in zip(arms, ways):
            pick = lambda n: f"{name}.{fields[int(n[1])]}" if int(n[1]) < len(fields) else n[0]
            body = re.sub(rf"(?<![\w.'-]){name}\.(\d+)", pick, body)
            body = body.replace(".taken", ".true").replace(".left", ".false")
            out.append(f"{way} {name} ↦ {body}")
            used.append(way)
        place = f"{m[1]}{m[2]}.{m[3]}" if m[3] else m[1]
        new = f"elim {place}.branch [ {out[0]} | {out[1]} ]"
        text = text[:at] + new + text[m.end() :]
        at += len("elim")
    if used:
        names = ", ".join(dict.fromkeys(used))
        line = f"use {module}.Tie as tie\n"
        text = text.replace(line, line + f"use {module}.Lts.{{{names}}}\n", 1)
        if "⊎_elim" not in re.sub(r"(?m)^use .*$", "", text):
            text = re.sub(r"(?m)^use \S+\{⊎_elim\}\n", "", text).replace("⊎_elim, ", "").replace(", ⊎_elim}", "}")
    return text


def moved(part, table, outer, helpers):
    """A place that is handed on whole to a lemma of the file lies elsewhere today, where what was two steps is one."""
    goals, steps, places, arms, tree = table
    where = {}
    m = re.search(rf"(?m)^(?:abbrev |unfoldable |pub )*(\S+) : tie\.Need-({WORD})", part)
    if m:
        rest = alike(m[2])
        where["c"] = tree.get("?" + rest) or tree.get("?" + alike(m[2].replace("overflow-", "", 1)))
    else:
        m = re.search(rf"(?m)^ *(?:abbrev |unfoldable |pub )*(?!module )(\S+) :(?! tie\.Need)", re.sub(r"(?m)^(module|--).*$", "", part))
        if m and m[1] in helpers:
            where[helpers[m[1]][1]] = helpers[m[1]][0]
    if not any(where.values()):
        return part
    for m in re.finditer(r"let (\w+) = (\w+)(?:\.before)+ in", part):
        for use in re.finditer(rf"(?<![\w.'-])({WORD}) {m[1]}(?![\w.'-])", part):
            if use[1] in helpers:
                where[m[1]] = helpers[use[1]][0]

    def far(name, wanted):
        now, n = where.get(name), 0
        while now and now != wanted:
            now, n = outer.get(now), n + 1
        return name + ".before" * n if now else None

    def of_let(m):
        it = m[1] in where and far(m[2], where[m[1]])
        return f"let {m[1]} = {it} in" if it else m[0]

    def of_call(m):
        it = m[1] in helpers and far(m[2], helpers[m[1]][0])
        return f"{m[1]} {it}" if it else m[0]

    def of_body(m):
        it = far(m[4], places.get(alike(m[2])))
        return f"{m[1]}{m[2]}{m[3]}{it}" if it else m[0]

    part = re.sub(rf"(?m)^( *(?:abbrev )?{WORD} : tie\.)({WORD})([^→\n]*\n *{WORD} = )(\w+)(?:\.before)+$", of_body, part)
    part = re.sub(r"let (\w+) = (\w+)(?:\.before)+ in", of_let, part)
    if not helpers:
        return part
    names = "|".join(re.escape(it) for it in sorted(helpers, key=len, reverse=True))
    return re.sub(rf"(?<![\w.'-])({names}) (\w+)((?:\.before)*)(?!\.?[\w'-])", of_call, part)


def bare(name):
    name = re.sub(r"^overflow-", "", name)
    return re.sub(r"\d+$", "", alike(re.sub(r"-\d+$", "", name)))


def aligned(text, new, old):
    """Goals that are no longer asked go from the proof, and those that are asked anew are left to the search."""
    last = re.search(r"tie\.spec\s", text)
    if not last or "-lts.spec" in text:
        return text
    declared = dict(re.findall(rf"(?m)^(?:pub )?({WORD}) : tie\.Need-({WORD})", text))
    tail = text[last.end() :]
    labels = [it for it in re.findall(rf"(?<![\w.'-]){WORD}", tail) if it in declared]
    if len(labels) == len(new):
        return text
    a, b = [bare(declared[it]) for it in labels], [bare(it) for it in old]
    kept, asked = {}, []
    for tag, i, j, k, n in difflib.SequenceMatcher(None, a, b, autojunk=False).get_opcodes():
        if tag == "equal" or (tag == "replace" and j - i == n - k):
            kept.update({labels[i + d]: k + d for d in range(j - i)})
    place = {k: it for it, k in kept.items()}
    decls = []
    invariants = re.findall(r"(?m)^abbrev ((?:invariant|decreases)-\S+) :", text)
    for k, it in enumerate(new):
        if k not in place:
            place[k] = f"asked-{k}"
            asked.append(f"asked-{k}")
            call = " κs" if it.endswith("requires") or re.search(r"-requires-\d+$", it) else ""
            decls.append(f"asked-{k} : tie.Need-{it}{''.join(' ' + i for i in invariants)}\nasked-{k} c{call} = search rules\n\n")
    for label in labels:
        if label not in kept:
            text = re.sub(rf"(?ms)^{re.escape(label)} : .*?\n\n", "", text, count=1)
        else:
            text = re.sub(rf"(?m)^{re.escape(label)} : tie\.Need-{WORD}", lambda m: f"{label} : tie.Need-{new[kept[label]]}", text)
    last = re.search(r"tie\.spec\s", text)
    head, tail = text[: last.end()].rstrip(), text[last.end() :]
    first = [it for it in re.findall(rf"(?<![\w.'-]){WORD}", tail) if it in invariants]
    stop = tail.index(")")
    text = head + "".join(f"\n    {it}" for it in [*first, *(place[k] for k in range(len(new)))]) + tail[stop:]
    at = re.search(r"(?m)^pub \S+[-_]spec :", text).start()
    if "borrow.Author.Rules.{rules" not in text and decls:
        decls[0] = decls[0]
    return text[:at] + "".join(decls) + text[at:]


def turned(text, path, table, outer, joined):
    goals, steps, places, arms, tree = table
    text = re.sub(r"(?m)^(\S+) :\n +(tie\.Need-)", r"\1 : \2", text)
    module = re.search(r"(?m)^use (Rattle\.\S+)\.Tie as tie$", text)
    if joined and module:
        text = by_ways(text, steps, joined, module[1])
    if outer:
        helpers = {name: (places.get(alike(place)), c) for name, c, place in re.findall(rf"(?m)^(?:abbrev |unfoldable |pub )*(\S+) : \((\w+) : tie\.({WORD})[^()]*\)", text)}
        helpers |= {name: (places.get(alike(place)), "c") for name, place in re.findall(rf"(?m)^(?:abbrev |unfoldable |pub )*(\S+) : tie\.((?!Need-){WORD})(?: [\w-]+)* →", text)}
        for var, place, body in re.findall(rf"(?m)^module _ \((\w+) : tie\.({WORD})[^()]*\) where\n((?:  .*\n|\n)+)", text):
            for name in re.findall(rf"(?m)^  (?:abbrev )?({WORD}) :", body):
                helpers.setdefault(name, (places.get(alike(place)), var))
        # A goal that is proved can be cited at the places further in.
        for name, goal in re.findall(rf"(?m)^({WORD}) : tie\.Need-({WORD})", text):
            place = tree.get("?" + alike(goal)) or tree.get("?" + alike(goal.replace("overflow-", "", 1)))
            if place:
                helpers.setdefault(name, (place, "c"))
        text = "\n\n".join(moved(it, table, outer, helpers) for it in text.split("\n\n"))

    # What the check finds by itself today.
    if re.search(r"= c(?:\.before)*\.match\d*\.keys\d+$", text, re.M):
        text = re.sub(r"= c(?:\.before)*\.match\d*\.keys\d+$", "= search rules", text, flags=re.M)
        if "borrow.Author.Rules.{rules" not in text:
            text = re.sub(r"(?m)^use ", "use borrow.Author.Rules.{rules}\nuse ", text, count=1)

    def of_told(part):
        for m in list(re.finditer(rf"\n? *let ({WORD}) = ({WORD}(?:\.{WORD})*)\.given in", part)):
            uses = re.findall(rf"(?<![\w.'-]){re.escape(m[1])}(?![\w'-])\.?", part.replace(m[0], "", 1))
            if uses and all(it.endswith(".") for it in uses):
                part = part.replace(m[0], "", 1)
                part = re.sub(rf"(?<![\w.'-]){re.escape(m[1])}(?=\.)", lambda _: m[2] + ".given", part)
        for m in list(re.finditer(rf"\n? *let ({WORD}) = (\w+(?:\.before)*\.({WORD})) in", part)):
            uses = re.findall(rf"(?<![\w.'-]){re.escape(m[1])}(?![\w'-])\.?", part.replace(m[0], "", 1))
            if alike(m[3]) in arms and uses and all(it.endswith(".") for it in uses):
                part = part.replace(m[0], "\n   " if m[0].startswith("\n") else "", 1)
                part = re.sub(rf"(?<![\w.'-]){re.escape(m[1])}(?=\.)", lambda _: m[2], part)
        return part

    text = "\n\n".join(of_told(it) for it in text.split("\n\n"))
    text = aligned(text, tree["="], tree["old"])
    # The goals stand in the proof's last term in the order of the code.
    labels = {}
    last = re.search(r"(?:tie|[\w+-]+-lts)\.spec\s(.*)$", text, re.S)
    if last:
        names = re.findall(rf"(?<![\w.'-])({WORD})", re.sub(r"(?m)^\)$|\b(?:t|λ)\b", " ", last[1]))
        known = set(re.findall(rf"(?m)^(?:pub )?({WORD}) : [^\n]*(?:tie|-lts)\.Need-", text))
        names = [it for it in names if it in known]
        if len(names) == len(tree["="]):
            labels = dict(zip(names, tree["="]))
    at = {"label": None}

    def of_need(m):
        new = labels.get(m[1])
        return f"{m[1]} : {m[2]}Need-{new}" if new else m[0]

    text = re.sub(rf"(?m)(?<=^)({WORD}) : ((?:\(t : ℕ\) → )?(?:tie|{WORD}-lts)\.)Need-{WORD}", of_need, text)
    done = set(labels.values())

    def of_tie(m):
        name = m[2]
        kind, _, rest = name.partition("-")
        if labels and kind == "Need":
            return m[0]
        if kind == "Need" and alike(rest) not in goals and any(alike(rest) == alike(it) for it in tree["="]):
            return m[1] + "Need-" + next(it for it in tree["="] if alike(rest) == alike(it))
        if kind == "Need" and alike(rest) not in goals and rest.startswith("overflow-"):
            rest = rest[len("overflow-") :]
        if kind == "Need" and alike(rest) in goals:
            return m[1] + "Need-" + goals[alike(rest)]
        if kind in ("invariant", "decreases") and "=" + alike(rest) in goals:
            return m[1] + kind + "-" + goals["=" + alike(rest)]
        if alike(name) in places:
            return m[1] + places[alike(name)]
        return m[0]

    text = re.sub(rf"(?<![\w.])((?:tie|{WORD}-lts)\.)({WORD})", of_tie, text)
    text = re.sub(rf"(?<=\.Tie\.)({{[^}}]*}})", lambda m: re.sub(WORD, lambda w: of_tie(re.match(r"()(.*)", w[0])), m[1]), text)

    made = {new for new in steps.values() if new.startswith("loop")} | {"loop", "loop2", "loop3"}

    def of_step(m):
        if text.rfind("use ", 0, m.start()) == text.rfind("\n", 0, m.start()) + 1:
            return m[0]
        new = steps.get(alike(m[2]))
        if new is None or new == m[2]:
            return m[0]
        before = re.search(r"([^\s.()]+)$", text[: m.start()])
        head = before[1] if before else ""
        plain = re.fullmatch(rf"{re.escape(m[2])}(-\d+)?-1", new)
        if alike(new) == alike(m[2]) or MADE.match(m[2]) or head in ("before", "c") or (head not in FIELDS and head not in made and not plain):
            return m[1] + new
        return m[0]

    # What a match has told of a value is in the arm's own fields now.
    def of_arm(m):
        if text.rfind("use ", 0, m.start()) == text.rfind("\n", 0, m.start()) + 1:
            return m[0]
        if alike(m[2]) not in arms:
            return m[0]
        way = m[3].split(".")[1:] if m[3] else []
        for n in range(len(way), -1, -1):
            it = arms[alike(m[2])].get(tuple(way[:n]))
            if it and n:
                return m[1] + "." + ".".join([*it, *way[n:]])
        return m[0]

    # What the kit's script turns behind `c` alone.
    for old, new in (("kept", "auto"), ("last", "new")):
        text = re.sub(rf"\.{old}(?=\.[01](?!\w))", "." + new, text)
    text = re.sub(r"(?<=[\w)])\.pre(?![\w'-])", ".requires", text)
    text = re.sub(r"(?<=[\w)])\.inv(?![\w'-])", ".invariant", text)
    text = re.sub(r"(\.(?:if|loop)[\w-]*)\.taken(?![\w'-])", r"\1.true", text)
    text = re.sub(r"(\.(?:if|loop)[\w-]*)\.left(?![\w'-])", r"\1.false", text)

    # What a call has left of what it was lent goes by the parameter's name.
    def of_lent(m):
        params = arms.get("=" + alike(m[1]))
        n = m[3].count("1")
        return f".{m[1]}.{m[2]}.{params[n]}" if params and n < len(params) else m[0]

    text = re.sub(rf"\.({WORD})\.(auto|new)\.((?:1\.)*0)(?![\w])", of_lent, text)

    def of_named(part):
        for m in re.finditer(rf"let ({WORD}) = \w+(?:\.before)*\.({WORD})\.(?:auto|new) in", part):
            params = arms.get("=" + alike(m[2]))
            if params:
                pick = lambda n, name=m[1], params=params: f"{name}.{params[n[1].count('1')]}" if n[1].count("1") < len(params) else n[0]
                part = re.sub(rf"(?<![\w.'-]){re.escape(m[1])}\.((?:1\.)*0)(?![\w])", pick, part)
        bound = dict(re.findall(rf"let ({WORD}) = \w+(?:\.before)*\.({WORD}) in", part))
        for m in re.finditer(rf"let ({WORD}) = ({WORD})\.(?:auto|new) in", part):
            params = arms.get("=" + alike(bound.get(m[2], "")))
            if params:
                pick = lambda n, name=m[1], params=params: f"{name}.{params[n[1].count('1')]}" if n[1].count("1") < len(params) else n[0]
                part = re.sub(rf"(?<![\w.'-]){re.escape(m[1])}\.((?:1\.)*0)(?![\w])", pick, part)
        for m in re.finditer(rf"let ({WORD}) = \w+(?:\.before)*\.({WORD}) in", part):
            params = arms.get("=" + alike(m[2]))
            if params:
                pick = lambda n, name=m[1], params=params: f"{name}.{n[1]}.{params[n[2].count('1')]}" if n[2].count("1") < len(params) else n[0]
                part = re.sub(rf"(?<![\w.'-]){re.escape(m[1])}\.(auto|new)\.((?:1\.)*0)(?![\w])", pick, part)
        return part

    text = "\n\n".join(of_named(it) for it in text.split("\n\n"))
    text = re.sub(rf"((?:\.before)*)\.({WORD})((?:\.(?:given|ensures|\d+))+)", of_arm, text)
    for old, new in tree.get("args", []):
        old = re.escape(old.replace(" ", "")).replace("\\-", "[-_]")
        text = re.sub(old + r"(?![\w'-])", new.replace(" ", ""), text)
    text = text.replace(".well-formed", ".well_formed")
    text = re.sub(rf"(\.)({WORD})", of_step, text)
    # Each step's record has the fields of those before it.
    text = re.sub(rf"(?:\.before)+(\.(?!before)(?:{WORD}))", r"\1", text)
    text = "\n\n".join(flat(it) for it in text.split("\n\n"))
    # A test of `!b` tells of b.
    text = re.sub(rf"\bnot-(?:true|false) (?:_|\([^()]*\)|{WORD}(?:\.{WORD})*) (c\.if-not-{WORD}\.(?:true|false))", r"\1", text)
    spec = os.path.basename(path) + "_spec"
    return re.sub(WORD, lambda m: spec if alike(m[0]) == alike(spec) else m[0], text)


def flat(part):
    """A place further out that is only read by its fields: the goal's own place has them too."""
    for m in list(re.finditer(r"(?:(?<=\n) *)?let (\w+) = c(?:\.before)+ in\s+", part)):
        name = m[1]
        rest = part.replace(m[0], re.match(" *", m[0])[0], 1)
        if rest == part or re.search(rf"(?<![\w.'-]){name}(?![\w.'-])|let {name} =", rest):
            continue
        if re.search(r"λ (?:\w+ )*c\b", rest):
            part = re.sub(rf"let {name} = c(?:\.before)+ in", f"let {name} = c in", part)
            continue
        part = re.sub(rf"(?<![\w.'-]){name}(?=\.)", "c", rest)
    return part


def main(argv):
    names, crate = argv[:2]
    generated = argv[2] if len(argv) > 2 else None
    for path, table in functions(names).items():
        if not path.startswith("proofs/"):
            folder = os.path.join(crate, "proofs", path)
        else:
            folder = os.path.join(crate, path)
        outer = nested(generated, path.removeprefix("proofs/")) if generated else {}
        joined = joins(generated, path.removeprefix("proofs/")) if generated else {}
        for file in glob.glob(os.path.join(glob.escape(folder), "*.antt")):
            with open(file, encoding="utf-8") as f:
                text = f.read()
            new = turned(text, path, table, outer, joined)
            if new != text:
                with open(file, "w", encoding="utf-8") as f:
                    f.write(new)
                print(file)


if __name__ == "__main__":
    main(sys.argv[1:])
