#!/usr/bin/env python3
"""Turns the old Proof.antt of a crate's functions into Invariants.antt and Answers.antt.

usage: python3 tools/answers.py CRATE NAMES.json      in the repository; NAMES.json as `rattle check --generated DIR --old-names` writes it

An old proof answers the goals by place and by number, and walks back from a goal by `before`; today each goal and each step has a name. Answers that
are `search rules` alone go. What could not be turned is marked `UNKNOWN` in the new file; `rt check` decides.
"""
import json
import os
import re
import sys

WORD = r"[^\s(){}\[\],;.]+"


def norm(s):
    return s.replace("-", "_")


class Names:
    def __init__(self, entry):
        self.goals = {norm(a): (b, i) for i, (a, b) in enumerate(entry["needs"])}
        self.order = entry["needs"]
        self.at = [a[1] for a in entry["asked_at"]]
        self.steps = {}
        self.up = {}
        for (old, parent, (so, sn), _, _), new in zip(entry["places"], entry["places_by_name"]):
            self.steps.setdefault(norm(so), []).append(sn)
            self.up[norm(old)] = new
        # what an arm of a match knows: (old step, old path) -> new path
        self.arms = {}
        self.arm_of = {}
        parents = {}
        for (old, parent, (so, sn), _, _), arm in zip(entry["places"], entry["arms"]):
            parents[old] = parent
            if arm:
                self.arm_of[old] = arm[0]
                for field, step, path in arm[2]:
                    self.arms[(norm(step), tuple(path))] = f"{arm[0]}.{field}"
        self.arm_at = []
        for old, _ in entry["asked_at"]:
            while old and old not in self.arm_of:
                old = parents.get(old)
            self.arm_at.append(self.arm_of.get(old))
        self.loops = entry["loops"]
        self.changed = entry["changed"]

    def place(self, old):
        return self.up.get(norm(old))

    def step(self, old):
        found = self.steps.get(norm(old), [])
        return found[0] if found else None


def blocks(text):
    """The file's head (comments and uses) and its definitions."""
    lines = text.split("\n")
    head, i = [], 0
    while i < len(lines) and (lines[i].startswith(("--", "use ")) or not lines[i].strip()):
        head.append(lines[i])
        i += 1
    out, cur = [], []
    for line in lines[i:]:
        if line and not line[0].isspace() and cur and (not cur[-1].strip()):
            out.append("\n".join(cur).rstrip())
            cur = []
        cur.append(line)
    if any(x.strip() for x in cur):
        out.append("\n".join(cur).rstrip())
    return head, out


KEEP_FIELDS = {"args", "requires", "ranges", "type_inv", "utf8"}


def paths(body, names, fn, var="c", aliases=()):
    """Paths from the record of facts, by the new names of steps."""
    heads = {var, *aliases}

    def one(m):
        head, rest = m.group(1), m.group(2).strip(".").split(".")
        if head not in heads:
            return m.group(0)
        walked = False
        while rest and rest[0] == "before":
            rest.pop(0)
            walked = True
        if not rest:
            return "§" if head == var or walked else m.group(0)
        first = rest[0]
        if norm(first) == "well_formed":
            rest[0] = "well_formed"
        elif norm(first) in KEEP_FIELDS:
            rest[0] = norm(first)
        elif any((norm(first), tuple(map(norm, rest[1:k]))) in names.arms for k in range(len(rest), 0, -1)):
            k = next(k for k in range(len(rest), 0, -1) if (norm(first), tuple(map(norm, rest[1:k]))) in names.arms)
            rest = [names.arms[(norm(first), tuple(map(norm, rest[1:k])))], *rest[k:]]
        else:
            new = names.step(first)
            if new is None:
                rest[0] = "UNKNOWN-" + first
            else:
                rest[0] = new
        return var + "." + ".".join(rest)

    return re.sub(r"(?<![\w.'-])(" + "|".join(map(re.escape, heads)) + r")((?:\.[^\s(){}\[\],;.]+)+)", one, body)


def place_lets(body, var="c"):
    """`let t = c.before.before in`: t stands for an earlier place. The names so bound, and the body without these lines."""
    aliases = []
    while True:
        heads = "|".join(map(re.escape, [var, *aliases]))
        m = re.search(r"let (" + WORD + r") = (?:" + heads + r")((?:\.before)*) in\s*", body)
        if not m:
            return aliases, body
        aliases.append(m.group(1))
        body = body[: m.start()] + body[m.end():]


def turn_body(body, names, fn, helpers, goal, inside=False):
    """The text right of the `=`."""
    arm = next((names.arm_at[i] for i, (_, g) in enumerate(names.order) if g == goal), None)
    if arm:
        body = re.sub(r"search \(rules, told [^\s()]+\)", f"rw c.{arm}.is refl", body)
    aliases, body = place_lets(body)
    body = paths(body, names, fn, "c", aliases)
    # an earlier place handed to a lemma of this file
    for h, place in helpers.items():
        handed = f"(goal.at.{goal} c).{place}" if goal else f"{'c' if inside == place else 'c.' + place}"
        body = body.replace("(§)", "§")
        body = re.sub(r"(?<![\w.'-])" + re.escape(h) + r" (§|" + "|".join(map(re.escape, ["c", *aliases])) + r")(?![\w.'-])", lambda m: f"{h} {handed}" if goal and "." not in handed.split(" ")[0] else f"{h} {handed if handed == 'c' else '(' + handed + ')' if not handed.startswith('(') else handed}", body)
    return body


def invariants(name, block, names, k, kind):
    """One measure or invariant: parameters by place become fields of l."""
    lines = block.split("\n")
    eq = next(i for i, x in enumerate(lines) if re.match(re.escape(name) + r"[ =]", x) and " : " not in x.split("=")[0])
    text = "\n".join(lines[eq:])
    left, right = text.split("=", 1)
    params = left.split()[1:]
    loop = names.loops[0] if isinstance(names.loops[0][0][0], list) else names.loops
    raw = names.loops[k]
    (old, new), variables = raw[0], raw[1]
    changed = names.changed[k]
    fields = [("l." if not c else "l.initial.") + v for v, c in zip(variables, changed)] + ["l." + v for v, c in zip(variables, changed) if c]
    note = "" if len(params) == len(fields) else f"-- UNKNOWN {params} {fields}\n"
    table = dict(zip(params, fields))
    right = re.sub(r"(?<![\w.'₀-])(" + "|".join(sorted(map(re.escape, params), key=len, reverse=True)) + r")(?![\w'₀-])", lambda m: table.get(m.group(1), m.group(1)), right) if params else right
    word = f"{kind}-{new}"
    return f"{note}abbrev pub {word} : goal.{word}\n{word} l ={right}"


def imports(head, text, extra):
    out = []
    for line in head:
        m = re.match(r"use ([^{]+)\.\{([^}]*)\}$", line)
        if not line.startswith("use "):
            continue
        if re.search(r"\.(Statement|Tie)\b", line):
            continue
        if not m:
            word = line.split()[-1]
            out.append(line)
            continue
        kept = []
        for n in (x.strip() for x in m.group(2).split(",")):
            shown = n.split(" as ")[-1]
            parts = [p for p in re.split("◌", shown) if p]
            if all(re.search(r"(?<![\w.'₀-])" + re.escape(p) + r"(?![\w'₀-])", text) if re.match(r"\w", p) else p in text for p in parts):
                kept.append(n)
        if kept:
            out.append(f"use {m.group(1)}.{{{', '.join(kept)}}}")
    if re.search(r"(?<![\w.'-])refl(?![\w'-])", text) and not any(re.search(r"[{ ]refl[,}]", x) for x in out):
        out = ["use mathlib.Core.Path.{refl}", *out]
    return out + extra


TRIVIAL = re.compile(r"\(?λ c(?: κs)?\. search rules\)?$|^search rules$")


def split_args(text):
    """The arguments of `tie.spec`, each with its brackets."""
    args, depth, cur = [], 0, ""
    for ch in text:
        if ch in "([{":
            depth += 1
        if ch in ")]}":
            depth -= 1
        if ch.isspace() and depth == 0:
            if cur:
                args.append(cur)
            cur = ""
        else:
            cur += ch
    if cur:
        args.append(cur)
    return args


def turn(crate, path, entry):
    folder = os.path.dirname(path)
    module = os.path.relpath(folder, f"crates/{crate}/proofs").replace("/", ".")
    names = Names(entry)
    with open(path, encoding="utf-8") as f:
        head, defs = blocks(f.read())
    comment = [x for x in head if x.startswith("--") and "Assumes nothing" not in x]
    helpers, kept, invs, answers, local = {}, {}, [], {}, []
    spec = None
    lets = {}
    for b in defs:
        first = b.split("\n")[0]
        m = re.match(r"(?:abbrev )?(?:pub )?(?:abbrev )?(" + WORD + r") :(?: (.*)|$)", first)
        if b.startswith("--") and not m:
            lines = b.split("\n")
            j = next((i for i, x in enumerate(lines) if not x.startswith("--")), len(lines))
            m = re.match(r"(?:abbrev )?(?:pub )?(?:abbrev )?(" + WORD + r") :(?: (.*)|$)", lines[j]) if j < len(lines) else None
        if not m:
            local.append((None, b))
            continue
        name, sig = m.group(1), m.group(2) or ""
        after = b.split(first, 1)[1].split("\n")[1:]
        while after and after[0].startswith("    ") and not sig.startswith(("tie.Need", "tie.inv", "tie.dec")):
            sig += " " + after.pop(0).strip()
        if re.search(r"statement", sig) or name.endswith(("-spec", "_spec")):
            spec = b
            continue
        lets[name] = (sig, b)
    # helpers over a place
    for name, (sig, b) in lets.items():
        p = re.search(r"tie\.((?!Need-|invariant|decreases)[A-Z][^\s)]*)", sig)
        if p:
            place = names.place(p.group(1)) or "UNKNOWN-" + p.group(1)
            helpers[name] = place
    for name, (sig, b) in lets.items():
        n = re.match(r"tie\.(Need-)?(\S+)", sig)
        if n and n.group(2).startswith(("invariant-", "decreases-")) and not n.group(1):
            kind, loop = n.group(2).split("-", 1)
            k = next((i for i, l in enumerate(names.loops) if norm(l[0][0]) == norm(loop)), None)
            if k is None:
                invs.append("-- UNKNOWN loop\n" + b)
            else:
                invs.append(invariants(name, b, names, k, kind))
        elif n and n.group(1):
            got = names.goals.get(norm(n.group(2)))
            goal = got[0] if got else "UNKNOWN-" + n.group(2)
            answers[name] = (goal, b)
        else:
            local.append((name, b))
    out = []
    done = {}
    # by its place in the last line a block's goal is sure, where as many answers stand there as there are goals
    placed = {}
    if spec:
        m = re.search(r"tie\.spec\s+(.*)\)\s*$", spec, re.S)
        args = split_args(m.group(1)) if m else []
        rest = args[sum(1 for a in args if re.match(r"(invariant|decreases)-", a)):]
        if len(rest) == len(names.order):
            for a, (_, goal) in zip(rest, names.order):
                placed.setdefault(a, []).append(goal)
    for name in list(answers):
        if name in placed:
            answers[name] = (placed[name][0], answers[name][1])
    def answer(goal, name, block):
        lines = block.split("\n")
        pre = []
        while lines and (lines[0].startswith("--")):
            pre.append(lines.pop(0))
        un = [x for x in lines[1:] if x.startswith("unfolding ")]
        eq = next(i for i, x in enumerate(lines) if re.match(re.escape(name) + r"( |$)", x) and i > 0)
        text = "\n".join(lines[eq:])
        m = re.match(re.escape(name) + r"((?: [^\s=]+)*)\s*=", text)
        params = m.group(1).split()
        right = text[m.end():]
        if not params:
            l = re.match(r"\s*λ c( κs)?\. ", right)
            if l:
                right = " " + right[l.end():]
        body = turn_body(right, names, module, helpers, goal)
        if re.fullmatch(r"\s*search rules", body):
            return None
        return "\n".join([*pre, f"pub {goal} : goal.{goal}", *un, f"{goal} c ={body}"])
    for name, (goal, b) in answers.items():
        t = answer(goal, name, b)
        if t:
            out.append((goal, t))
        done[name] = goal
    # what stands in the last line alone
    if spec:
        m = re.search(r"tie\.spec\s+(.*)\)\s*$", spec, re.S)
        if m:
            args = split_args(m.group(1))
            skip = sum(1 for a in args if re.match(r"(invariant|decreases)-", a))
            rest = args[skip:]
            if len(rest) != len(names.order):
                out.append(("", f"-- UNKNOWN {len(rest)} answers, {len(names.order)} goals: {' '.join(g for _, g in names.order)}\n-- {' '.join(rest)}"))
            else:
                un = "".join(x + "\n" for x in spec.split("\n") if x.startswith("unfolding "))
                for a, (_, goal) in zip(rest, names.order):
                    if TRIVIAL.match(a):
                        if un and goal.startswith("returns"):
                            out.append((goal, f"pub {goal} : goal.{goal}\n{un}{goal} c = search rules"))
                        continue
                    if a in done:
                        if done[a] != goal:
                            got = answer(goal, a, answers[a][1])
                            if got:
                                out.append((goal, got))
                        continue
                    l = re.match(r"\(λ c(?: κs)?\. (.*)\)$", a, re.S)
                    if l:
                        body = turn_body(" " + l.group(1), names, module, helpers, goal)
                        if goal == names.order and False:
                            pass
                        out.append((goal, f"pub {goal} : goal.{goal}\n{un}{goal} c ={body}"))
                    elif a in helpers:
                        out.append((goal, f"pub {goal} : goal.{goal}\n{goal} c = {a} (goal.at.{goal} c).{helpers[a]}"))
                    else:
                        out.append(("", f"-- UNKNOWN {goal} was {a}"))
    order = {g: i for i, (_, g) in enumerate(names.order)}
    out.sort(key=lambda x: order.get(x[0], 999))
    # lemmas of the file
    head_local, places = [], set()
    for name, b in local:
        if name and name in helpers:
            lines = b.split("\n")
            pre = []
            while lines and lines[0].startswith("--"):
                pre.append(lines.pop(0))
            sig = lines[0]
            while len(lines) > 1 and lines[1].startswith("    "):
                sig += "\n" + lines.pop(1)
            sig = re.sub(r"tie\.([A-Z][^\s)]*)((?: (?:invariant|decreases)-\S*?)*)(?=[\s)]|$)", lambda m: (names.place(m.group(1)) or "UNKNOWN-" + m.group(1)), sig)
            places.add(helpers[name])
            rest = "\n".join(lines[1:])
            aliases, rest = place_lets(rest)
            sig = paths(sig, names, module)
            rest = paths(rest, names, module, "c", aliases)
            rest = rest.replace("§", "c")
            b = "\n".join([*pre, sig, rest])
        head_local.append((name, b))
    inv_text = "\n\n".join(invs)
    in_inv = [b for n, b in head_local if n and n not in helpers and re.search(r"(?<![\w.'-])" + re.escape(n) + r"(?![\w'-])", inv_text)]
    in_inv_names = [n for n, b in head_local if b in in_inv]
    in_ans = [b for n, b in head_local if b not in in_inv]
    ans_text = "\n\n".join([*in_ans, *[t for _, t in out]])
    os.makedirs(folder, exist_ok=True)
    if invs:
        exported = [re.sub(r"^((?:--[^\n]*\n)*)(?:abbrev )?(?:pub )?", r"\1abbrev pub ", b) for b in in_inv]
        text = "\n\n".join([*exported, inv_text])
        use = imports(head, text, [f"use Rattle.{crate}.proofs.{module}.Given as goal"])
        with open(folder + "/Invariants.antt", "w", encoding="utf-8") as f:
            f.write("\n".join([*comment, *use, "", text]) + "\n")
    if ans_text.strip():
        extra = [f"use Rattle.{crate}.proofs.{module}.Goals as goal"]
        if places:
            extra.append(f"use Rattle.{crate}.proofs.{module}.Goals.{{{', '.join(sorted(places))}}}")
        used_inv = [n for n in in_inv_names if re.search(r"(?<![\w.'-])" + re.escape(n) + r"(?![\w'-])", ans_text)]
        if used_inv:
            extra.append(f"use Rattle.{crate}.proofs.{module}.Invariants.{{{', '.join(used_inv)}}}")
        use = imports(head, ans_text, extra)
        top = comment if not invs else []
        with open(folder + "/Answers.antt", "w", encoding="utf-8") as f:
            f.write("\n".join([*top, *use, "", ans_text]) + "\n")
    os.remove(path)
    return "UNKNOWN" in inv_text + ans_text


def attribute(crate, folder):
    """Where each answer only opens a definition at an arm, the function says so in its attribute, and no file is needed."""
    path = folder + "/Answers.antt"
    if not os.path.exists(path) or os.path.exists(folder + "/Invariants.antt"):
        return
    text = open(path, encoding="utf-8").read()
    uses = {}
    for m in re.finditer(r"use ([^{\n]+)\.\{([^}]*)\}", text):
        for n in m.group(2).split(","):
            uses[n.strip()] = m.group(1)
    opened = []
    for b in re.split(r"\n\n", text)[1:]:
        lines = b.strip().split("\n")
        lines = [x for x in lines if not x.startswith("--")]
        if not re.fullmatch(r"\S+ c = (rw c\.\S+\.is refl|search rules)", lines[-1]):
            return
        for x in lines:
            if x.startswith("unfolding "):
                opened += [n for n in x.split()[1:] if n not in opened]
    if not opened or any(n not in uses or not re.fullmatch(r"\w+", n) for n in opened):
        return
    name = os.path.basename(folder)
    found = []
    for f, _, fs in os.walk(f"crates/{crate}/src"):
        for s in fs:
            src = open(os.path.join(f, s), encoding="utf-8").read()
            found += [(os.path.join(f, s), m.start()) for m in re.finditer(r"(?m)^ *(?:pub(?:\(crate\))? )?fn " + name + r"\(", src)]
    if len(found) != 1:
        return
    words = []
    for n in opened:
        parts = uses[n].split(".")
        words.append("::".join((["crate"] if parts[1] == crate else [parts[1]]) + parts[2:] + [n]))
    src = open(found[0][0], encoding="utf-8").read()
    at = found[0][1]
    src = src[:at] + f"#[tactic(auto, unfolding({', '.join(words)}))]\n" + src[at:]
    open(found[0][0], "w", encoding="utf-8").write(src)
    os.remove(path)
    os.rmdir(folder)
    print("by its attribute:", folder)


def main():
    crate, table = sys.argv[1], json.load(open(sys.argv[2]))
    bad = 0
    n = 0
    for folder, _, files in os.walk(f"crates/{crate}/proofs"):
        if "Proof.antt" not in files:
            continue
        module = os.path.relpath(folder, f"crates/{crate}/proofs").replace("/", ".")
        entry = table.get(f"Rattle-{crate}-proofs.{module}.Lts")
        if entry is None or module.startswith("+") or ".+" in module:
            print("by hand:", folder)
            continue
        n += 1
        try:
            if turn(crate, os.path.join(folder, "Proof.antt"), entry):
                print("look:", folder)
                bad += 1
            attribute(crate, folder)
        except Exception as e:
            print("failed:", folder, repr(e))
            bad += 1
    print(f"{crate}: {n} turned, {bad} to look at")


if __name__ == "__main__":
    main()
