#!/usr/bin/env python3
"""Turns the port's Proof.antt files into Invariants.antt and Answers.antt, by the names that a check lists.

usage: answers.py NAMES CRATE..      NAMES has CRATE/names.json, as `rattle check --generated NAMES/CRATE --old-names` writes it

A goal's place tells what each `.before` of its answer leads to, so that a path becomes the field of today's flat record.
What it can't turn is said in a line 'left:', and the Proof.antt then stays, as Proof.txt beside what was turned.
"""

import glob
import json
import os
import re
import sys

W = r"[^\s(){}.;,@\"«»\[\]\\|]+"
FN = re.compile(r"(?m)^ *(?:pub )?(?:unsafe )?(?:const )?fn (\w+)")


def norm(s):
    """A step's name, whatever its dashes and without an ending that respell.py gave it."""
    s = re.sub(r"^[A-Z]", lambda m: m[0].lower(), re.sub(r"^Is(?=[A-Z])", "", s))
    return re.sub(r"(?<=\w)_(is|lem|here)$", "", s.replace("-", "_"))


# Fields that the scripts did not see.
FIELDS = {"pre": "requires", "inv": "invariant", "taken": "true", "left": "false", "fits": "ranges", "entry": "initial"}


def labelled(fields, labels):
    """The label of a clause in place of its place among clauses that were nested to the right."""
    n = len(labels)
    if n < 2:
        return fields
    for k in range(n):
        way = ["1"] * k + (["0"] if k < n - 1 else [])
        if fields[: len(way)] == way:
            return [labels[k], *fields[len(way) :]]
    return fields


def rename(value, table):
    """Puts a table's terms for its names where no binder hides them."""
    out, i, deep, hidden = [], 0, 0, []
    token = re.compile(r"λ ([^.λ]*?)\. |\((" + W + r"(?: " + W + r")*) : |" + W + r"|.|\n")
    after_dot = False
    while i < len(value):
        m = token.match(value, i)
        i = m.end()
        if m[1] is not None:
            names = re.findall(W, m[1])
            hidden.append((deep, set(names)))
            out.append(m[0])
        elif m[2] is not None:
            hidden.append((deep, set(m[2].split())))
            deep += 1
            out.append(m[0])
        elif m[0] in "({[":
            deep += 1
            out.append(m[0])
        elif m[0] in ")}]":
            deep -= 1
            hidden = [h for h in hidden if h[0] <= deep]
            out.append(m[0])
        elif m[0] in table and not after_dot and not any(m[0] in h for _, h in hidden):
            out.append(table[m[0]])
        else:
            out.append(m[0])
        after_dot = m[0] == "."
    return "".join(out)


def labels_of(root):
    """The labels of each function's clauses, by crate and by the function's name."""
    found = {}
    for p in glob.glob(root + "/crates/*/src/**/*.rt", recursive=True):
        crate = os.path.relpath(p, root).split(os.sep)[1]
        with open(p, encoding="utf-8") as f:
            lines = f.read().split("\n")
        name = None
        for line in lines:
            m = FN.match(line)
            if m:
                name = m[1]
                found.setdefault((crate, name), {"requires": [], "ensures": []})
            m = re.match(r" *(requires|ensures) (\w+) \{", line)
            if m and name:
                found[(crate, name)][m[1]].append(m[2])
    return found


class Function:
    def __init__(self, text, lts, labels, crate):
        self.text, self.lts, self.labels, self.crate, self.left = text, lts, labels, crate, []
        self.places = lts["places"]
        self.at = {p[0]: i for i, p in enumerate(self.places)}

    def parent(self, i):
        return self.at[self.places[i][1]]

    def path(self, place, rest):
        """The new path of an old one, a list of fields, at a place."""
        steps = list(rest)
        while steps and steps[0] == "before":
            # Today's kit counts fewer places.
            if self.places[place][1] is not None:
                place = self.parent(place)
            steps.pop(0)
        if not steps:
            return ("place", place)
        # The named step may be found some places above, where the old kit counted a place less.
        at = place
        while True:
            made = self.step(at, steps)
            if made:
                return made
            if self.places[at][1] is None:
                break
            at = self.parent(at)
        for at in reversed(self.chain):
            made = self.step(at, steps)
            if made:
                return made
        return None

    def step(self, at, steps):
        first, more = steps[0], steps[1:]
        old, new = self.places[at][2]
        if self.places[at][1] is None:
            first = FIELDS.get(first, first)
        else:
            more = [FIELDS.get(more[0], more[0]), *more[1:]] if more else more
        if self.places[at][1] is None and first in ("args", "requires", "ranges", "ghost", "utf8"):
            if first == "requires":
                more = labelled(more, self.own["requires"])
            if first in ("args", "ranges"):
                named = {a.split(".")[-1]: b.split(".")[-1] for a, b in self.lts["args"] if a.startswith(f".{first} ")}
                if more and more[0] in named:
                    more = [named[more[0]], *more[1:]]
            return ["c", first, *more]
        if norm(first) != norm(old):
            return None
        arm = self.lts["arms"][at]
        if arm:
            best = None
            for field, step, way in arm[2]:
                if norm(step) == norm(old) and way == more[: len(way)] and (best is None or len(way) > len(best[1])):
                    best = (field, way)
            if best and best[1]:
                return self.clause(["c", arm[0], best[0], *more[len(best[1]) :]], 2, self.callee_above(at))
        for var, step in self.lts["typed"][at]:
            if norm(step) == norm(old):
                if more[:1] == ["given"]:
                    return ["c", "type_inv", var, *more[1:]]
        renamed = dict(self.places[at][4])
        if more and more[0] in renamed:
            more = [renamed[more[0]], *more[1:]]
        made = ["c", new, *more]
        callee = self.places[at][3]
        return self.clause(made, 2, callee)

    def callee_above(self, at):
        while self.places[at][1] is not None:
            at = self.parent(at)
            if self.places[at][3]:
                return self.places[at][3]
        return None

    def clause(self, made, i, callee):
        if callee and len(made) > i + 1 and made[i] == "ensures":
            parts = callee.split("::")
            own = self.labels.get((parts[0], parts[-1]), {"ensures": []})["ensures"]
            return made[: i + 1] + labelled(made[i + 1 :], own)
        return made

    def expand(self, text):
        """A helper that takes the record of a place is written out at each call."""
        for _ in range(6):
            def put(m):
                first, type, own, value = self.macros[m[1]]
                by = lambda t, name: re.sub(r"(?<![\w.⁺₀-])" + re.escape(name) + r"(?![\w⁺₀'-])", lambda x: m[2], t)
                return "(let it : " + by(type, first) + " = " + by(value, own) + " in it)"
            was = text
            for name in self.macros:
                text = re.sub(r"\(?(?<![\w.⁺₀-])(" + re.escape(name) + r") (" + W + r"(?:\.before)*)(?![\w.])(?:(?<=x)\))?", lambda m: ("(" if m[0].startswith("(") else "") + put(m), text)
            if text == was:
                break
        return text

    def body(self, text, place):
        """The text of an answer, with its paths turned."""
        text = self.expand(text)
        names = {"c": place}
        self.chain = [place]
        while self.places[self.chain[-1]][1] is not None:
            self.chain.append(self.parent(self.chain[-1]))
        out, i = [], 0
        token = re.compile(r"let (" + W + r") = (" + W + r")((?:\." + W + r")*) in\s*|(?<![\w.⁺₀-])(" + W + r")((?:\." + W + r")+)|(?<![\w.⁺₀-])(" + W + r")")
        # A name of the answer's record, or of a part of it, by its place and its old path.
        names, hidden, deep = {"c": (place, [])}, [], 0
        binder = re.compile(r"λ ((?:\([^()]*\)|[^.λ()])*)\. |\((" + W + r"(?: " + W + r")*) : ")

        def brackets(part):
            nonlocal deep, hidden
            for m in re.finditer(binder.pattern + r"|[({\[]|[)}\]]", part):
                if m[1] is not None:
                    bound = {n for g in re.findall(r"\(([^:()]*) :", m[1]) for n in g.split()} | set(re.sub(r"\([^()]*\)", " ", m[1]).split())
                    hidden.append((deep, bound))
                    continue
                if m[2] is not None:
                    hidden.append((deep, set(m[2].split())))
                    deep += 1
                elif m[0] in "({[":
                    deep += 1
                elif m[0] in ")}]":
                    deep -= 1
                    hidden = [h for h in hidden if h[0] <= deep]

        whole = text
        while True:
            m = token.search(text, i)
            b = binder.search(text, i)
            if b and (not m or b.start() <= m.start()):
                out.append(text[i : b.end()])
                brackets(text[i : b.end()])
                i = b.end()
                continue
            if not m:
                out.append(text[i:])
                break
            out.append(text[i : m.start()])
            brackets(text[i : m.start()])
            i = m.end()
            is_hidden = lambda n: any(n in h for _, h in hidden)
            if m[1] and m[2] in names and not is_hidden(m[2]):
                at, steps = names[m[2]]
                steps = steps + (m[3][1:].split(".") if m[3] else [])
                made = self.path(at, steps)
                if made:
                    names[m[1]] = (made[1], []) if made[0] == "place" else (at, steps)
                    continue
                self.left.append(m[0].strip())
            if m[1]:
                names.pop(m[1], None)
                out.append(m[0][:4])
                i = m.start() + 4
                continue
            name, more = (m[4], m[5][1:].split(".")) if m[4] else (m[6], [])
            if name not in names or is_hidden(name) or name == "c" and not more:
                out.append(m[0])
                continue
            at, steps = names[name]
            made = self.path(at, steps + more)
            if not made or made[0] == "place":
                self.left.append(f"path {m[0]}")
                out.append(m[0] if more else "c")
            else:
                out.append(".".join(made))
        return "".join(out)


def parts_of(text):
    """The declarations of a file: (head lines, signature, unfolding, clauses)."""
    uses, rest = [], []
    comment = []
    lines = text.split("\n")
    i = 0
    while i < len(lines) and (lines[i].startswith("--") or lines[i].startswith("use ") or not lines[i].strip()):
        (comment if lines[i].startswith("--") else uses).append(lines[i])
        i += 1
    decls, now = [], []
    for line in lines[i:]:
        if line and not line[0].isspace() and re.match(r"(abbrev |pub |unfoldable )*" + W + r"(?: \{[^{}]*\})* :", line) and now:
            decls.append(now)
            now = []
        now.append(line)
    if now:
        decls.append(now)
    return comment, [u for u in uses if u.strip()], ["\n".join(d).rstrip() for d in decls]


def turn(folder, root, names, labels):
    crate = os.path.relpath(folder, root).split(os.sep)[1]
    src = os.path.join(folder, "Proof.antt")
    with open(src, encoding="utf-8") as f:
        text = f.read()
    m = re.search(r"(?m)^use Rattle\.(\w+)\.proofs\.(\S+)\.Statement\.\{", text)
    where = m[2] if m else os.path.relpath(folder, f"{root}/crates/{crate}/proofs").replace(os.sep, ".")
    lts = names.get(f"Rattle-{crate}-proofs.{where}.Lts")
    if lts is None:
        return [f"no names for {where}"]
    comment, uses, decls = parts_of(text)
    fn = Function(text, lts, labels, crate)
    fn.own = labels.get((crate, where.split(".")[-1]), {"requires": [], "ensures": []})
    fn.args = lts["params"].get("", []) if isinstance(lts["params"], dict) else []
    uses = [u for u in uses if not re.search(r"\.(Statement|Tie|Reads|Lts)(\.\{[^}]*\})?( as \S+)?$", u)]
    needs = lts["needs"]
    spec = re.search(r"tie\.spec((?:\s+[^\s()]+)*)", text)
    order = spec[1].split() if spec else []
    goals = [a for a in order if not re.match(r"(invariant|decreases)-", a)]
    by_name = {}
    if len(goals) == len(needs):
        by_name = {g: i for i, g in enumerate(goals)}
    else:
        plain = lambda s: norm(re.sub(r"^overflow[-_]", "", s))
        for i, (old, new) in enumerate(needs):
            for g in goals:
                if plain(g) == plain(old) or plain(g).replace("_holds", "_init").replace("_again", "_preserved").replace("_less", "_smaller") == plain(old):
                    by_name[g] = i
    invariants, answers, helpers = [], [], []
    fn.macros = {}
    decls = [re.sub(r"(?:\n--.*|\n\s*)+$", "", d) for d in decls]
    for d in decls:
        m = re.match(r"(?:abbrev )?(" + W + r") : (?:\((" + W + r") : tie\.[^()]*\)\s*→?|tie\.[^()]*?→)\s*", d)
        if m:
            it = re.search(r"\n" + re.escape(m[1]) + r" (" + W + r")((?: (?!= )(?!=\n)" + W + r")*) =\s*", d)
            if it and "\nunfolding" not in d and "\n  where" not in d and "\n    where" not in d:
                value = d[it.end() :].strip()
                if it[2].strip():
                    value = f"λ{it[2]}. {value}"
                fn.macros[m[1]] = (m[2] or "_", d[m.end() : it.start()].strip(), it[1], value)
    decls = [d for d in decls if re.sub(r"^abbrev ", "", d).split(" ")[0] not in fn.macros]
    left = []
    loops = lts["loops"]
    fors = {new[len("overflow_step-") :] for _, new in needs if new.startswith("overflow_step-")}
    for d in decls:
        m = re.match(r"((?:abbrev |pub |unfoldable )*)(" + W + r")((?: \{[^{}]*\})*) : (.*)", d)
        if not m:
            helpers.append(d)
            continue
        name, type = m[2], m[4]
        if re.match(r"tie\.(invariant|decreases)-", type):
            kind = "invariant" if ".invariant-" in type else "decreases"
            loop = type.split("tie.")[1][len(kind) + 1 :]
            found = [(k, it) for k, it in enumerate(loops) if norm(it[0][0]) == norm(loop)]
            if not found:
                left.append(f"loop {loop}")
                helpers.append(d)
                continue
            k, ((old, new), variables) = found[0]
            changed = lts["changed"][k]
            body = d.split("\n", 1)[1]
            h = re.match(re.escape(name) + r"((?: +(?!= )(?!=\n)" + W + r")*) *=\s*", body)
            if not h:
                left.append(f"the form of {name}")
                helpers.append(d)
                continue
            params = h[1].split()
            to = [f"l.initial.{v}" if c else f"l.{v}" for v, c in zip(variables, changed)] + [f"l.{v}" for v, c in zip(variables, changed) if c]
            if len(params) != len(to):
                left.append(f"{name} has {len(params)} parameters, and not {len(to)}: {' '.join(variables)}")
            if kind == "decreases" and new[len("loop-") :] in fors:
                continue
            value = body[h.end() :]
            table = dict(zip(params, to))
            table.pop("_", None)
            value = rename(value, table)
            # A signed variable of a loop is a number of ℤ now.
            value = re.sub(r"\(to_z w\d+ (l\.[^\s()]+)\)", r"\1", value)
            value = re.sub(r"to_z w\d+ (l\.[^\s()]+)", r"\1", value)
            invariants.append(f"abbrev pub {kind}-{new} : goal.{kind}-{new}\n{kind}-{new} l = {value}")
        elif type.startswith("tie.Need-"):
            body = d.split("\n", 1)[1]
            unfold = ""
            while body.startswith("unfolding"):
                u, body = body.split("\n", 1)
                unfold += u + "\n"
            h = re.match(re.escape(name) + r"((?: +(?!=)(?:" + W + r"|\([^()]*\)))*) *=\s*", body)
            if h and name not in by_name and re.search(r"= search rules\s*$", body):
                continue
            if not h or name not in by_name:
                left.append(f"{name} is no goal now" if h else f"the form of {name}")
                helpers.append(d)
                continue
            value = body[h.end() :]
            i = by_name[name]
            goal = needs[i][1]
            if re.fullmatch(r"search rules", value.strip()) and not unfold:
                continue
            params = [p for p in h[1].split() if p not in ("κs", "lifetimes")]
            if params[:1] != ["c"]:
                left.append(f"{name} has the parameters {params}")
            fn.left = []
            made = fn.body(value, fn.at[lts["asked_at"][i][0]])
            left += [f"{name}: {x}" for x in fn.left]
            asked = lts["asked"].get(goal) or lts["asked"].get(needs[i][0])
            made = as_record(made, asked)
            answers.append(f"pub {goal} : goal.{goal}\n{unfold}{goal} {' '.join(params)} = {made}")
        elif "tie.close" in d or re.search(r"-spec|_spec", name):
            continue
        else:
            if "tie." in d or "lts." in d or "reads." in d:
                left.append(f"the helper {name}")
            helpers.append(d)
    head = comment + uses
    base = f"Rattle.{crate}.proofs.{where}"
    files = {}
    inv_helpers = [d for d in helpers if d.startswith("abbrev")]
    if invariants:
        files["Invariants.antt"] = "\n".join(head + [f"use {base}.Given as goal"]) + "\n\n" + "\n\n".join(inv_helpers + invariants) + "\n"
    if answers:
        files["Answers.antt"] = "\n".join(head + [f"use {base}.Goals as goal"]) + "\n\n" + "\n\n".join(helpers + answers) + "\n"
    for name, made in files.items():
        made = pruned(made)
        with open(os.path.join(folder, name), "w", encoding="utf-8") as f:
            f.write(made)
    os.rename(src, os.path.join(folder, "Proof.txt"))
    return left


def pruned(text):
    """Without imports that nothing cites."""
    uses = [m for m in re.finditer(r"(?m)^use (\S+?)\.\{([^}]*)\}\n", text)]
    rest = re.sub(r"(?m)^use .*\n|--.*", "", text)
    words = set(re.findall(r"[^\s(){}.;,@\"«»\[\]\\|]+", rest))
    for m in uses:
        kept = []
        for n in m[2].split(","):
            n = n.strip()
            own = n.split(" as ")[-1]
            parts = [p for p in own.split("◌") if p]
            if "◌" in own and all(p in rest for p in parts) or own in words or own == "[]" and own in rest:
                kept.append(n)
        line = f"use {m[1]}.{{{', '.join(kept)}}}\n" if kept else ""
        text = text.replace(m[0], line, 1)
    for m in re.finditer(r"(?m)^use \S+ as (\S+)\n", text):
        if m[1] != "goal" and not re.search(r"(?<![\w.-])" + re.escape(m[1]) + r"\.", rest):
            text = text.replace(m[0], "", 1)
    return text


def as_record(text, asked):
    """A tuple for several clauses as a record by their labels."""
    if not asked or len(asked) < 2:
        return text
    t = text.rstrip()
    # The last bracket, which has to be a tuple of as many parts.
    if not t.endswith(")"):
        return text
    deep = 0
    for i in range(len(t) - 1, -1, -1):
        deep += (t[i] in ")}]") - (t[i] in "({[")
        if deep == 0:
            break
    before, inner = t[:i], t[i + 1 : -1]
    if before.strip() and not re.search(r"(\bin|\.)\s*$", before):
        return text
    parts = split(inner)
    while len(parts) < len(asked) and parts and parts[-1].startswith("(") and parts[-1].endswith(")"):
        parts = parts[:-1] + split(parts[-1][1:-1])
    if len(parts) != len(asked):
        return text
    return before + "record { " + "; ".join(f"{a} = {p}" for a, p in zip(asked, parts)) + " }"


def split(inner):
    """The parts of a tuple."""
    parts, deep, now = [], 0, ""
    for ch in inner:
        deep += (ch in "({[") - (ch in ")}]")
        if ch == "," and deep == 0:
            parts.append(now.strip())
            now = ""
        else:
            now += ch
    if now.strip():
        parts.append(now.strip())
    return parts


def main(argv):
    listed, crates = argv[0], argv[1:]
    root = os.getcwd()
    labels = labels_of(root)
    for crate in crates:
        with open(f"{listed}/{crate}/names.json", encoding="utf-8") as f:
            names = json.load(f)
        for p in sorted(glob.glob(f"{root}/crates/{crate}/proofs/**/Proof.antt", recursive=True)):
            folder = os.path.dirname(p)
            if os.path.basename(folder).startswith("+"):
                print(f"left: {os.path.relpath(p)}: a recursion, by hand")
                continue
            for it in turn(folder, root, names, labels):
                print(f"left: {os.path.relpath(folder)}: {it}")


if __name__ == "__main__":
    main(sys.argv[1:])
