#!/usr/bin/env python3
"""Counts the places that docs/DESIGN-PASS.md speaks of, at the top of a checkout.

    python3 tools/places.py WHAT [-v]

WHAT is one of:
  enums   enums, and those whose variants say no more than an Option, a Result or an Ordering
  codes   matches on a number, comparisons with one, arms that begin with a bare number, sentinels
  twins   functions whose bodies differ in names and numbers alone (ratio 0.95 of the tokens, and 0.85)
  loops   while and loop, counters by hand, ranges, and walks over elements
  byhand  comparisons with a variant, arms of a constant bool, copies and fills one by one, text put by hand
  groups  parameters that are taken together
  facts   facts that stand in three contracts and more
  flags   bool parameters, calls with a bare true or false, dyn and pointers to functions
  proofs  answers, and those whose text is `omega arith` or `search rules` alone
-v lists the places.
"""
import collections
import difflib
import glob
import itertools
import re
import sys

WORDS = set("let mut if else while for in match return loop break continue as true false fn ref self Self struct enum u8 u16 u32 u64 i64 usize bool".split())


def plain(line):
    """The line without its comment and with texts and characters left empty."""
    line = re.sub(r'b?"(?:\\.|[^"\\])*"', '""', line)
    line = re.sub(r"b?'(?:\\.|[^'\\])'", "' '", line)
    return line.split("//")[0].rstrip()


def sources():
    for path in sorted(glob.glob("crates/*/src/*.rt")):
        with open(path, encoding="utf-8") as it:
            yield path[7:], [plain(line) for line in it.read().split("\n")]


def between(text, at, opens, closes):
    depth = 0
    for k in range(at, len(text)):
        depth += (text[k] == opens) - (text[k] == closes)
        if depth == 0:
            return k
    raise ValueError(text[at : at + 80])


class Function:
    pass


def functions():
    found = []
    for path, lines in sources():
        text = "\n".join(lines)
        for m in re.finditer(r"(?m)^ *(pub )?(?:const )?(?:extern \"\" )?fn (\w+)", text):
            f = Function()
            f.place = f"{path}:{text[: m.start()].count(chr(10)) + 1} {m.group(2)}"
            p = text.index("(", m.end())
            k = between(text, p, "(", ")")
            parts, depth, one = [], 0, ""
            for c in text[p + 1 : k] + ",":
                depth += (c in "([<{") - (c in ")]>}")
                if c == "," and depth == 0:
                    if one.strip():
                        parts.append(" ".join(one.split()))
                    one = ""
                else:
                    one += c
            f.parameters = parts
            q = k + 1
            q += re.match(r"[^{]*?(?=\s*(?:requires|ensures|ghost|where|\{))", text[q:], re.S).end()
            f.clauses = []
            while True:
                c = re.match(r"\s*(requires|ensures)\*?\s*\w*\s*\{", text[q:])
                if not c:
                    break
                end = between(text, q + c.end() - 1, "{", "}")
                f.clauses.append((c.group(1), " ".join(text[q + c.end() : end].split())))
                q = end + 1
            b = text.index("{", q)
            f.body = text[b + 1 : between(text, b, "{", "}")]
            found.append(f)
    return found


def tell(what, places):
    print(f"{len(places):5} {what}")
    if "-v" in sys.argv:
        for it in places:
            print("        " + it)


def lines_with(pattern, crates=None):
    return [f"{path}:{n + 1} {line.strip()}" for path, lines in sources() for n, line in enumerate(lines) if re.search(pattern, line) and (not crates or path.split("/")[0] in crates)]


def enums():
    every, alike = [], []
    for path, lines in sources():
        text = "\n".join(lines)
        for m in re.finditer(r"(?:^|\n)(?:pub )?enum (\w+)(?:<[^>]*>)? \{(.*?)\n\}", text, re.S):
            variants = [it.strip(" ,") for it in re.findall(r"\n    (\w+[^\n]*)", m.group(2))]
            place = f"{path}:{text[: m.start()].count(chr(10)) + 2} {m.group(1)}: {'; '.join(variants)}"
            every.append(place)
            carries = [it for it in variants if "(" in it]
            refuses = [it for it in variants if re.match(r"(Refused|Closed|Bad|NoModel)\b[^;]*\(", it)]
            names = {re.match(r"\w+", it).group() for it in variants}
            if (len(variants) == 2 and carries) or refuses or names == {"Less", "Same", "More"}:
                alike.append(place)
    tell("enums", every)
    tell("of them with a variant for a refusal, with two variants of which one carries a value, or in the shape of Ordering", alike)


def codes():
    tell("matches on a form, kind, op, letter, word, mark, tag or sign", lines_with(r"match (form|kind|op|letter|word|mark|tag|sign)\b"))
    tell("comparisons of one with a number", lines_with(r"\b(form|kind|op|letter|word|mark|tag)\b *(==|!=) *[0-9b]|value\[0\] *(==|!=) *[0-9]|\(form <= 4\)"))
    tell("arms that begin with a bare number", lines_with(r"^ *[0-9]+(\.\.=[0-9]+)?( \| [0-9]+(\.\.=[0-9]+)?)* =>"))
    tell("returns of a number that stands for none or wrong", lines_with(r"return (0|WRONG|256);|^ +(0|WRONG)$|letter: 0|only\(0|return 0 - Format::MAX_NUMBER"))


def twins():
    def tokens(body):
        out = []
        for it in re.findall(r"[A-Za-z_]\w*|\d[\w_]*|::|\.\.=?|->|=>|&&|\|\||[<>=!]=|\S", body):
            out.append("N" if it[0].isdigit() else "I" if re.match(r"[A-Za-z_]", it) and it not in WORDS else it)
            while out[-3:] == ["I", "::", "I"]:
                out[-3:] = ["I"]
        return out

    every = []
    for f in functions():
        if len([it for it in f.body.split("\n") if it.strip()]) >= 4:
            f.tokens = tokens(f.body)
            every.append(f)
    for ratio in (0.95, 0.85):
        group = {id(f): {id(f)} for f in every}
        by = {id(f): f for f in every}
        for i, a in enumerate(every):
            match = difflib.SequenceMatcher(None, autojunk=False)
            match.set_seq2(a.tokens)
            for b in every[:i]:
                if min(len(a.tokens), len(b.tokens)) < 0.74 * max(len(a.tokens), len(b.tokens)):
                    continue
                match.set_seq1(b.tokens)
                if match.real_quick_ratio() >= ratio and match.quick_ratio() >= ratio and match.ratio() >= ratio:
                    both = group[id(a)] | group[id(b)]
                    for it in both:
                        group[it] = both
        groups = {frozenset(it) for it in group.values() if len(it) > 1}
        tell(f"groups of bodies alike at {ratio}, with {sum(map(len, groups))} functions", [" ~ ".join(sorted(by[it].place for it in one)) for one in sorted(groups, key=len)])


def loops():
    tell("while", lines_with(r"^\s*while\b"))
    tell("loop", lines_with(r"^\s*(\w+: )?loop\b"))
    tell("counters of a while by hand (x += 1, x -= 1)", [f"{f.place}" for f in functions() if re.search(r"\bwhile\b", f.body) and re.search(r"(?m)^\s*(\w+) [+-]= 1;", f.body)])
    ranges = lines_with(r"^\s*for .* in .*\.\.")
    tell("for over a range of numbers", ranges)
    tell("of them with an element of a slice at that number in the loop's function", [f.place for f in functions() for m in [re.search(r"for (\w+) in [^{\n]*\.\.", f.body)] if m and re.search(rf"\w\[{m.group(1)}\]", f.body)])
    tell("for over elements", [it for it in lines_with(r"^\s*for ") if it not in set(ranges)])


def byhand():
    tell("arms that give a constant bool", lines_with(r"=> (true|false),$"))
    tell("copies of an element a turn", lines_with(r"^\s*(\w+)\[[^\]]+\] = (\w+\[[^\]]+\]|0);$"))
    tell("fields written twice (c: c)", lines_with(r"^\s+(\w+): \1,$"))
    tell("lines that print by say, text and their kin", lines_with(r"\b(say|text|say_two|print_decimal|print_hex)\(out", {"telling", "guarding", "showing", "picturing", "stepping"}))


def groups():
    sets = []
    for f in functions():
        names = frozenset(re.sub(r"^mut ", "", it.split(":")[0].strip()) for it in f.parameters if "self" not in it.split(":")[0])
        sets.append(names)
    many = collections.Counter(min(len(it), 10) for it in sets)
    print(f"{sum(v for k, v in many.items() if k >= 6):5} functions of 6 parameters and more")
    print(f"{sum(v for k, v in many.items() if k >= 8):5} functions of 8 parameters and more")
    print(f"{many[10]:5} functions of 10 parameters and more")
    closed = {a & b for a, b in itertools.combinations(set(sets), 2) if len(a & b) > 1}
    rows = []
    for one in closed:
        takes = [it for it in sets if one <= it]
        if len(takes) > 2 and frozenset.intersection(*takes) == one:
            rows.append((len(takes), one))
    print(f"{len(rows):5} groups of two parameters and more that three functions and more take")
    for n, one in sorted(rows, key=lambda it: (-it[0] * len(it[1]), sorted(it[1])))[: 40 if "-v" in sys.argv else 8]:
        print(f"        {n} {', '.join(sorted(one))}")


def facts():
    def split(text):
        out, depth, one = [], 0, ""
        for c in text + "×":
            depth += (c in "([{") - (c in ")]}")
            if c == "×" and depth == 0:
                out.append(one.strip())
                one = ""
            else:
                one += c
        parts = []
        for it in out:
            if it.startswith("(") and it.endswith(")") and between(it, 0, "(", ")") == len(it) - 1 and not re.match(r"\(\w+( \w+)* :", it):
                parts += split(it[1:-1])
            else:
                parts.append(it)
        return parts

    by = collections.defaultdict(set)
    for f in functions():
        for kind, text in f.clauses:
            for it in [text] if re.match(r"\(\w+( \w+)* : ", text) else split(text):
                by[kind, it].add(f.place)
    often = {k: v for k, v in by.items() if len(v) > 2}
    print(f"{len(by):5} different facts, {len(often)} of them in three contracts and more, {sum(map(len, often.values()))} times")
    for (kind, text), v in sorted(often.items(), key=lambda it: -len(it[1]))[: 40 if "-v" in sys.argv else 8]:
        print(f"        {len(v)} {kind} {text}")


def flags():
    tell("functions with a bool parameter", [f.place for f in functions() if any(re.search(r": bool$", it) for it in f.parameters)])
    tell("lines with a bare true or false among the arguments of a call", lines_with(r"[(,] ?(true|false)[,)]"))
    tell("dyn, function pointers and tables of functions", lines_with(r"\bdyn |: fn\(|&\[fn"))


def proofs():
    every, short = 0, []
    for path in sorted(glob.glob("crates/*/proofs/**/Answers.antt", recursive=True)):
        with open(path, encoding="utf-8") as it:
            for m in re.finditer(r"(?m)^pub (\S+) : goal\.\S+\n(?:unfolding [^\n]*\n)?\1 [^=\n]*= ([^\n]*)\n(?=\n|\Z)", it.read() + "\n"):
                every += 1
                if re.fullmatch(r"(omega|search|grind) ?(arith|rules|\(arith\))", m.group(2).strip()):
                    short.append(f"{path[7:]} {m.group(1)}")
    print(f"{every:5} answers of one line")
    tell("of them `omega arith` or `search rules` alone", short)


WHAT = {it.__name__: it for it in (enums, codes, twins, loops, byhand, groups, facts, flags, proofs)}
if len(sys.argv) < 2 or sys.argv[1] not in WHAT:
    sys.exit(__doc__)
WHAT[sys.argv[1]]()
