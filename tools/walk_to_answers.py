#!/usr/bin/env python3
"""Turns walks by hand (Proof.antt with tie.spec) into Invariants.antt and Answers.antt, as text; the check then says what is left.

    python3 tools/walk_to_answers.py crates/NAME FOLDER..            FOLDER below proofs/, of a function in no cycle
    python3 tools/walk_to_answers.py crates/NAME +CYCLE FN..         a cycle: its folder, and its functions

Run it in a clean tree: the old files go. Left to a person: pairs nested where the clauses are named (a record is wanted), and a
measure that is not `l.depth ..`."""
import re
import sys
from pathlib import Path

crate = Path(sys.argv[1]).resolve()
clauses = {}
for path in crate.parent.glob("*/src/**/*.rt"):
    text = path.read_text()
    for m in re.finditer(r"(?m)^\s*(?:pub |const )*(?:extern \"C\" )?fn (\w+)", text):
        rest = text[m.end() :]
        end = re.search(r"(?m)^\s*\{\s*$|\{\n", rest)
        head = rest[: end.start()] if end else rest[:2000]
        if m.group(1) not in clauses or f"/{crate.name}/" in str(path):
            clauses[m.group(1)] = (re.findall(r"\brequires (\w+) \{", head), re.findall(r"\bensures\*? (\w+) \{", head))


def split_top(s):
    parts, depth, cur = [], 0, ""
    for ch in s:
        depth += {"(": 1, "[": 1, "{": 1, ")": -1, "]": -1, "}": -1}.get(ch, 0)
        if ch == "," and depth == 0:
            parts.append(cur.strip())
            cur = ""
        else:
            cur += ch
    return parts + [cur.strip()]


def last_expression(body):
    """Where what stands behind the last `in` of a chain of lets begins."""
    depth = opened = start = 0
    if not body.lstrip().startswith("let "):
        return len(body) - len(body.lstrip())
    for t in re.finditer(r"\blet\b|\bin\b|[()\[\]{}]", body):
        w = t.group()
        if w in "([{":
            depth += 1
        elif w in ")]}":
            depth -= 1
        elif depth == 0:
            opened += 1 if w == "let" else -1
            if w == "in" and opened == 0:
                start = t.end()
                if not body[start:].lstrip().startswith("let "):
                    break
    return start + len(body[start:]) - len(body[start:].lstrip())


def as_record(body, names):
    """A tuple with a part for each named clause as a record."""
    at = last_expression(body)
    e = body[at:].strip()
    if len(names) < 2 or not (e.startswith("(") and e.endswith(")")):
        return body
    depth = 0
    for k, ch in enumerate(e):
        depth += {"(": 1, ")": -1}.get(ch, 0)
        if depth == 0 and k < len(e) - 1:
            return body
    parts = split_top(e[1:-1])
    if len(parts) != len(names):
        return body
    return body[:at] + "record { " + "; ".join(f"{n} = {p}" for n, p in zip(names, parts)) + " }"


def callee(step):
    words = step.split("-")
    return next((n for n in ("-".join(words[:k]) for k in range(len(words), 0, -1)) if n in clauses), words[0])


def named(body, own):
    """Projections by number of what has named clauses, by name."""
    aliases = dict(re.findall(r"let (\w+) = c\.([\w-]+) in", body))

    def name(m):
        who, digit = m.group(1), int(m.group(2))
        step = who[2:] if who.startswith("c.") else aliases.get(who)
        names = clauses.get(callee(step), ([], []))[1] if step else []
        return f"{who}.ensures.{names[digit]}" if len(names) >= 2 and digit < len(names) else m.group(0)

    body = re.sub(r"\b(c\.[\w-]+|\w+)\.ensures\.([0-9])\b", name, body)
    if len(own[0]) >= 2:
        body = re.sub(r"\bc\.requires\.([0-9])\b", lambda m: f"c.requires.{own[0][int(m.group(1))]}", body)
    return body


def one_start(body):
    """`let s = c in` and the like go: c is the start."""
    body = body.strip().replace("let s₀ = c in\n    ", "").replace("s₀", "c")
    if "let s = c in " in body:
        body = re.sub(r"(?<![\w.])s\.", "c.", body.replace("let s = c in ", ""))
    return body


def variables(args, body):
    for a in args.split():
        base = a.rstrip("₀").replace("-", "_")
        target = f"l.initial.{base}" if a.endswith("₀") else f"l.{base}"
        body = re.sub(r"(?<![\w.₀'-])" + re.escape(a) + r"(?![\w₀'-])(?!\s=\s)", target, body)
    return body.strip()


def write(path, uses, kind, module, parts):
    text = "\n\n".join(parts)
    kept = {}
    for u in uses:
        m = re.match(r"use (.*)\.\{(.*)\}$", u)
        if not m:
            kept[u] = None
            continue
        for n in split_top(m.group(2)):
            if re.search(r"(?<![\w-])" + re.escape(n.split(" as ")[-1].strip("◌")) + r"(?![\w-])", text):
                kept.setdefault(m.group(1), [])
                if n not in kept[m.group(1)]:
                    kept[m.group(1)].append(n)
    lines = [u if v is None else f"use {u}.{{{', '.join(v)}}}" for u, v in kept.items()]
    path.write_text("\n".join(lines + [f"use {module}.{kind} as goal", "", text, ""]))


def turned(blocks, pattern, prefix, own_of, cycle):
    invariants, answers = [], []
    for b in blocks:
        b = re.sub(r"^(--[^\n]*\n)+", "", b)
        m = re.match(pattern[0], b, re.S)
        if m:
            fn, goal, args, body = m.group("fn"), m.group("goal"), m.group("args"), m.group("body")
            kind, rest = goal.split("-", 1)
            name = f"{kind}-{prefix(fn)}{rest}"
            invariants.append(f"abbrev pub {name} : goal.{name}\n{name} l = {variables(args, body)}")
            continue
        m = re.match(r"abbrev pub μ-(\S+) : Measures.*\n\S+ κs a = (a[.01]*) ?(.*)$", b, re.S) if cycle else None
        if m:
            name = f"decreases-{m.group(1).replace('-', '_')}"
            invariants.append(f"abbrev pub {name} : goal.{name}\n{name} l = l.depth {m.group(3)}")
            continue
        m = re.match(pattern[1], b, re.S)
        if not m:
            continue
        fn, goal, unfolds, body = m.group("fn"), m.group("goal"), m.group("unfolds"), one_start(m.group("body"))
        if goal.startswith("shape_of") or body in ("search rules", "omega arith", "tt"):
            continue
        if cycle:
            body = re.sub(r"\bc\.requires\.0\b", "REQ0", body)
            body = re.sub(r"\bc\.requires\.1\b", "c.requires", body)
            body = re.sub(r"omega \(arith, REQ0\)", "omega arith", body).replace(", REQ0", "").replace("(REQ0, ", "(")
        own = own_of(fn)
        body = named(body, own)
        if goal.startswith("returns"):
            body = as_record(body, own[1])
        elif "-requires" in goal and not cycle:
            body = as_record(body, clauses.get(callee(goal.split("-requires")[0]), ([], []))[0])
        name = prefix(fn) + goal
        answers.append(f"pub {name} : goal.{name}\n{unfolds}{name} {'t ' if cycle else ''}c = {body}")
    return invariants, answers


def uses_of(text):
    return [l for l in re.findall(r"(?m)^use .*$", text) if not re.search(r"\.Statement\.|Tie as tie$|\.(Reads|Kinds)( as \S+)?$|borrow\.Fn\.|\.Lts-", l)]


if sys.argv[2].startswith("+"):
    folder = crate / "proofs" / sys.argv[2]
    files = sorted(folder.glob("Proof/*.antt")) + [folder / "Proof.antt"]
    texts = [p.read_text() for p in files]
    uses = list(dict.fromkeys(u for t in texts for u in uses_of(t) if f"proofs.{sys.argv[2]}" not in u))
    under = lambda fn: fn.replace("-", "_")
    pattern = (
        r"abbrev pub \S+ : (?P<fn>\S+)-lts\.(?P<goal>(?:invariant|decreases)-\S+)\n\S+ (?P<args>[^=\n]*?) =\s(?P<body>.*)$",
        r"pub \S+ : \(t : ℕ\) → (?P<fn>\S+?)-lts\.Need-(?P<goal>\S+)(?: [^\n]*)?\n(?P<unfolds>(?:unfolding [^\n]*\n)?)\S+ t (?:c κs|c) =(?P<body>.*)$",
    )
    blocks = [b for t in texts for b in re.split(r"\n\n+", t)]
    invariants, answers = turned(blocks, pattern, lambda fn: under(fn) + "-", lambda fn: clauses.get(under(fn), ([], [])), True)
    module = f"Rattle.{crate.name}.proofs.{sys.argv[2]}"
    write(folder / "Invariants.antt", uses, "Given", module, invariants)
    write(folder / "Answers.antt", uses, "Goals", module, answers)
    for p in files:
        p.unlink()
    if (folder / "Proof").is_dir():
        (folder / "Proof").rmdir()
else:
    for name in sys.argv[2:]:
        path = crate / "proofs" / name / "Proof.antt"
        text = path.read_text()
        fn = Path(name).name
        text = text[: text.index(f"pub {fn}_spec")].rstrip() + "\n"
        pattern = (
            r"abbrev (?P<fn>\S+) : tie\.(?P<goal>(?:invariant|decreases)-\S+)\n\S+ ?(?P<args>[^=\n]*?) =\s(?P<body>.*)$",
            r"(?P<fn>\S+) : tie\.Need-(?P<goal>\S+)(?: [^\n]*)?\n(?P<unfolds>(?:unfolding [^\n]*\n)?)\S+ (?:c κs|c) =(?P<body>.*)$",
        )
        module = re.search(r"use (Rattle\.\S+)\.Tie as tie", text).group(1)
        invariants, answers = turned(re.split(r"\n\n+", text), pattern, lambda _: "", lambda _: clauses.get(fn, ([], [])), False)
        if invariants:
            write(path.parent / "Invariants.antt", uses_of(text), "Given", module, invariants)
        if answers:
            write(path.parent / "Answers.antt", uses_of(text), "Goals", module, answers)
        path.unlink()
