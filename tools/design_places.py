#!/usr/bin/env python3
"""Counts, in crates/*/src, the places of each point of docs/DESIGN-PASS.md. Run at the top; with -v it names each place;
with CRATE.. only those crates. It reads text: what it can't tell (is a loop's index counted by hand? do two functions differ
only in a type?) a person reads from the list that -v gives."""
import re
import sys
from collections import defaultdict
from pathlib import Path

verbose = "-v" in sys.argv
only = [a for a in sys.argv[1:] if not a.startswith("-")]
crates = sorted(p for p in Path("crates").iterdir() if not only or p.name in only)
sources = {}
for crate in crates:
    for path in sorted(crate.glob("src/**/*.rt")):
        sources[path] = path.read_text().split("\n")

places = defaultdict(list)


def line_places(point, pattern, without=None):
    """Each line of code that the pattern is in."""
    for path, lines in sources.items():
        for number, line in enumerate(lines, 1):
            code = line.split("//")[0]
            if re.search(pattern, code) and not code.lstrip().startswith(("ghost use", "requires", "ensures")):
                if not (without and re.search(without, code)):
                    places[point].append(f"{path}:{number}: {line.strip()}")


def functions():
    """Each function: its path, line, name, parameters, the text of its body."""
    for path, lines in sources.items():
        text = "\n".join(lines)
        for match in re.finditer(r"(?m)^( *)(?:pub |const |final )*(?:extern \"C\" )?fn (\w+)(?:<[^(]*>)?\(", text):
            depth, at = 1, match.end()
            while depth:
                depth += {"(": 1, ")": -1}.get(text[at], 0)
                at += 1
            parameters = [p.strip() for p in re.split(r",(?![^<(\[]*[>)\]])", text[match.end() : at - 1]) if p.strip()]
            body = re.search(r"(?m)^" + match.group(1) + r"(?:\{|.*\{)\n(.*?)^" + match.group(1) + r"\}", text[at:], re.S)
            yield path, text[: match.start()].count("\n") + 1, match.group(2), parameters, body.group(1) if body else ""


all_functions = list(functions())

# 1. variants of an own Option or Result; a refusal or a kind as a number; a flag beside a value; an answer that means "none"
line_places("1a own variants of Option or Result", r"^\s*(Refused\(u32\)|Nothing|At\(i32\)|Listed\(u32\)|Given\(|Done\(|Found\(TopDocs\))")
line_places("1b refusals as numbers", r"(return (1[0-6]|[1-9]);|Refused\((n|number|refusal|[0-9]+|_)\)|refusal [!=]= 0)")
line_places("1c kinds and occurrences as numbers", r"(^const (TERM|PHRASE|BOOLEAN|RANGE|EVERYTHING|MUST): u32|^\s*[1-9] => |(kind|occurrence)\([^)]*\) [!=]= [0-9]|\b(kind|occurrence) == ([0-9]|[A-Z])|\bk\.scores == |constant == 1|afterwards == 1|(norms|positions) [!=]= 1)")
line_places("1d a flag beside a value", r"^\s*pub (fine|hit|wrong|skipped|found|missing|present|required|high)\b: (bool|u32)")
line_places("1e an answer that means none", r"(== 0 \{$|next == terms\.len\(\)|return 0;|^\s*0 => )", without=r"len\(\) == 0|left == 0|remainder")

# 2. functions of one name in several places; functions with one body but for names
by_name = defaultdict(list)
for path, number, name, parameters, body in all_functions:
    by_name[name].append(f"{path}:{number}: {name}")
for name, found in sorted(by_name.items()):
    if len(found) > 1 and name != "main":
        places["2a functions of one name"].append(f"{len(found)}: " + ", ".join(found))
shapes = defaultdict(list)
for path, number, name, parameters, body in all_functions:
    shape = re.sub(r"\b[a-z_][a-z_0-9]*\b", "x", re.sub(r"//.*", "", body))
    shape = re.sub(r"\b(0x)?[0-9][0-9a-f_]*\b", "0", re.sub(r"\s+", " ", shape))
    if len(shape) > 12:
        shapes[shape].append(f"{path}:{number}: {name}")
for shape, found in sorted(shapes.items()):
    if len(found) > 1:
        places["2b bodies alike but for names and numbers"].append(f"{len(found)}: " + ", ".join(found))

# 3. loops
line_places("3a while and loop", r"^\s*(while|loop)\b")
line_places("3b an index moved by hand", r"^\s*\w+ (\+|-)= (1|3|32|NODE_STATE_WORDS|POSTING);")

# 4. by hand what a derive, From, Display or the library does
for path, number, name, parameters, body in all_functions:
    if re.match(r"(same_|is_rubbish|larger$|smaller$|later$|sooner$|wide|word$|word_of|number$|size$|signed$|to_f64$|joined$|low$|high$|print_)", name):
        places["4a equality, order, conversion, printing"].append(f"{path}:{number}: {name}")
line_places("4b a field copied", r"^\s*(\w+): (self|t|planes|s)\.\1,")

# 5. parameters that travel together
for path, number, name, parameters, body in all_functions:
    if len(parameters) > 6:
        places["5a functions of more than six parameters"].append(f"{path}:{number}: {name} {len(parameters)}")
for path, lines in sources.items():
    for number, line in enumerate(lines, 1):
        if re.search(r"(requires|ensures).*\b(lent|records|columns_only|runs_only|work) (max_doc|q\.now|\(length)", line):
            places["5b clauses that spell a record out"].append(f"{path}:{number}")

# 6. parallel arrays; buffers with a length beside them
line_places("6a parallel arrays", r"\b(nexts|presents|costs|places|counts): &")
line_places("6b a list with a count beside it", r"(list: &mut \[usize\]|out: &mut \[u8\]|count: usize, at: usize)")

# 7. a flag that says which step to run
for path, number, name, parameters, body in all_functions:
    for parameter in parameters:
        if re.search(r": bool$", parameter):
            places["7 a flag as a parameter"].append(f"{path}:{number}: {name} {parameter}")

# 8. proofs
for crate in crates:
    for path in sorted(crate.glob("proofs/**/Proof.antt")):
        places["8a walks by hand"].append(str(path))
    for path in sorted(crate.glob("proofs/**/Answers.antt")):
        for number, line in enumerate(path.read_text().split("\n"), 1):
            if re.match(r"pub \S+ : goal\.", line):
                places["8b answers"].append(f"{path}:{number}")

for path, lines in sources.items():
    for number, line in enumerate(lines, 1):
        if re.search(r"// Kept: ", line):
            places["kept, with a reason"].append(f"{path}:{number}: {line.strip()}")

for point in sorted(places):
    print(f"{len(places[point]):5} {point}")
    if verbose:
        for place in places[point]:
            print(f"      {place}")
