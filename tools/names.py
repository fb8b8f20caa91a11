#!/usr/bin/env python3
"""Finds names in our texts that no longer exist.

    python3 tools/names.py [TEXT ..]          the texts below, or those given: a line for each name that is not found
    python3 tools/names.py --try [TEXT ..]    each name misspelled, each pair given to another crate: all must be found out

A name is what stands between backticks: a crate, a file or folder, what crates/*/src, specs and proofs define, a must-fail edit
(`edit` or `crate/edit`), what include/lot_search.h and harness define, a command. In code blocks it is a word with an underscore.
`crate` `name` is a pair; so are File `name`, with a file of specs or proofs, and `crate` File `name`. The name must be found
there, and so must those that follow behind a comma, "and" or "..". Any other name may stand anywhere.
Bare words are read where they can only be names: files in a list behind a crate (`crate` File, File and File) or behind
"`meaning`:", words like QueryRefusals, and all words of the drawing in docs/ARCHITECTURE.md, which are crates, parts or PLAIN.
The table of parts in docs/ARCHITECTURE.md must say what crates.txt says: the crates of each part, and which parts it uses.
"""
import os
import re
import subprocess
import sys

ROOT = os.path.dirname(os.path.dirname(os.path.abspath(__file__)))
PARTS = "docs/ARCHITECTURE.md"
TEXTS = ["docs/PROMISES.md", PARTS, "docs/SCOPE.md", "docs/REFUSALS.md", "README.md"]

# Names that are not ours: Rust's and C's own, Lucene's and the Rust source's, those of tools, and words of expressions.
OTHERS = set("""
    Vec Option Some None Ok Err Result Self Copy Drop From u8 u16 u32 u64 i32 i64 f32 f64 usize str
    mut extern pub fn const struct enum mod use self take drop length map min max requires ensures old now new result
    leading_zeros total_cmp ln double float rt antt cargo cc make bash git stdout stdin out target version
    stdint size_t uint8_t uint32_t uint64_t int32_t int64_t lm std c11 lot
    BooleanQuery PhraseQuery BM25Similarity SmallFloat PostingsEnum IndexSearcher create_weight next_doc
    floatToSortableInt sortableIntToFloat intToByte4 byte4ToInt longToInt4 int4ToLong
    liblot_search.a buyers_order shared rattle-kit-13f logic dac8208d650f15bf passed failed NaNs
""".split())
# words of the drawing that are no crates and no parts
PLAIN = set("""
    C and Rust Rattle ten files refused made ready asked Page at a time one by the words that hold it documents as definitions
    no code v
""".split())
# folders that are not in the repository: beside it, of the Rust source, made by a build
OUTSIDE = ("../", "./", "/", "src/search/", "docs/src", "crates/lot_search/out/")
COMMANDS = {"rt", "antt", "make", "cargo", "bash", "cc", "git", "python3", "cd"}
# folders that texts leave out before a path
BASES = ("", "crates/", "docs/", "harness/", "crates/meaning/")

IDENT = r"[A-Za-z_][A-Za-z0-9_']*(?:-[A-Za-z0-9_']+)*"
PATH = re.compile(IDENT + r"(?:::" + IDENT + r")*")
ANY = re.compile(r"\*\w+|\w+\*|\w+_NAME")
SPAN = re.compile(r"`([^`]+)`")
DRAWN = re.compile(r"(?<![\w./-])[A-Za-z]\w*(?:::\w+|_\w+)+(?![\w/])")
# what may stand between a crate and the name that is looked for in it: a file, or the kind of name
HEAD = re.compile(r" (?:(?P<file>[A-Z][A-Za-z0-9]*)(?: |, in proofs ))?(?:theorems? |laws? |functions? )?\(?")
# a file behind its crate, with no name looked for in it
ALONE = re.compile(r" ([A-Z][A-Za-z0-9]*)\b")
# and those in a list with it
BESIDE = re.compile(r"(?:, | and | or )([A-Z][A-Za-z0-9]*)\b")
# a sentence whose bare words with a capital are files of `meaning`
MEANT = re.compile(r"`(?:crates/meaning/specs|meaning)`: (.*?)(?:\.(?= |$)|$)")
WORD = re.compile(r"\b[A-Z][A-Za-z0-9]+\b")
# a word that can only be a name, bare
HUMPED = re.compile(r"\b[A-Z][a-z0-9]+(?:[A-Z][a-z0-9]+)+\b")
# and between two names of one list
NEXT = re.compile(r"(?:[ ,()]|\.\.|and\b|or\b|theorems?\b|laws?\b|\([^()]*\))*")
# a file of specs or proofs before a name, without its crate
NO_FILE = "An|As|At|By|For|From|How|If|In|It|No|Of|On|So|The|To|Tried|What|Where|With"
FILE = re.compile(rf"(?:^|[\s(;,])(?!(?:{NO_FILE}) )([A-Z][A-Za-z0-9]+) (?:theorems? |laws? )?$")

RUST = re.compile(r"\b(?:fn|struct|enum|const|static|trait|type|mod|union)\s+([A-Za-z_]\w*)")
RUST_TYPE = re.compile(r"(\s*)(?:pub(?:\([a-z]+\))? )?(?:struct|enum|union) \w.*\{$")
RUST_FIELD = re.compile(r"\s*(?:pub(?:\([a-z]+\))? )?([A-Za-z_]\w*)(?:,|:|\(| \{| =|$)")
RUST_AGAIN = re.compile(r"\s*pub use .*?(?:::\{([^}]*)\}|::(\w+));")
ANTT_WORDS = "pub|abbrev|unfoldable|opaque|record|data|theorem|lemma|inline|instance|private"
ANTT_ARGUMENTS = r"(?: ?\{[^}]*\}| ?\([^)]*\))*"
ANTT = re.compile(rf"(?:  )?(?:  (?=pub))?(?:(?:{ANTT_WORDS}) )*([^\s:(){{}}=|][^:(){{}}=|]*?){ANTT_ARGUMENTS}\s+:(?:\s|$)")
# a record's or a data's name, whose head may go on over lines
RECORD = re.compile(r"^ *(?:(?:pub|private) )*(?:record|data) ([^\s:(){}=|]+)", re.M)
C_NAME = re.compile(r"^#define (\w+)|\b(lot_\w+)\(", re.M)


def read(path):
    with open(os.path.join(ROOT, path), encoding="utf-8", errors="replace") as file:
        return file.read()


def tracked():
    """the repository's files, those not yet added too"""
    made = subprocess.run(["git", "ls-files", "-co", "--exclude-standard"], cwd=ROOT, capture_output=True, text=True, check=True)
    return [path for path in made.stdout.split("\n") if os.path.isfile(os.path.join(ROOT, path))]


def rust_names(text):
    """functions, types, constants, modules, names that are used again, and the fields and cases of structs and enums"""
    names, body = set(), None
    for line in text.split("\n"):
        if line.lstrip().startswith("//"):
            continue
        names.update(RUST.findall(line))
        if body is not None and line.startswith(body + "}"):
            body = None
        again, field, opened = RUST_AGAIN.match(line), RUST_FIELD.match(line), RUST_TYPE.match(line)
        if again:
            names.update(re.findall(r"\w+", again[1] or again[2]))
        if field and body is not None:
            names.add(field[1])
        if opened:
            body = opened[1]
    return names


def antt_names(text):
    """definitions, records with their fields, data with their cases, theorems"""
    lines = (line for line in text.split("\n") if not line.lstrip().startswith(("--", "let ", "have ", "show ")))
    names = {name for found in map(ANTT.match, lines) if found for name in found[1].split()}
    return names.union(RECORD.findall(text))


def parts_of(text):
    """the parts of crates.txt in their order: of each its crates, and of each crate what it depends on"""
    parts = []
    for line in text.split("\n"):
        if line.startswith("# ===="):
            parts.append({})
        elif line and not line.startswith("#"):
            crate, _, uses = line.partition(":")
            parts[-1][crate.split()[0]] = uses.split()
    return parts


def table_of(text):
    """the rows of the table of parts: part, crates, uses"""
    table = text.partition("| part | crates | uses |\n")[2].split("\n\n")[0]
    return [[cell.strip() for cell in line.split("|")[1:-1]] for line in table.split("\n")[1:]]


def wrong_parts(parts, text):
    """what the table of parts says otherwise than crates.txt"""
    rows = table_of(text)
    if len(rows) != len(parts):
        return [f"{len(rows)} parts, and {len(parts)} in crates.txt"]
    home = {crate: row[0] for row, part in zip(rows, parts) for crate in part}
    wrong = []
    for (name, crates, uses), part in zip(rows, parts):
        crates = SPAN.findall(crates)
        used = {home[crate] for below in part.values() for crate in below if crate in home} - {name}
        said = set(re.sub(r" \([^)]*\)", "", uses).split(", ")) - {""}
        wrong += [f"part {name}: {crate} is not there in crates.txt" for crate in crates if crate not in part]
        wrong += [f"part {name}: {crate} is not in the table" for crate in part if crate not in crates]
        wrong += [f"part {name} uses {other}: crates.txt and the table differ" for other in sorted(used ^ said)]
    return wrong


class Names:
    """what exists: names by crate, by file of specs or proofs, and anywhere"""

    def __init__(self):
        files = tracked()
        self.paths = set(files)
        self.parts = parts_of(read("crates.txt"))
        self.crates = {crate for part in self.parts for crate in part}
        self.own = {crate: set() for crate in self.crates}
        # of a file's or a folder's name, for each crate that has one: what it defines
        self.inside = {}
        self.anywhere = self.crates | OTHERS
        self.targets = set(re.findall(r"^([a-z-]+):", read("Makefile"), re.M))
        for path in files:
            parts = path.split("/")
            self.paths.update("/".join(parts[:i]) for i in range(1, len(parts)))
            # a folder of proofs says nothing: it may have been left behind
            self.anywhere.update([*parts[:3], parts[-1]])
            self.add(path, parts)
        self.anywhere.update(*self.own.values())

    def add(self, path, parts):
        """the names of one file"""
        stem, kind = os.path.splitext(parts[-1])
        self.anywhere.add(stem)
        if parts[0] == "crates" and parts[1] in self.own:
            own = self.own[parts[1]]
            own.add(stem)
            if kind == ".rt":
                own |= rust_names(read(path))
            if kind == ".antt":
                names = antt_names(read(path))
                own |= names
                for name in {stem, parts[-2]}:
                    self.inside.setdefault(name, {}).setdefault(parts[1], set()).update(names)
        elif kind == ".rs":
            self.anywhere |= rust_names(read(path))
        elif kind == ".h":
            self.anywhere.update(name for pair in C_NAME.findall(read(path)) for name in pair)

    def is_path(self, name):
        """a file or folder"""
        name = name.removesuffix("/FILE").rstrip("/")
        return any(base + name in self.paths for base in BASES)

    def is_edit(self, crate, name):
        return f"crates/{crate}/must-fail/{name}.edit" in self.paths

    def in_crate(self, crate, name):
        return name in self.own[crate] or self.is_edit(crate, name)


class Cell:
    """The names of a text without cell borders: for each where it stands, the crate it was looked for in, and what is wrong.

    `home` and `files` are where the next name of a list is looked for: a crate, or what some files define.
    """

    def __init__(self, names, at, text):
        self.names, self.at, self.text = names, at, text
        self.found = []
        self.edits = None
        self.anywhere()

    def anywhere(self):
        self.home, self.files, self.label = None, None, ""

    def note(self, span, wrong, home=None, start=0):
        self.found.append((self.at + start + span.start(1), span[1], home, wrong))

    def read(self):
        spans = list(SPAN.finditer(self.text))
        for i, span in enumerate(spans):
            begin = spans[i - 1].end() if i else 0
            before = self.text[begin:span.start()]
            after = self.text[span.end():spans[i + 1].start() if i + 1 < len(spans) else None]
            if i and not self.goes_on(before):
                self.anywhere()
            file = FILE.search(before)
            if file and self.home is None and PATH.fullmatch(span[1]):
                self.files, self.label = list(self.names.inside.get(file[1], {}).values()), file[1]
                self.note(file, None, start=begin)
            if not self.head(span, after, i + 1 < len(spans)):
                self.one(span)
        return self.found

    def goes_on(self, between):
        """whether a list goes on: behind its crate or file, or behind another of its names"""
        return NEXT.fullmatch(between) or (self.home is not None and HEAD.fullmatch(between))

    def head(self, span, after, more):
        """a crate that says where the names behind it stand, or with a file of its own behind it"""
        crate, inside = span[1], self.names.inside
        if crate not in self.names.crates:
            return False
        self.note(span, None)
        head, file = HEAD.fullmatch(after) if more else None, ALONE.match(after)
        if head:
            self.home, self.files, self.label = crate, None, crate
        elif file:
            self.anywhere()
        else:
            self.found.pop()
        if file:
            there = inside.get(file[1], {}).get(crate)
            self.note(file, None if there is not None else f"no such file in specs or proofs of {crate}", start=span.end())
            if not head:
                self.beside(crate, after, file.end(), span.end())
        if head and file:
            self.label, self.files = f"{crate} {file[1]}", [there or set()]
        return bool(head or file)

    def beside(self, crate, after, at, start):
        """the files in a list behind a crate and its first"""
        while file := BESIDE.match(after, at):
            there = crate in self.names.inside.get(file[1], {})
            self.note(file, None if there else f"no such file in specs or proofs of {crate}", start=start)
            at = file.end()

    def one(self, span):
        """any other name"""
        name, names = span[1], self.names
        crate, _, edit = name.partition("/")
        if crate in names.crates and names.is_edit(crate, edit):
            self.edits = crate
            self.note(span, None, crate)
        elif ANY.fullmatch(name):
            pattern = re.compile(re.sub(r"\*|NAME", r"\\w+", name))
            self.note(span, None if any(map(pattern.fullmatch, names.crates)) else "no crate is named so")
        elif PATH.fullmatch(name):
            self.path(span, name.split("::"))
        elif name.split()[0] in COMMANDS:
            self.command(span, name.split())
        elif re.fullmatch(r"\S+/\S*|\S+\.[a-z]+", name) and "(" not in name:
            there = name in OTHERS or name.startswith(OUTSIDE) or names.is_path(name)
            there = there or f"crates/{self.home}/src/{name}" in names.paths
            self.note(span, None if there else "no such file, folder or edit")
        else:
            wrong = [word for word in re.findall(IDENT, name) if len(word) > 1 and word not in names.anywhere]
            self.note(span, f"no such name: {', '.join(wrong)}" if wrong else None)

    def path(self, span, parts):
        """a name, or names joined by ::"""
        home, files, label = self.home, self.files, self.label
        if len(parts) > 1 and parts[0] in self.names.crates:
            home, files, label = parts[0], None, parts[0]
            parts = parts[1:]
        if files is not None:
            missing = [part for part in parts if not any(part in inside for inside in files)]
        elif home is not None:
            missing = [part for part in parts if not self.names.in_crate(home, part)]
        else:
            missing = [part for part in parts if part not in self.names.anywhere]
            if self.edits and self.names.is_edit(self.edits, parts[0]):
                home, missing = self.edits, []
        place = f" in {label}" if label else ""
        self.note(span, f"no such name{place}: {'::'.join(missing)}" if missing else None, home if files is None else None)

    def command(self, span, words):
        names = self.names
        wrong = [word for word in words[1:] if words[0] == "make" and "=" not in word and word not in names.targets]
        for before, word in zip(words, words[1:]):
            if before == "--bin" and not any(names.is_path(f"harness/src/bin/{word}{end}") for end in ("", ".rs")):
                wrong.append(word)
            if before in ("bash", "python3", "cd") and not word.startswith(OUTSIDE) and not names.is_path(word):
                wrong.append(word)
        self.note(span, f"not there: {', '.join(wrong)}" if wrong else None)


def drawn(names, line):
    """the names of a line of a code block"""
    found = []
    for word in DRAWN.finditer(line):
        missing = [part for part in word[0].split("::") if part not in names.anywhere]
        found.append((word.start(), word[0], None, f"no such name: {'::'.join(missing)}" if missing else None))
    return found


def boxed(names, line):
    """the words of a line of the drawing"""
    parts = {name for name, *_ in table_of(read(PARTS))}
    found = []
    for word in re.finditer(r"[A-Za-z_]\w*", line):
        if word[0] not in PLAIN:
            there = word[0] in names.crates or word[0] in parts
            found.append((word.start(), word[0], None, None if there else "no crate and no part is named so"))
    return found


def bare(names, line):
    """the names of a line that stand without backticks"""
    found = []
    plain = SPAN.sub(lambda span: " " * len(span[0]), line)
    for word in HUMPED.finditer(plain):
        there = any(name in names.anywhere for name in (word[0], word[0].removesuffix("s")))
        found.append((word.start(), word[0], None, None if there else f"no such name: {word[0]}"))
    for sentence in MEANT.finditer(line):
        for word in WORD.finditer(plain, *sentence.span(1)):
            there = "meaning" in names.inside.get(word[0], {})
            found.append((word.start(), word[0], None, None if there else "no such file in specs or proofs of meaning"))
    return found


def names_of(names, line, block):
    """the names of a line: cell by cell where it is a table's"""
    if block:
        return boxed(names, line) if block == "drawing" else drawn(names, line)
    found, at = [], 0
    for cell in re.split(r"( \| |^\| | \|$)", line):
        if "`" in cell:
            found += Cell(names, at, cell).read()
        at += len(cell)
    seen = {place for place, *_ in found}
    return found + [name for name in bare(names, line) if name[0] not in seen]


def lines_of(path):
    """the lines of a text with their numbers, and whether each stands in a code block"""
    fenced = False
    for number, line in enumerate(read(path).split("\n"), 1):
        if line.startswith("```"):
            fenced = not fenced
        else:
            drawing = "drawing" if fenced and path == PARTS else fenced
            yield number, line, drawing or (line.startswith("    ") and "`" not in line)


def check(names, paths):
    """what is wrong in the texts"""
    count, wrongs = 0, []
    for path in paths:
        if path == PARTS:
            wrongs += [f"{path}: {wrong}" for wrong in wrong_parts(names.parts, read(path))]
        for number, line, block in lines_of(path):
            found = names_of(names, line, block)
            count += len(found)
            wrongs += [f"{path}:{number}: `{name}`: {wrong}" for _, name, _, wrong in found if wrong]
    for line in wrongs:
        print(line)
    print(f"names: {count} in {len(paths)} texts, {len(wrongs)} wrong")
    return 1 if wrongs else 0


def elsewhere(names, line, home, name):
    """the line with a pair given to a crate that has no such name, where it is a pair"""
    pair = f"`{home}` `{name}`"
    if home is None or pair not in line or "::" in name:
        return None
    other = next(crate for crate in sorted(names.crates) if not names.in_crate(crate, name))
    return line.replace(pair, f"`{other}` `{name}`")


def unnoticed_rows(names):
    """the rows of the table of parts whose first crate may be left out"""
    text = read(PARTS)
    before = len(wrong_parts(names.parts, text))
    for row in re.findall(r"^\| \w+ \| `.*\|$", text, re.M):
        changed = text.replace(row, re.sub(r"`\w+`", "`gone`", row, count=1))
        if len(wrong_parts(names.parts, changed)) <= before:
            yield f"{PARTS}: {row}"


def attempt(names, paths):
    """each name misspelled, each pair given to another crate, each row of the parts without a crate: what is not found out"""
    tried, pairs, missed = 0, 0, list(unnoticed_rows(names))
    places = ((path, *line) for path in paths for line in lines_of(path))
    for path, number, line, block in places:
        for at, name, home, _ in names_of(names, line, block):
            if name.split()[0] in COMMANDS | OTHERS or name.startswith(OUTSIDE) or not re.search(r"\w", name):
                continue
            end = at + re.match(r".*\w", name).end()
            changes = [line[:end] + "NoSuchName" + line[end:]]
            pair = elsewhere(names, line, home, name)
            changes += [pair] if pair else []
            tried, pairs = tried + 1, pairs + len(changes) - 1
            for change in changes:
                if not any(wrong for *_, wrong in names_of(names, change, block)):
                    missed.append(f"{path}:{number}: {change}")
    for line in missed:
        print(f"not found out: {line}")
    print(f"names: {tried} misspelled and {pairs} pairs in another crate, {len(missed)} not found out")
    return 1 if missed or tried < 1500 or pairs < 150 else 0


def main(arguments):
    paths = [argument for argument in arguments if argument != "--try"] or TEXTS
    step = attempt if "--try" in arguments else check
    return step(Names(), paths)


if __name__ == "__main__":
    sys.exit(main(sys.argv[1:]))
