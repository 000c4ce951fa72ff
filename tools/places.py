#!/usr/bin/env python3
"""Counts the places in src/ that the design pass is about (docs/DESIGN-PASS.md says where it begins).

    python3 tools/places.py            the files as they stand
    python3 tools/places.py COMMIT     the files of a commit
    python3 tools/places.py -l ROW     the places of one row, each with its line

The first rows go by the names of commit 3f3ef8e: they say how many of its places are left. The rows behind them go by form, and find a place under any name.
A place is not yet a fault: the code beside it may say why it stays.
"""
import collections
import re
import subprocess
import sys

# A row by names: what it counts, and the pattern of a line of code that has such a place.
ROWS = [
    ("1a", "own enums of the shape of Option or Result", r"^(pub )?enum (Checked|Reading|Answer|Entered|Passed|Asked|Surveyed)\b"),
    ("1b", "structs with a flag, or a number that stands for none, beside a value", r"^(pub )?struct (Taken|Due|Input|Held|Cursor|Walked|Found|Kth)\b"),
    ("1c", "numbers that stand for none", r"\bNO_KIND\b|\bNOT_PLAIN\b|\bNOTHING\b|\bNONE\b|\bABOVE\b|\bEXPANDED\b|\bnext == 0\b|\b0 < [a-z]+\.next\b"),
    ("1d", "searches that answer the end where nothing is found", r"^fn (bad_pin|bad_arc|bad_into|bad_test|last_tie)\b"),
    ("1e", "kinds as numbers", r"\bhas_times\(k|\bkind_of\(|^(?!.*(Some\(|Option<|ok_or)).*\bletter_of\(|[<=]=? Kind::[RBKID]\b|pub const ([RBID]: usize|K: usize = 2\b)"),
    ("1f", "fields of the table by number", r"\bof_(pin|arc|test)\(table, [0-9a]"),
    ("1g", "the mode as a number", r"\bmode: u32"),
    ("2a", "conversions, comparisons and parts of numbers written as functions", r"^(pub )?fn (wide|wide16|wide32|word|count|half|up|one_if|less|lesser|nearer|least|above|below|add_capped|difference)\b(?!\(table|\(work|\(xs)"),
    ("2b", "other functions that stand twice", r"^(pub )?fn (of_arc|fill|fill_room|fill_work|sum_room|sum_work|sum_places|sum_ranked|behind_numbers|next_case|all_cases|bad_pin|bad_arc|bad_into|bad_test|enter_array|enter_in|has_times)\b"),
    ("3a", "`while` loops", r"^\s*while "),
    ("3b", "indices counted by hand", r"^\s*(i|j|p|q|a|v|n|at|next|test|place|rank|turns|left|rounds)( \+= 1| -= 1);"),
    ("4a", "equality, order, conversion and printing by hand", r"^\s*(pub )?fn (alike|greater|kind_of|letter_of|reading_told|checked_told|answer_told|entered_told|found|joined|spell|put_number|put_signed)\b"),
    ("4b", "fields written twice (`x: x`)", r"^\s*([a-z_]+): \1,"),
    ("5a", "clauses that bound k", r"k ≤ most_k"),
    ("5b", "functions over `table`, `mode` and `work` apart", r"\bmode: u32,$|\(table: &\[u32\], mode: u32, work"),
    ("5c", "functions over lent bytes and a place in them", r"^(pub )?fn [a-z_0-9]+(<[^>]*>)?\((out: &mut \[u8\], at: usize|bytes: &\[u8\], (at|from): usize|stored: &\[u8\], at: usize|text: &\[u8\], at: usize)"),
    ("6", "buffers with a length beside, parallel arrays", r"\blist: \[Candidate; |\bslots: \[u8; |\bentries: &(mut )?\[u64; |\bqueue: &(mut )?\[u64; |\bnumbers: \[u32; 4\]"),
    ("7", "closures or function tables made and handed out", r"\bdyn |-> *(impl )?Fn|: fn\("),
]


# A number that stands for none, as comments say it.
FOR_NONE = r"\b(if (there )?(is|are) (none|no|not|fewer)|where there (is|are) (none|no|fewer)|or the end|the end where|where it is no|where it has none|; 0 (where|if)|NONE (where|at|if)|if none|none (if|where))"

# Words that stay when two bodies are compared; other names count as one.
WORDS = "if else for in while let mut return match as true false break continue Some None Ok Err".split()

# A body of one comparison, conversion or field.
ONE_STEP = r"\s*(\*?[\w.\[\]]+ (==|<|>|<=|>=) \*?[\w.\[\]]+|\w+ as \w+|\w+::from\(\w+\)|[\w.]+\.(max|min)\([\w.]+\))$"

Function = collections.namedtuple("Function", "file line head contract body comment")


def git(*args):
    return subprocess.run(["git", *args], capture_output=True, text=True, check=True).stdout


def sources(commit):
    """The source files: name and lines."""
    if commit:
        names = [n for n in git("ls-tree", "-r", "--name-only", commit, "crates").split() if re.match(r"crates/[a-z_]+/src/.*\.rt$", n)]
        return [(n, git("show", f"{commit}:{n}").splitlines()) for n in names]
    return [(n, open(n, encoding="utf-8").read().splitlines()) for n in git("ls-files", "crates/*/src/*.rt").split()]


def above(lines, i):
    """The comment and the attributes above a line, as one text."""
    first = i
    while first and lines[first - 1].lstrip().startswith(("//", "#[")):
        first -= 1
    return " ".join(l.strip() for l in lines[first:i])


def blocks(files, word):
    """What begins with a word and ends with a brace: file, place of the first line, its lines, the comment above."""
    for name, lines in files:
        for i, line in enumerate(lines):
            start = re.match(rf'(\s*)(pub )?(extern "C" )?(final )?(const )?{word} \w+', line)
            if start:
                end = next((j for j in range(i + 1, len(lines)) if lines[j].startswith(start[1] + "}")), i)
                yield name, i, lines[i:end], above(lines, i)


def functions(files):
    """The functions, each taken apart; comments in bodies are left out."""
    for name, i, block, comment in blocks(files, "fn"):
        clause = r"\s*(requires|ensures|decreases)\b"
        opened = next((j for j, l in enumerate(block) if l.rstrip().endswith("{") and not re.match(clause, l)), len(block) - 1)
        clauses = next((j for j in range(opened) if re.match(clause, block[j])), opened + 1)
        body = [(i + j + 1, l) for j, l in enumerate(block) if opened < j and not l.lstrip().startswith("//")]
        head, contract = (" ".join(l.strip() for l in part) for part in (block[:clauses], block[clauses:opened]))
        yield Function(name, i + 1, head, contract, body, comment)


def alike(found):
    """Functions whose bodies are those of another but for names, strings and numbers."""
    groups = collections.defaultdict(list)
    for f in found:
        text = re.sub(r"b?\"[^\"]*\"|b'[^']*'", "s", " ".join(l.strip() for _, l in f.body))
        text = re.sub(r"[A-Za-z_]\w*(::\w+)*", lambda m: m[0] if m[0] in WORDS else "n", text)
        text = re.sub(r"\s|,(?=\s*[)}\]])", "", re.sub(r"\b\d+\b", "0", text))
        if len(text) >= 24:
            groups[text].append(f)
    return [f for group in groups.values() if len(group) > 1 for f in group]


def same_constants(files):
    """Constants with a number of two digits or more that another crate has too."""
    groups = collections.defaultdict(list)
    for name, lines in files:
        for i, line in enumerate(lines, 1):
            m = re.match(r"\s*(?:pub )?const \w+: \w+ = (\d\d+);", line)
            if m:
                groups[m[1]].append((name, i, line.strip()))
    return [place for group in groups.values() if len({name.split("/")[1] for name, _, _ in group}) > 1 for place in group]


def loops_over_one(found):
    """Loops `for` over a range, whose index goes into one slice and no second one."""
    for f in found:
        for at, (number, line) in enumerate(f.body):
            m = re.match(r"(\s*)for (\w+) in [^{]*\.\.", line)
            if m and m[2] != "_":
                inside = []
                for _, l in f.body[at + 1:]:
                    if l.startswith(m[1] + "}"):
                        break
                    inside.append(l)
                slices = set(re.findall(r"([\w.]+)\[(?:\w+ [+-] )*" + m[2] + r"(?: [+-] \w+)*\]", " ".join(inside)))
                if len(slices) == 1:
                    yield f.file, number, line.strip()


def shared_facts(found):
    """Facts of arguments that stand in the contracts of three or more functions: the first such function, and the fact."""
    stands = collections.defaultdict(list)
    for f in found:
        parts = {re.sub(r"\.?\b(old|new|now)\b", "", part).strip(" ()") for part in re.split(r"[{}]|×|,", f.contract)}
        for part in parts:
            if re.search(r"[≤<≡]", part) and "result" not in part and 6 < len(part) < 60:
                stands[part].append(f)
    return [(fs[0].file, fs[0].line, f"{fact}   ({len(fs)} functions)") for fact, fs in stands.items() if len(fs) > 2]


def parameters(f):
    return len(re.findall(r"\b\w+: ", re.sub(r"<[^()]*>(?=\()", "", f.head).split("->")[0]))


def by_form(files):
    """The rows by form: key, what it counts, its places."""
    found = list(functions(files))
    code = [(f.file, number, line.strip()) for f in found for number, line in f.body]

    def heads(test):
        return [(f.file, f.line, f.head) for f in found if test(f)]

    def with_code(pattern):
        return [place for place in code if re.search(pattern, place[2])]

    counted = [(name, i + 1, block[0].strip()) for name, i, block, _ in blocks(files, "struct")
               if any(re.search(r"\[.*; ", l) for l in block) and any(re.search(r": (usize|u32|u64)\b", l) for l in block)]
    twins = {(f.file, f.line) for f in alike(found)}
    return [
        ("1h", "functions whose comment says that they answer a number for none", heads(lambda f: re.search(r"-> (usize|u\d+|i64|\[)", f.head) and re.search(FOR_NONE, f.comment))),
        ("1i", "none, or an error, turned into 0", with_code(r"unwrap_or\(0\)|map_or\(0,|(None|Err\(_\)|_) => 0,")),
        ("2c", "functions alike but for names, strings and numbers", heads(lambda f: (f.file, f.line) in twins)),
        ("2d", "constants with the same number in two crates", same_constants(files)),
        ("3c", "`for` over a range whose index goes into one slice", list(loops_over_one(found))),
        ("3d", "counters moved by hand, of any name", with_code(r"^[\w.]+ [+-]= 1;")),
        ("4c", "functions of one comparison, conversion or field", heads(lambda f: len(f.body) == 1 and re.match(ONE_STEP, f.body[0][1]))),
        ("5d", "facts in the contracts of three or more functions", shared_facts(found)),
        ("5e", "functions of six or more parameters", heads(lambda f: parameters(f) >= 6)),
        ("6b", "functions that take an array with a count, or two arrays", heads(lambda f: re.search(r"\[[\w:]+; ", f.head) and (len(re.findall(r": &?(?:mut )?\[[^\]]*;", f.head)) > 1 or re.search(r"\b(n|k|count|len): usize", f.head)))),
        ("6c", "structs with an array of any type and a number beside", counted),
        ("7b", "branches on which kind of line or which mode", with_code(r"if (mode == 0|i < (p|design\.pins)\b|i - (p|design\.pins))")),
    ]


def main():
    args = sys.argv[1:]
    row = None
    if args[:1] == ["-l"]:
        row, args = args[1], args[2:]
    files = sources(args[0] if args else None)
    code = [(n, i, l) for n, lines in files for i, l in enumerate(lines, 1) if not l.lstrip().startswith("//")]
    by_name = [(key, what, [(n, i, l.strip()) for n, i, l in code if re.search(pattern, l)]) for key, what, pattern in ROWS]
    for key, what, places in by_name + by_form(files):
        if row is None:
            print(f"{key:3} {len(places):4}  {what}")
        elif row == key:
            for n, i, l in places:
                print(f"{n}:{i}: {l}")


main()
