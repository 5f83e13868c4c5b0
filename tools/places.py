#!/usr/bin/env python3
"""Counts the places of docs/DESIGN-PASS.md in the sources: `tools/places.py` in the checkout, with `-l` each place by file and line."""
import glob, os, re, sys

LIST = "-l" in sys.argv
ROOT = os.path.dirname(os.path.dirname(os.path.abspath(__file__)))
FILES = {}
for path in sorted(glob.glob(ROOT + "/crates/*/src/*.rt")):
    name = path[len(ROOT) + 8:].replace("/src/", "/")
    lines = open(path).read().split("\n")
    FILES[name] = [line for line in lines if not line.lstrip().startswith("ghost use")]


def grep(pattern, skip=None):
    found = []
    for name, lines in FILES.items():
        for number, line in enumerate(lines, 1):
            code = line.split("//")[0]
            if re.search(pattern, code) and not (skip and re.search(skip, code)):
                found.append(f"{name}:{number}: {line.strip()}")
    return found


def comments(pattern):
    return [f"{name}: {line.strip()}" for name, lines in FILES.items() for line in lines if line.lstrip().startswith("//") and re.search(pattern, line)]


def functions():
    """Each function of the sources: crate, name, its text from `fn` to the closing brace."""
    for name, lines in FILES.items():
        text = "\n".join(lines)
        for m in re.finditer(r"^( *)(?:pub )?(?:extern \"C\" )?fn (\w+).*?^\1}", text, re.M | re.S):
            yield name.split("/")[0], m.group(2), m.group(0)


def twice(names):
    seen = {}
    for crate, name in names:
        seen.setdefault(name, set()).add(crate)
    return [f"{n}: {', '.join(sorted(c))}" for n, c in sorted(seen.items()) if len(c) > 1]


def facts():
    """Facts that stand in the `requires` of three functions or more, each with these functions."""
    found = {}
    for crate, name, text in FNS:
        if crate.startswith(("bargeclover", "run_")):
            continue
        for clause in re.findall(r"requires(?: \w+)? \{(.*?)\}\s*(?=\n)", text.split("\n{", 1)[0] + "\n", re.S):
            for fact in re.split("×", re.sub(r"[()]", " ", clause)):
                fact = re.sub(r"\.(now|old)\b", "", re.sub(r"\s+", " ", fact).strip())
                found.setdefault(fact, set()).add(f"{crate}::{name}")
    return [f"{f}: {len(who)}, {', '.join(sorted(who))}" for f, who in sorted(found.items()) if len(who) > 2]


FNS = list(functions())
BODY = [(c, n, t, t.split("\n{", 1)[-1]) for c, n, t in FNS]
POINTS = {
    "1a own enums": grep(r"^\s*(pub )?enum \w"),
    "1b a refusal or a kind as a number": grep(r"Refused\(\d|return [1-8];|^\s*[4-6]$|\{ \d \} else \{ [1-8] \}|fn \w*(fault|number_of|make_record|give_inputs)\w*\(.*-> u32") + grep(r"^\s*(pub )?(kind|number|field|op): (u8|u32)"),
    "1c 0 or another number for none": comments(r"\b0 for none|, or 0\.|and else 0|else 0\.|0 past|or 0$|256 where it is none"),
    "1d a flag beside a value": grep(r"^\s*(pub )?(good|all|cells|asked|there|got): (bool|usize)"),
    "2a functions of one name in more crates than one": twice((c, n) for c, n, t in FNS if n not in ("main",) and not n.startswith("bargeclover_")),
    "2b constants of one name in more crates than one": twice((f.split("/")[0], m.group(1)) for f, ls in FILES.items() for l in ls for m in [re.match(r"\s*(?:pub )?const (\w+)", l)] if m),
    "3 loops that count by hand": grep(r"\bwhile\b"),
    "4a a conversion as a function": [f"{c}: {n}" for c, n, t, b in BODY if re.fullmatch(r"\s*\w+ as \w+\s*\n}|\s*\w+ as \w+\s*}", b)],
    "4b a choice of the less, the more or the difference as a function": [f"{c}: {n}" for c, n, t, b in BODY if re.search(r"^\s*if (\w+) (<|>|<=) (\w+) \{ (\1|\3)( - \w+)? \} else \{ \w+ \}\s*\n?}", b)],
    "4c printing by a template or by parts": grep(r"run_io::(print|report|report_counts|say_line|line|decimal|hex)\("),
    "5a a stack and its shape": grep(r"fn .*dog: &\[f32\], t: Shape|^\s*t: Shape,|fn .*\bd: &\[f32\], t: Shape"),
    "5b a picture and its size": grep(r"fn .*img: &\[f32\], (s: Size|t: Patch|win: Window)"),
    "5c the tables of the routines": grep(r"(pairs|cubics|turns|t): &('a )?\[(u32; 512|f64; 256|f32; 272)\]"),
    "5d `Known e` in a contract": grep(r"requires.*\{ Known e \}"),
    "5e width, height and layers of a frame": grep(r"width: (u64|usize), height: (u64|usize), layers|^\s*layers: (usize|u64),$"),
    "5f the file and what is counted": grep(r"file: &mut impl Read, counts"),
    "5g a fact in the contracts of three functions or more": facts(),
    "6a a buffer and its length": grep(r"\[f32; 36\], count|count: usize, out|words: \[u32; 139\]|records: &mut \[u32; 8896\]|bytes: &\[u8; 9864\]|counts: &(mut )?\[u64; 32\]|: \[f32; 36\],$"),
    "3b loops over a range whose counter only makes places": [f"{c}: {n}" for c, n, t, b in BODY if re.search(r"for (\w+) in [^{]*\.\.[^{]*\{[^}]*\[[^\]]*\b\1\b", b)],
    "6b tables of more than one column or row in one": grep(r"\[(u32; 512|f64; 256|f32; 272)\] = \["),
    "7 a number or a flag that chooses a step": grep(r"fn \w+\(.*\b(up|asked|there|k|row|i|column): (bool|usize)\)? ?(->|,)", r"bins|&\["),
    "8a answers of proofs": [],
}
answers = helpers = lines = 0
for path in glob.glob(ROOT + "/crates/*/proofs/**/*.antt", recursive=True):
    text = open(path).read()
    lines += text.count("\n")
    named = len(re.findall(r"^(?:abbrev )?pub \S+ : goal\.", text, re.M))
    answers += named
for title, found in POINTS.items():
    if title.startswith("8"):
        print(f"8 answers and invariants of proofs: {answers}; lines of proofs: {lines}")
        continue
    print(f"{title}: {len(found)}")
    if LIST:
        for place in found:
            print("    " + place)
