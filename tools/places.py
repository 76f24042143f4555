#!/usr/bin/env python3
"""Counts, in crates/*/src, the places where a form of today's Rattle may stand for an older one (docs/DESIGN-PASS.md): one part a point, each place
on a line. Proofs are counted in lines. Run at the top of the repository: tools/places.py [POINT]."""
import collections
import glob
import re
import sys

WANTED = sys.argv[1:]


def functions(text):
    """(line, name, head, body) of each function."""
    for m in re.finditer(r"^([ \t]*)((?:#\[[^\n]*\n[ \t]*)?(?:pub )?(?:extern \"C\" )?fn (\w+))", text, re.M):
        start = text.find("{\n", m.end())
        depth, i = 0, m.end()
        # the body begins at the first brace that opens a line of its own, or ends the line of the signature
        body = re.compile(r"^" + m.group(1) + r"\{\n|[^\n]*\{\n", re.M)
        lines = text[m.start():].split("\n")
        head, rest = [], []
        for n, line in enumerate(lines):
            if line == m.group(1) + "{" or (line.endswith("{") and not line.strip().startswith(("requires", "ensures"))):
                head, rest = lines[:n + 1], lines[n + 1:]
                break
        end = next((n for n, line in enumerate(rest) if line == m.group(1) + "}"), len(rest))
        yield text[:m.start()].count("\n") + 1, m.group(3), "\n".join(head), "\n".join(rest[:end])


files = sorted(glob.glob("crates/*/src/*.rt"))
sources = {f: open(f).read() for f in files}
found = {f: list(functions(s)) for f, s in sources.items()}


def part(point, title, places):
    if WANTED and str(point) not in WANTED:
        return
    print(f"{point} {title}: {len(places)}")
    for p in places:
        print("   ", p)


def grep(pattern, keep=lambda m: True):
    out = []
    for f, s in sources.items():
        for n, line in enumerate(s.split("\n"), 1):
            m = re.search(pattern, line)
            if m and not line.strip().startswith(("//", "ghost", "requires", "ensures")) and keep(m):
                out.append(f"{f}:{n}: {line.strip()}")
    return out


part(1, "own enums", grep(r"^(pub )?enum \w+"))
part(1, "constants that are compared as kinds", [
    f"{f}: {name}" for f, s in sources.items() for name in re.findall(r"^(?:pub )?const (\w+): u(?:8|64|size) =", s, re.M)
    if any(re.search(rf"(==|!=) (\w+::)?{name}\b|\b{name} (==|!=|=>)|::{name} =>", t) for t in sources.values())])
part(1, "functions that answer bool, a number that may stand for none, or a struct with a cause", [
    f"{f}:{n}: {name}{m.group(0)}" for f, fs in found.items() for n, name, head, body in fs
    for m in [re.search(r" -> (bool|Answer|Verdict|Reading|Outcome|Written|Asked|Found|Cause|Kind|Begin|Finding|Refusal)\b", head)] if m])


def skeleton(head, body):
    text = re.sub(r"//[^\n]*", "", head[head.find("("):].split("\n    requires")[0].split("\n    ensures")[0] + body)
    names, out = {}, []
    for word in re.findall(r"[A-Za-z_]\w*|\d+|\S", text):
        if re.match(r"[A-Za-z_]", word) and word not in ("let", "mut", "if", "else", "while", "for", "in", "return", "match", "as", "true", "false", "u8", "u16", "u64", "usize", "bool"):
            word = "?"
        elif word.isdigit() or word in ("u8", "u16", "u64", "usize"):
            word = "#"
        out.append(word)
    return " ".join(out)


groups = collections.defaultdict(list)
for f, fs in found.items():
    for n, name, head, body in fs:
        if len(body.split("\n")) >= 3:
            groups[skeleton(head, body)].append(f"{f.split('/')[1]}::{name}")
part(2, "groups of functions of one shape, three lines or more", [" ".join(g) for g in groups.values() if len(g) > 1])
shapes = collections.defaultdict(list)
for f, s in sources.items():
    for m in re.finditer(r"^pub (?:struct|enum) (\w+)[^{]*\{\n(.*?)^\}", s, re.M | re.S):
        shapes[re.sub(r"\w+: ", "", re.sub(r"\b[A-Z]\w+", "?", m.group(2)))].append(f"{f.split('/')[1]}::{m.group(1)}")
part(2, "types of one shape", [" ".join(g) for g in shapes.values() if len(g) > 1])


def counting(body):
    lines = body.split("\n")
    for n, line in enumerate(lines):
        m = re.match(r"( *)while (.*) \{$", line)
        if not m:
            continue
        end = next(k for k in range(n + 1, len(lines)) if lines[k] == m.group(1) + "}")
        step = [v for v in re.findall(r"(\w+) [+-]= 1;", "\n".join(lines[n:end])) if re.search(rf"\b{v}\b", m.group(2))]
        yield n, m.group(2), bool(step)


part(3, "loops that count an index by hand", [f"{f.split('/')[1]}::{name}: while {test}" for f, fs in found.items() for n, name, head, body in fs for k, test, step in counting(body) if step])
part(3, "other while loops", [f"{f.split('/')[1]}::{name}: while {test}" for f, fs in found.items() for n, name, head, body in fs for k, test, step in counting(body) if not step])
part(3, "for loops", grep(r"^\s*for .* in "))
part(4, "order and conversion by functions of our own", grep(r"least::(greater|lesser|less|short)\(|\bwide\("))
part(4, "conversion by as to a wider type", grep(r"\b(as u16|as u64|as usize)\b"))
part(4, "printing by functions of our own, and names of kinds or refusals", [f"{f.split('/')[1]}::{name}" for f, fs in found.items() for n, name, head, body in fs if re.match(r"print_|put|digit|refusal_number|flow_named|kind_named|code$|figure_of$|high$|low$|join$", name)])
part(4, "impl blocks", grep(r"^impl\b"))
words, together = collections.defaultdict(set), collections.defaultdict(set)
for f, fs in found.items():
    for n, name, head, body in fs:
        where = f"{f.split('/')[1]}::{name}"
        for clause in re.findall(r"^\s*requires[^{]*(\{.*\})$", head, re.M):
            for fact in re.findall(r"\b([A-Z]\w+(?: [\w.']+)+)", clause):
                words[fact.split()[0]].add(where)
        names = re.findall(r"(\w+): &(?:mut )?\[\w+\]", head)
        for k in range(len(names) - 1):
            together[" ".join(names[:k + 2])].add(where)
part(5, "facts in the requires of three or more functions", [f"{w}: {len(s)}" for w, s in sorted(words.items(), key=lambda x: -len(x[1])) if len(s) > 2])
part(5, "slices that are lent together in three or more functions", [f"{w}: {len(s)}" for w, s in sorted(together.items(), key=lambda x: -len(x[1])) if len(s) > 2])
part(6, "arrays with a length beside them", grep(r"^\s*(pub )?(count: usize|length: u8)"))
part(6, "lent arrays read by index", sorted({f"{n}: {t}" for f, fs in found.items() for _, _, head, _ in fs for n, t in re.findall(r"(\w+): &(?:mut )?(\[u64\]|\[u16\])", head)} | {f"{n}: {t}" for f, fs in found.items() for _, _, head, _ in fs for n, t in re.findall(r"(pairs): &(?:mut )?(\[u8\])", head)}))
part(7, "matches and chains that choose a step", [f"{f.split('/')[1]}::{name}" for f, fs in found.items() for n, name, head, body in fs
    if re.search(r"match \w+ \{\n(.*=> \w+\(.*\n){2}", body) or len(re.findall(r"== \w+::[A-Z]+ \{", body)) > 1])
if not WANTED or "8" in WANTED:
    def lines(pattern):
        return sum(len(open(f).read().split("\n")) - 1 for f in glob.glob(pattern, recursive=True))
    print(f"8 lines of proofs, function by function: {lines('crates/*/proofs/*/**/Answers.antt') + lines('crates/*/proofs/*/**/Invariants.antt')}, of laws: {lines('crates/*/proofs/*.antt')}")
    print(f"8 answers: {sum(len(re.findall(r'^pub [a-z_]', open(f).read(), re.M)) for f in glob.glob('crates/*/proofs/*/**/Answers.antt', recursive=True))}")
