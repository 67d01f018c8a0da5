#!/usr/bin/env python3
"""Counts the places in crates/*/src that an older style of Rattle leaves behind, point by point, and lists them.

    python3 tools/places.py [COMMIT] [--list]

Without COMMIT it reads the checkout. docs/DESIGN-PASS.md says what each point is and what became of its places.
"""
import collections
import itertools
import re
import subprocess
import sys


def sources(commit):
    """The files crates/*/src/**.rt of a commit, or of the checkout, by name."""
    tree = ["git", "ls-tree", "-r", "--name-only", commit] if commit else ["git", "ls-files"]
    names = subprocess.run(tree, capture_output=True, text=True, check=True).stdout.split()
    found = {}
    for name in names:
        if re.fullmatch(r"crates/\w+/src/.*\.rt", name):
            if commit:
                show = ["git", "show", f"{commit}:{name}"]
                found[name] = subprocess.run(show, capture_output=True, text=True, check=True).stdout
            else:
                try:
                    found[name] = open(name).read()
                except FileNotFoundError:
                    pass
    return found


def without_comments(text):
    return "\n".join("" if line.strip().startswith("//") else line for line in text.split("\n"))


def block_end(text, start):
    """Behind the brace that closes the one at `start`."""
    depth = 0
    for i in range(start, len(text)):
        depth += {"{": 1, "}": -1}.get(text[i], 0)
        if depth == 0:
            return i + 1
    return len(text)


def items(files, word):
    """Each item that begins with a word, with what stands behind its name up to the end of its block."""
    for name, text in files.items():
        for m in re.finditer(rf"^ *(?:pub(?:\(crate\))? )?(?:final )?{word} (\w+)", text, re.M):
            brace = text.find("{", m.end())
            stop = text.find(";", m.end())
            if brace >= 0 and (stop < 0 or word == "enum" or brace < stop or word == "fn"):
                yield name, m.group(1), text[m.end():], m.start()


def functions(files):
    """Each function: file, name, head (up to its clauses), clauses, body."""
    for name, text in files.items():
        for m in re.finditer(r"^( *)(?:pub(?:\(crate\))? )?fn (\w+)", text, re.M):
            indent = m.group(1)
            rest = text[m.end():]
            body = re.search(rf"(?:^{indent}\{{$|\{{$|\{{\}}$|;$)", rest, re.M)
            lines = rest.split("\n")
            head, clauses, i = [], [], 0
            while i < len(lines):
                line = lines[i]
                word = line.strip().split(" ")[0]
                if word in ("requires", "ensures"):
                    clauses.append(line.strip())
                elif clauses and not line.startswith(indent + "{"):
                    clauses[-1] += " " + line.strip()
                else:
                    head.append(line)
                if line.rstrip().endswith("{") and not clauses or line == indent + "{" or line.strip() == "{}" or line.rstrip().endswith("{}"):
                    break
                if line.rstrip().endswith(";"):
                    break
                i += 1
            if i < len(lines) and lines[i].rstrip().endswith("{"):
                start = m.end() + len("\n".join(lines[:i])) + (1 if i else 0) + lines[i].rindex("{")
                code = text[start:block_end(text, start)]
            else:
                code = ""
            yield name, m.group(2), " ".join(head), clauses, code


TOKEN = re.compile(r"[A-Za-z_]\w*|0x[0-9A-Fa-f]+|\d[\d_]*|b?'(?:\\.|[^'\\])+'|b?\"(?:\\.|[^\"\\])*\"|\S")
KEYWORDS = set("let mut match if else for in return while loop as fn self Self Some None Ok Err true false ref move break continue".split())


def shape(code):
    """The code with its names numbered in order and its constants left out."""
    seen, out = {}, []
    for token in TOKEN.findall(code):
        if re.match(r"[A-Za-z_]", token) and token not in KEYWORDS and not token.startswith("b'"):
            out.append(seen.setdefault(token, f"n{len(seen)}"))
        elif re.match(r"\d|b?['\"]", token):
            out.append("#")
        else:
            out.append(token)
    return tuple(out)


def point1(files):
    for name, enum, rest, _ in items(files, "enum"):
        block = rest[rest.index("{"):block_end(rest, rest.index("{"))]
        variants = re.findall(r"^ *([A-Z]\w*)(\(|\{| \{|,)", block[1:], re.M)
        bare = [v for v, kind in variants if kind == ","]
        full = [v for v, kind in variants if kind != ","]
        failing = [v for v in bare if re.match(r"(No|Over|Wrong|Fail|Absent|Missing)", v)]
        if failing and len(full) + len(bare) <= 3:
            yield name, f"enum {enum}: {', '.join(v for v, _ in variants)}"
    for name, text in files.items():
        for m in re.finditer(r"^ *(?:pub )?(\w+): bool,", text, re.M):
            yield name, f"field {m.group(1)}: bool"
    for name, fn, head, clauses, code in functions(files):
        if re.search(r"&mut ", head) and re.search(r"-> bool\b", head):
            yield name, f"fn {fn}: writes, and says by a bool whether it did"
        if re.search(r"-> Result<[^>]*, u(8|16|32|64|size)>", head):
            yield name, f"fn {fn}: a number as an error"
        if re.search(r"-> u8\b", head) and re.search(r"=> \d+,", code):
            yield name, f"fn {fn}: a number for a kind"
        for m in re.finditer(r"let mut (\w+) = false;", code):
            yield name, f"fn {fn}: flag {m.group(1)}"
        for m in re.finditer(r"if (\w+)\.stopped \{\s*Some", code):
            yield name, f"fn {fn}: an option made of a flag"


def point2(files):
    groups = collections.defaultdict(list)
    for name, fn, head, clauses, code in functions(files):
        form = shape(code)
        if len(form) >= 16 and "/tests" not in name:
            groups[form].append((name, fn))
    for members in groups.values():
        # of the three layers and of the interfaces' impls each has its own meaning; they are listed all the same
        for first, other in zip(members, members[1:]):
            yield other[0], f"fn {other[1]}: as fn {first[1]} in {first[0]}"
    types = collections.defaultdict(list)
    for word in ("struct", "enum"):
        for name, item, rest, _ in items(files, word):
            block = rest[rest.index("{"):block_end(rest, rest.index("{"))]
            fields = re.findall(r"^ *(?:pub(?:\(crate\))? )?(\w+): ", block, re.M) if word == "struct" else re.findall(r"^ *([A-Z]\w*)", block, re.M)
            if len(fields) >= 2:
                types[tuple(fields)].append((name, item))
    for fields, members in types.items():
        for first, other in zip(members, members[1:]):
            yield other[0], f"type {other[1]}: the fields of {first[1]} in {first[0]}"


def point3(files):
    for name, fn, head, clauses, code in functions(files):
        for m in re.finditer(r"\bfor (\w+) in ([^{\n]*\.\.[^{\n]*) \{", code):
            var = m.group(1)
            loop = code[m.end() - 1:block_end(code, m.end() - 1)]
            if re.search(rf"\[[^\]]*\b{var}\b[^\]]*\]", loop):
                yield name, f"fn {fn}: for {var} in {m.group(2)} reads or writes by its index"
        for m in re.finditer(r"\bwhile ([^{\n]*) \{", code):
            yield name, f"fn {fn}: while {m.group(1)}"
        for m in re.finditer(r"for \((\w+), (\w+)\) in ([\w.]*)\.iter\(\)\.enumerate\(\) \{", code):
            loop = code[m.end() - 1:block_end(code, m.end() - 1)]
            if re.search(rf"return [^;]*\b{m.group(1)}\b", loop) and re.search(r"\bif ", loop) and loop.count("\n") <= 5:
                yield name, f"fn {fn}: finds the first of {m.group(3)} by hand"
        for m in re.finditer(r"for \w+ in [\w.]+ \{\s*(?:if [^{]*\{\s*)?\w+ (?:\+= 1;|= \w+\(\w+, \*\w+\)\??;)\s*\}", code):
            yield name, f"fn {fn}: folds or counts by hand"


def point4(files):
    for name, text in files.items():
        for m in re.finditer(r"^ *impl(?:<[^>]*>)? (PartialEq|Eq|PartialOrd|Ord|Clone|Copy|Debug|Hash|Default)\b[^{]* for", text, re.M):
            yield name, f"impl {m.group(1)} by hand"
    for name, fn, head, clauses, code in functions(files):
        if len(re.findall(r"\b(\w+)\.(\w+) == (\w+)\.\2\b", code)) >= 2:
            yield name, f"fn {fn}: equality field by field"
        if "&'static str" in head:
            yield name, f"fn {fn}: the text of a value by match"
        if re.search(r"-> Result<String, AllocError>", head) and "format!" in code:
            yield name, f"fn {fn}: printing by hand"
        if re.search(r"b'0' \+|b'a' \+|b'A' \+", code):
            yield name, f"fn {fn}: digits by hand"
        if re.search(r"\((?:name|word): &(?:str|\[u8\])\) -> Option<", head) and code.count("=> Some(") >= 2:
            yield name, f"fn {fn}: a value by its name"
        if re.match(r"\(&?self\) -> [A-Z]\w*\s*$", head.replace("{", "").strip()) and re.search(r"(\w+): self\.\1,\s*(\w+): self\.\2,", code):
            yield name, f"fn {fn}: conversion field by field"


FACTS = [
    r"document_measure \(G\.(?:Grammar\.)?meaning[^)]*\) (?:\([^)]*\)|blank_measure)",
    r"Held \S+ \S+ t\b",
    r"Sound \S+ \S+",
    r"Roomy \S+\) × \(+\S+ < \S+\.usable",
    r"record \{ document = \S+; screen = \S+; buffer = \S+; reading = \S+ \}",
]


def parameters(head):
    """The parameters of a function but for `self`, each as `name: type`."""
    start = re.search(r"\((?!\w*\) *->)", re.sub(r"<[^(]*>\(", lambda m: "_" * (len(m.group(0)) - 1) + "(", head))
    if not start:
        return []
    depth, last, out = 0, start.end(), []
    for i in range(start.start(), len(head)):
        char = head[i]
        depth += {"(": 1, "[": 1, "<": 1, ")": -1, "]": -1}.get(char, 0) - (char == ">" and head[i - 1] != "-")
        if depth == 1 and char == "," or depth == 0:
            out.append(" ".join(head[last:i].split()))
            last = i + 1
        if depth == 0:
            break
    return [p for p in out if ":" in p and not p.startswith("heap:")]


def point5(files):
    facts, own = collections.defaultdict(set), {}
    for name, fn, head, clauses, code in functions(files):
        if clauses:
            own[(name, fn, head)] = frozenset(parameters(head))
        for clause in clauses:
            for fact in FACTS:
                if re.search(fact, clause):
                    facts[fact].add((name, fn))
    for fact, where in facts.items():
        if len(where) >= 3:
            yield sorted(where)[0][0], f"a fact in {len(where)} contracts: {fact}"
    groups = {a & b for a, b in itertools.combinations(own.values(), 2) if len(a & b) >= 2}
    for group in groups:
        where = sorted(key[:2] for key, held in own.items() if group <= held)
        if len(where) >= 3:
            yield where[0][0], f"parameters together in {len(where)} functions: {', '.join(sorted(group))}"


def point6(files):
    for name, text in files.items():
        for m in re.finditer(r"let mut (\w+) = \[0(?:u8)?; (\w+)\];", text):
            yield name, f"fixed buffer {m.group(1)} of {m.group(2)}"
        for m in re.finditer(r"(\w+): Option<u16>,$", text, re.M):
            line = text[text.rfind("\n", 0, m.start()) + 1:m.end()]
            if "pub" in line:
                yield name, f"index {m.group(1)} into an arena"
        for m in re.finditer(r"pub (\w+): &'a mut \[", text):
            yield name, f"parallel array {m.group(1)}"


def point7(files):
    for name, fn, head, clauses, code in functions(files):
        arms = re.findall(r"^ *\w+::(\w+)(?:\([^)]*\)| \{[^}]*\})? => (?:\{|[\w.]+\()", code, re.M)
        if len(arms) >= 4:
            yield name, f"fn {fn}: {len(arms)} arms that each run a step"


POINTS = [point1, point2, point3, point4, point5, point6, point7]


def main():
    words = [w for w in sys.argv[1:] if not w.startswith("--")]
    files = {name: without_comments(text) for name, text in sources(words[0] if words else None).items()}
    for number, point in enumerate(POINTS, 1):
        found = sorted(set(point(files)))
        print(f"point {number}: {len(found)}")
        if "--list" in sys.argv:
            for name, what in found:
                print(f"    {name}: {what}")


if __name__ == "__main__":
    main()
