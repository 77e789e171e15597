"""Read the files of crates/: of the code its functions, types and constants, of specs/ and proofs/ the text. For tools/places."""

import collections
import pathlib
import re

CRATES = pathlib.Path(__file__).resolve().parent.parent / "crates"
INTEGER = r"(?:[ui](?:8|16|32|64|128|size))"
KEYWORDS = {"let", "mut", "if", "else", "while", "for", "in", "match", "return", "as", "true", "false", "self", "break", "loop", "continue"}


def masked(raw):
    """The text with comments and what is in string literals blanked, in the same places."""
    def blank(m):
        s = m.group()
        return "".join(c if c in '\n"' or (s[0] in "b'\"" and i < 1) else " " for i, c in enumerate(s))
    return re.sub(r'//[^\n]*|b?"(?:\\.|[^"\\])*"|b?\'(?:\\.|[^\'\\])\'', blank, raw, flags=re.S)


def closing(text, at):
    """The place behind the bracket that closes the one at `at`."""
    depth = 0
    for i in range(at, len(text)):
        if text[i] in "([{":
            depth += 1
        elif text[i] in ")]}":
            depth -= 1
            if depth == 0:
                return i + 1
    return len(text)


def pieces(text, mark=","):
    """The text cut at each mark that stands in no brackets."""
    out, depth, last = [], 0, 0
    for i, c in enumerate(text):
        if c in "([{" or (c == "<" and text[i - 1] not in " -"):
            depth += 1
        elif c in ")]}" or (c == ">" and text[i - 1] not in " -="):
            depth -= 1
        elif c == mark and depth == 0:
            out.append(text[last:i])
            last = i + 1
    return [p.strip() for p in out + [text[last:]] if p.strip()]


def flat(text):
    return " ".join(text.split())


class File:
    def __init__(self, path, crates):
        self.raw = path.read_text()
        self.name = str(path.relative_to(crates))
        self.text = masked(self.raw) if path.suffix == ".rt" else re.sub(r"--[^\n]*", lambda m: " " * len(m.group()), self.raw)
        self.rows = self.raw.split("\n")

    def line(self, at):
        return self.text.count("\n", 0, at) + 1

    def kept(self, line):
        stays = re.compile(r"(//|--) Stays:")
        above = line - 1
        while above > 0 and re.match(r"\s*(//|--|#\[)", self.rows[above - 1]):
            above -= 1
        return any(stays.search(row) for row in self.rows[above:line])

    def comment(self, line):
        above = line - 1
        while above > 0 and re.match(r"\s*(//|#\[)", self.rows[above - 1]):
            above -= 1
        return " ".join(self.rows[above:line - 1])


class Function:
    """A function of the code: its parameters as (name, type), its answer's type, its clauses as (line, kind, text), its body."""

    def __init__(self, file, m, owner):
        text, self.file, self.name, self.owner = file.text, file, m.group(1), owner
        self.line, at = file.line(m.start()), m.end() - 1
        end = closing(text, at)
        split = [p.removeprefix("mut ").split(":", 1) for p in pieces(text[at + 1:end - 1])]
        self.params = [(p[0].strip(), flat(p[1])) for p in split if len(p) == 2]
        self.answer, self.clauses, self.body, self.start = "", [], "", end
        self.read(text, end)

    def read(self, text, at):
        while at < len(text) and text[at] not in ";":
            clause = re.compile(r"\s*(requires|ensures|decreases)\b[^{;]*").match(text, at)
            arrow = re.compile(r"\s*->\s*([^{;]*?)(?=\s*(?:\{|;|\bwhere\b|\brequires\b|\bensures\b))").match(text, at)
            bound = re.compile(r"\s*where\b.*?(?=\{|;|\brequires\b|\bensures\b)", re.S).match(text, at)
            if bound:
                at = bound.end()
            elif clause:
                open_at = clause.end()
                at = closing(text, open_at)
                self.clauses.append((self.file.line(clause.start(1)), clause.group(1), flat(text[open_at + 1:at - 1])))
            elif arrow:
                self.answer, at = flat(arrow.group(1)), arrow.end()
            elif text[at] == "{":
                self.start, self.body = at, text[at + 1:closing(text, at) - 1]
                return
            else:
                at += 1

    def stated(self, kind):
        return " ".join(text for _, k, text in self.clauses if k == kind)

    def at(self, offset):
        """The line of a place in the body."""
        return self.file.line(self.start + 1 + offset)


class Tree:
    def __init__(self, crates):
        found = sorted(p for p in crates.rglob("*") if p.suffix in (".rt", ".antt") and "out" not in p.relative_to(crates).parts)
        self.files = [File(p, crates) for p in found]
        self.code = [f for f in self.files if f.name.endswith(".rt")]
        self.proofs = [f for f in self.files if f.name.endswith(".antt")]
        self.functions, self.types, self.constants = [], [], []
        for f in self.code:
            self.read(f)

    def read(self, f):
        impls = [(m.start(), closing(f.text, m.end() - 1), m.group(1))
                 for m in re.finditer(r"^impl\b[^{;]*?\b(\w+)(?:<[^{]*>)?\s*\{", f.text, re.M)]
        for m in re.finditer(r"\bfn\s+(\w+)\s*(?:<(?:->|[^<>{};]|<[^<>]*>)*>)?\s*\(", f.text):
            owner = next((name for a, b, name in impls if a < m.start() < b), "")
            self.functions.append(Function(f, m, owner))
        for m in re.finditer(r"^(?:pub(?:\(crate\))? )?(struct|enum) (\w+)(?:<[^{(]*>)?\s*([{(])", f.text, re.M):
            body = f.text[m.end():closing(f.text, m.end() - 1) - 1]
            parts = [flat(re.sub(r"^\s*(#\[[^\]]*\]\s*)?(pub(\(crate\))? )?", "", p)) for p in pieces(body)]
            self.types.append((f, f.line(m.start()), m.group(1), m.group(2), m.group(3), parts))
        for m in re.finditer(r"^(?:pub(?:\(crate\))? )?const (\w+): (\w+) = (\d[\d_]*);", f.text, re.M):
            self.constants.append((f, f.line(m.start()), m.group(1), m.group(2), int(m.group(3))))


def normal(body, callees):
    """The body with types, numbers, constants and locals replaced; with `callees`, the functions and fields that it names too."""
    body = re.sub(r"\b[a-z]\w*\s*::\s*(?=[A-Za-z])", lambda m: m.group() if re.match(INTEGER + r"|f32|f64", m.group()) else "", body)
    tokens, names, out = re.findall(r"[A-Za-z_]\w*|\d[\w.]*|\.\.=?|[^\s\w]", body), {}, []
    for i, t in enumerate(tokens):
        after, before = tokens[i + 1:i + 2], tokens[i - 1:i]
        if re.fullmatch(INTEGER + r"|f32|f64|bool", t):
            out.append("T")
        elif t[0].isdigit() or re.fullmatch(r"[A-Z][A-Z0-9_]*", t) and len(t) > 1:
            out.append("K")
        elif t[0].isupper():
            out.append("Type")
        elif after == ["("] and t not in ("if", "while", "match", "return", "in"):
            out.append("call" if callees else re.sub(r"_?\d+", "", t))
        elif re.fullmatch(r"[a-z_]\w*", t) and before != ["."] and after not in (["{"], [":"]) and t not in KEYWORDS:
            out.append(names.setdefault(t, f"v{len(names)}"))
        else:
            out.append("field" if callees and before == ["."] else t)
    return " ".join(out)


def bindings(text):
    """Each `let .. in` of an answer, but those that only give a path a short name."""
    for m in re.finditer(r"\blet\b", text):
        depth = 0
        for word in re.finditer(r"\b(let|in)\b(?![-_.])", text[m.start():]):
            depth += 1 if word.group() == "let" else -1
            if depth == 0:
                one = flat(text[m.end():m.start() + word.start()])
                if not re.fullmatch(r"\S+ = [\w.-]+", one):
                    yield m.start(), one
                break


def windows(params):
    return [(i, j) for i in range(len(params)) for j in range(i + 2, len(params) + 1)]


def runs(signatures, least):
    """Of (file, line, name, params) those with a run of `least` or more that three or more have; the longest such run."""
    users = collections.defaultdict(set)
    for k, (*_, params) in enumerate(signatures):
        for i, j in windows(params):
            users[tuple(params[i:j])].add(k)
    for k, (file, line, name, params) in enumerate(signatures):
        shared = [(j - i, len(users[tuple(params[i:j])]), i, j) for i, j in windows(params)
                  if j - i >= least and len(users[tuple(params[i:j])]) > 2 and not plain(params[i:j])]
        if shared:
            _, n, i, j = max(shared)
            yield file, line, f"{name}: ({', '.join(p for p, _ in params[i:j])}) in {n}"


def plain(run):
    return len({t for _, t in run}) == 1 and all(len(p) == 1 for p, _ in run)
