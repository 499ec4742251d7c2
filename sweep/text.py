"""The text of a crate: its tokens, its functions and what they call, its constants."""
import hashlib
import os
import re

ROOT = os.path.dirname(os.path.dirname(os.path.abspath(__file__)))
HERE = os.path.join(ROOT, "sweep")

TOKEN = re.compile(
    r"""(?P<space>\s+|//[^\n]*)
      | (?P<byte>b'(?:\\.|[^'\\])')
      | (?P<life>'[a-z_]+)
      | (?P<int>0x[0-9a-fA-F_]+|\d[\d_]*)(?P<suffix>[ui](?:8|16|32|64|size))?
      | (?P<name>[A-Za-z_][A-Za-z0-9_]*)
      | (?P<op>\+=|-=|\*=|->|=>|<=|>=|==|!=|&&|\|\||<<|>>|::|\.\.|.)""",
    re.X,
)


class Token:
    def __init__(self, kind, text, at):
        self.kind, self.text, self.at, self.end = kind, text, at, at + len(text)


def tokens_of(text, start, end):
    out, at = [], start
    while at < end:
        m = TOKEN.match(text, at, end)
        kind = m.lastgroup if m.lastgroup != "suffix" else "int"
        if kind != "space":
            out.append(Token(kind, m.group(), at))
        at = m.end()
    return out


def closing(text, at):
    """The place of the brace that closes the one at `at`."""
    depth = 0
    for m in re.compile(r"//[^\n]*|b'(?:\\.|[^'\\])'|[{}]").finditer(text, at):
        if m.group() == "{":
            depth += 1
        elif m.group() == "}":
            depth -= 1
            if depth == 0:
                return m.start()
    raise SystemExit("sweep: a brace is not closed")


class Function:
    def __init__(self, crate, file, name, owner, text, start, body, end):
        self.crate, self.file, self.name, self.owner = crate, file, name, owner
        self.start, self.body, self.end = start, body, end
        self.text = text[start:end]
        self.before = re.search(r"(?:^[ \t]*#\[.*\]\n)?^.*\Z", text[:start], re.M).group()  # attribute and visibility
        module = "" if file in ("lib.rt", "main.rt") else file[:-3] + "::"
        self.label = (owner + "::" if owner else module) + name
        head = self.text[: body - start]
        taken = signature(head)
        self.params = {m.group(1): plain(m.group(2)) for m in re.finditer(r"([a-z_][a-z0-9_]*)\s*:\s*([^,]+)", taken)}
        gives = re.match(r"\)\s*->\s*([^\n{]+?)\s*(?:\n|\{|requires|ensures|$)", head[head.index(taken) + len(taken) :] if taken else head[head.index("(") + 1 :])
        self.gives = plain(gives.group(1)) if gives else None
        self.print = hashlib.sha256(self.text.encode()).hexdigest()[:12]


def plain(t):
    """A type without its reference's kind and lifetime: what a use of a variable can stand for."""
    return re.sub(r"\s+", " ", re.sub(r"'\w+ ?", "", t)).strip()


def signature(head):
    """The parameter list of a function's head."""
    at = head.index("(")
    depth = 0
    for i in range(at, len(head)):
        depth += {"(": 1, ")": -1}.get(head[i], 0)
        if depth == 0:
            return head[at + 1 : i]
    return ""


def impl_name(own, trait, of):
    """What the check calls an impl: a type's own by the type; a trait's by the words of the type, the trait and its
    arguments, without the impl's own parameters."""
    if not trait:
        return re.match(r"&?(\w+)", of).group(1)
    own = re.findall(r"[<,]\s*(?:const\s+)?(\w+)", own or "")
    trait = trait.partition("<")
    words = re.findall(r"&|\w+", of) + [trait[0].split("::")[-1]] + re.findall(r"&|\w+", trait[2])
    return "".join("Ref" if w == "&" else w[0].upper() + w[1:] for w in words if w not in own)


def functions_of(crate, file, text):
    found, owner, owner_end, head = [], None, -1, None
    skip = re.compile(r"//[^\n]*|\bimpl(<[^{;]*?>)?\s+(?:([\w:]+(?:<[^{;]*?>)?)\s+for\s+)?(&?\w+(?:<[^{;]*?>)?)\s*\{|\bfn\s+(\w+)")
    at = 0
    while True:
        m = skip.search(text, at)
        if not m:
            return found
        at = m.end()
        if m.group(3):
            owner, owner_end = impl_name(*m.group(1, 2, 3)), closing(text, m.end() - 1)
            head = None if m.group(2) else m.group()[:-1].rstrip()
        elif m.group(4):
            # contracts stand between the signature and the body
            i = m.end()
            depth = 0
            while True:
                c = text[i]
                if c in "([":
                    depth += 1
                elif c in ")]":
                    depth -= 1
                elif depth == 0:
                    w = re.compile(r"(requires|ensures)(?:\s+\w+)?\s*\{").match(text, i)
                    if w:
                        i = closing(text, w.end() - 1)
                    elif c in "{;":
                        break
                i += 1
            if text[i] == ";":
                at = i  # a trait's method without a body
                continue
            end = closing(text, i) + 1
            inside = m.start() < owner_end
            found.append(Function(crate, file, m.group(4), owner if inside else None, text, m.start(), i, end))
            found[-1].head = head if inside else None  # `impl<N: Number> NumberSet<N>`; None for a trait's, which has no second one
            at = end


class Crate:
    def __init__(self, name, root=ROOT):
        self.name = name
        self.dir = os.path.join(root, "crates", name)
        self.files = {}
        src = os.path.join(self.dir, "src")
        for file in sorted(os.listdir(src)):
            if file.endswith(".rt"):
                with open(os.path.join(src, file), encoding="utf-8") as h:
                    self.files[file] = h.read()
        self.functions = [f for file, text in self.files.items() for f in functions_of(name, file, text)]
        self.by_label = {f.label: f for f in self.functions}

    def definitions(self):
        """(file, name, value, offset of the value, its text, line)."""
        for file, text in self.files.items():
            for m in re.finditer(r"^\s*(?:pub(?:\(crate\))? )?const (\w+): \w+ = ([\d_]+);", text, re.M):
                yield file, m.group(1), int(m.group(2).replace("_", "")), m.start(2), m.group(2), text.count("\n", 0, m.start(2)) + 1

    def calls(self):
        """For each function, all that it calls, directly or through others, in this crate."""
        direct = {}
        for f in self.functions:
            body = f.text[f.body - f.start :]
            names = set(re.findall(r"\b(\w+)\s*\(", body))
            direct[f.label] = {g.label for g in self.functions if g.name in names and g is not f}
        closed = {}
        for f in direct:
            seen, todo = set(), [f]
            while todo:
                for g in direct[todo.pop()]:
                    if g not in seen:
                        seen.add(g)
                        todo.append(g)
            closed[f] = seen - {f}
        return closed


def crate_names():
    names = []
    with open(os.path.join(ROOT, "crates.txt"), encoding="utf-8") as h:
        for line in h:
            m = re.match(r"(\w+)\s*:", line.split("#")[0])
            if m:
                names.append(m.group(1))
    return names


def results_of_calls():
    """What each function gives, by its name, where all of that name give the same."""
    out = {}
    for c in crate_names():
        if os.path.isdir(os.path.join(ROOT, "crates", c, "src")):
            for f in Crate(c).functions:
                out.setdefault(f.name, set()).add(f.gives)
    return {n: g.pop() for n, g in out.items() if len(g) == 1}


def names_known(crate):
    """The constants that each file of a crate may use, by name: its own crate's, and those that it names in a `use` line."""
    known = constants()
    out = {}
    for file, text in crate.files.items():
        out[file] = dict(known[crate.name])
        for m in re.finditer(r"^use (\w+)::(?:\w+::)*([A-Z][A-Z0-9_]*);", text, re.M):
            c = crate.name if m.group(1) == "crate" else m.group(1)
            if m.group(2) in known.get(c, {}):
                out[file][m.group(2)] = known[c][m.group(2)]
    return out


def libraries():
    def has_code(c):
        lib = os.path.join(ROOT, "crates", c, "src", "lib.rt")
        return os.path.exists(lib) and Crate(c).functions

    return [c for c in crate_names() if has_code(c)]


def constants():
    """The constants of each crate, by name."""
    return {c: {n: v for _, n, v, _, _, _ in Crate(c).definitions()} for c in crate_names()}
