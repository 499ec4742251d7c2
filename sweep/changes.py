"""The single-operand changes of a function's body."""
import re

from text import plain, tokens_of

EDGES = {"<": "<=", "<=": "<", ">": ">=", ">=": ">", "==": "!=", "!=": "=="}
SIGNS = {"+": "-", "-": "+", "+=": "-=", "-=": "+="}
BEFORE_UNARY = {"(", "[", "{", ",", ";", "=", "+", "-", "*", "/", "%", "<", "<=", ">", ">=", "==", "!=", "&&", "||", "=>", "return", "+=", "-=", "..", "&", "|", ":", "!"}
KEYWORDS = {"if", "else", "while", "return", "let", "mut", "match", "as", "true", "false", "break", "continue", "in", "for", "loop", "fn", "self"}
KINDS = ["edge", "swap", "number", "sign", "constant", "definition", "variable", "argument", "truth", "other types"]


class Change:
    def __init__(self, kind, at, old, new, line):
        self.kind, self.at, self.old, self.new, self.line = kind, at, old, new, line


class Body:
    """The tokens of a function's body, and the operands among them."""

    def __init__(self, f, text, constants, gives):
        self.f, self.text, self.constants, self.gives = f, text, constants, gives
        self.t = tokens_of(text, f.body, f.end)
        self.match = {}
        stack = []
        for i, k in enumerate(self.t):
            if k.text in "([{" and k.kind == "op":
                stack.append(i)
            elif k.text in ")]}" and k.kind == "op":
                j = stack.pop()
                self.match[i], self.match[j] = j, i

    def is_unary(self, i):
        return i == 0 or self.t[i - 1].text in BEFORE_UNARY

    def forward(self, i):
        """The index after the factor that starts at i, or None."""
        t = self.t
        while t[i].text in ("!", "*", "&", "-", "mut"):
            i += 1
        if t[i].text == "(":
            i = self.match[i] + 1
        elif t[i].kind in ("name", "int", "byte") and (t[i].text not in KEYWORDS or t[i].text == "self"):
            i += 1
            while t[i].text == "::":
                i += 2
        else:
            return None
        while True:
            if t[i].text in ("(", "["):
                i = self.match[i] + 1
            elif t[i].text == ".":
                i += 2
            elif t[i].text == "as":
                i += 2
            else:
                return i

    def backward(self, i):
        """The index at which the factor that ends at i starts, or None."""
        t = self.t
        while t[i - 1].text == "as":
            i -= 2
        while True:
            if t[i].text in (")", "]"):
                i = self.match[i]
                if t[i].text == "(" and not (t[i - 1].kind == "name" and t[i - 1].text not in KEYWORDS):
                    break
                i -= 1
                continue
            if t[i].kind not in ("name", "int", "byte"):
                return None
            if t[i - 1].text in (".", "::"):
                i -= 2
                continue
            break
        while t[i - 1].text in ("!", "*", "&", "-") and self.is_unary(i - 1):
            i -= 1
        return i

    def term_after(self, i):
        e = self.forward(i)
        while e is not None and self.t[e].text in ("*", "/", "%"):
            e = self.forward(e + 1)
        return e

    def term_before(self, i):
        s = self.backward(i)
        while s is not None and self.t[s - 1].text in ("*", "/", "%") and not self.is_unary(s - 1):
            s = self.backward(s - 2)
        return s

    def sum_after(self, i):
        e = self.term_after(i)
        while e is not None and self.t[e].text in ("+", "-"):
            e = self.term_after(e + 1)
        return e

    def sum_before(self, i):
        s = self.term_before(i)
        while s is not None and self.t[s - 1].text in ("+", "-") and not self.is_unary(s - 1):
            s = self.term_before(s - 2)
        return s

    def span(self, i, j):
        """The text from token i until before token j."""
        return self.text[self.t[i].at : self.t[j - 1].end]

    def change(self, kind, i, j, new):
        at = self.t[i].at
        line = self.text.count("\n", 0, at) + 1
        return Change(kind, at - self.f.start, self.span(i, j), new, line)

    # each maker yields changes

    def edges(self):
        for i, k in enumerate(self.t):
            if k.kind == "op" and k.text in EDGES:
                yield self.change("edge", i, i + 1, EDGES[k.text])

    def swaps(self):
        for i, k in enumerate(self.t):
            if k.kind != "op" or k.text not in ("<", "<=", ">", ">=", "-") or self.is_unary(i):
                continue
            before, after = (self.term_before, self.term_after) if k.text == "-" else (self.sum_before, self.sum_after)
            s, e = before(i - 1), after(i + 1)
            if s is None or e is None:
                continue
            a, b = self.span(s, i), self.span(i + 1, e)
            if a != b:
                yield self.change("swap", s, e, b + " " + k.text + " " + a)

    def numbers(self):
        signed = re.search(r"\bi(8|16|32|64|size)\b", self.f.text)
        for i, k in enumerate(self.t):
            if k.kind == "byte":
                v, suffix = ord(eval(k.text)), ""
            elif k.kind == "int":
                m = re.match(r"(0x[0-9a-fA-F_]+|[\d_]+)(.*)", k.text)
                v, suffix = int(m.group(1).replace("_", ""), 0), m.group(2)
            else:
                continue
            if self.t[i - 1].text == ";" and self.t[i + 1].text == "]":
                continue  # the length of an array
            first = i
            if self.t[i - 1].text == "-" and self.is_unary(i - 1):
                first, v = i - 1, -v
            for new in (v - 1, v + 1):
                if new >= 0 or signed:
                    yield self.change("number", first, i + 1, str(new) + suffix)

    def signs(self):
        for i, k in enumerate(self.t):
            if k.kind == "op" and k.text in SIGNS and not self.is_unary(i):
                yield self.change("sign", i, i + 1, SIGNS[k.text])

    def constant_uses(self):
        for i, k in enumerate(self.t):
            if k.kind == "name" and k.text in self.constants and self.t[i - 1].text != "::":
                v = self.constants[k.text]
                for new in (v - 1, v + 1):
                    if new >= 0:
                        yield self.change("constant", i, i + 1, str(new))

    def truths(self):
        for i, k in enumerate(self.t):
            if k.text in ("true", "false"):
                yield self.change("truth", i, i + 1, "false" if k.text == "true" else "true")

    def bindings(self):
        """(name, first token of its scope, token after it, token that binds it, its type or None)."""
        last = len(self.t)
        out = [(p, 0, last, -1, t) for p, t in self.f.params.items()]
        opened = []
        for i, k in enumerate(self.t):
            if k.text == "{" and k.kind == "op":
                opened.append(i)
            elif k.text == "}" and k.kind == "op":
                opened.pop()
            elif k.text == "let":
                j = i + 1
                names = []
                while self.t[j].text != "=":
                    if self.t[j].text == ":" and self.t[j - 1].kind == "name":
                        break
                    if self.t[j].kind == "name" and self.t[j].text not in ("mut",) and self.t[j].text[0].islower() and self.t[j + 1].text != "::":
                        names.append(j)
                    j += 1
                e = j
                while self.t[e].text != ";":
                    e = self.match[e] + 1 if self.t[e].text in ("(", "[", "{") else e + 1
                type_ = None
                if len(names) == 1 and self.t[i + 1].text != "Parsed":
                    if self.t[j].text == ":":
                        a = j + 1
                        while self.t[a].text != "=":
                            a += 1
                        type_, j = plain(self.span(j + 1, a)), a
                    else:
                        type_ = self.type_of(j + 1, e, out)
                for n in names:
                    out.append((self.t[n].text, e + 1, self.match[opened[-1]], n, type_))
            elif k.text == "=>":
                j = i - 1
                names = []
                if self.t[j].text in (")", "}"):
                    for n in range(self.match[j] + 1, j):
                        if self.t[n].kind == "name" and self.t[n].text != "_" and self.t[n + 1].text != ":":
                            names.append(n)
                e = i + 1
                if self.t[e].text == "{":
                    e = self.match[e]
                else:
                    while self.t[e].text not in (",", "}"):
                        e = self.match[e] + 1 if self.t[e].text in ("(", "[", "{") else e + 1
                for n in names:
                    out.append((self.t[n].text, i + 1, e, n, None))
        return out

    def type_of(self, i, e, bound):
        """The type of the expression from token i until before e, by its last cast or its first operand; None if not plain."""
        t = self.t
        if t[e - 2].text == "as":
            return t[e - 1].text
        while t[i].text == "(":
            i += 1
        j = self.forward(i)
        if j is None or t[i].kind != "name":
            return None
        known = {b[0]: b[4] for b in bound if b[1] <= i < b[2]}
        if t[j - 2].text == "as":
            return t[j - 1].text
        if t[j - 1].text == ")":
            callee = t[self.match[j - 1] - 1].text
            return "usize" if callee == "len" else self.gives.get(callee)
        if t[j - 1].text == "]" and self.match[j - 1] == i + 1 and ".." not in self.span(i + 1, j):
            m = re.match(r"(?:&(?:mut )?)?\[(\w+)[;\]]", known.get(t[i].text) or "")
            return m.group(1) if m else None
        return known.get(t[i].text) if j == i + 1 else None

    def is_shorthand(self, i):
        """Whether token i is a field of a struct literal that is given by its name alone."""
        if self.t[i - 1].text not in ("{", ",") or self.t[i + 1].text not in ("}", ","):
            return False
        j = i
        while j > 0:
            j -= 1
            if self.t[j].text in (")", "]", "}"):
                j = self.match[j]
            elif self.t[j].text in ("(", "["):
                return False
            elif self.t[j].text == "{":
                return self.t[j - 1].kind == "name" and self.t[j - 1].text[0].isupper()
        return False

    def variables(self):
        bound = self.bindings()
        binders = {b[3] for b in bound}
        for i, k in enumerate(self.t):
            if k.kind != "name" or i in binders or self.t[i - 1].text in (".", "::") or self.t[i + 1].text in ("::", "("):
                continue
            own = [t for n, s, e, _, t in bound if n == k.text and s <= i < e]
            if self.t[i + 1].text == ":" or not own:
                continue
            seen = {k.text}
            for n, s, e, _, t in reversed(bound):
                if s <= i < e and n not in seen and (t is None or own[-1] is None or t == own[-1]):
                    seen.add(n)
                    yield self.change("variable", i, i + 1, k.text + ": " + n if self.is_shorthand(i) else n)

    def arguments(self):
        for i, k in enumerate(self.t):
            if k.text != "(" or self.t[i - 1].kind != "name" or self.t[i - 1].text in KEYWORDS:
                continue
            end, parts, start, j = self.match[i], [], i + 1, i + 1
            if self.t[end + 1].text == "=>":
                continue  # a pattern
            while j < end:
                if self.t[j].text == ",":
                    parts.append((start, j))
                    start = j + 1
                j = self.match[j] + 1 if self.t[j].text in ("(", "[", "{") else j + 1
            if start < end:
                parts.append((start, end))
            for x in range(len(parts)):
                for y in range(x + 1, len(parts)):
                    a, b = self.span(*parts[x]), self.span(*parts[y])
                    if a != b:
                        middle = self.text[self.t[parts[x][1]].at : self.t[parts[y][0]].at]
                        yield self.change("argument", parts[x][0], parts[y][1], b + middle + a)

    def all(self):
        seen = set()
        for make in (self.edges, self.swaps, self.numbers, self.signs, self.constant_uses, self.truths, self.variables, self.arguments):
            for c in make():
                became = self.f.text[: c.at] + c.new + self.f.text[c.at + len(c.old) :]
                if became not in seen:
                    seen.add(became)
                    yield c
