"""The tokens of a source in Rattle or Rust, as a tree of brackets, and what finds a part of them."""
import re

OPEN, CLOSE = "([{", ")]}"
TOKEN = re.compile(
    r"(?P<skip>\s+|//[^\n]*|/\*.*?\*/)"
    r"|(?P<string>b?r?\"(?:\\.|[^\"\\])*\")"
    r"|(?P<char>b?'(?:\\[^']+|[^'\\])')"
    r"|(?P<life>'[A-Za-z_]\w*)"
    r"|(?P<word>[^\W\d]\w*'*)"
    r"|(?P<number>\d[\w.]*?(?=\.\.|[^\w.]|$))"
    r"|(?P<sign>=>|->|::|&&|\|\||==|!=|<=|>=|\.\.=|\.\.\.|\.\.|.)",
    re.S,
)


class Token:
    __slots__ = ("text", "line", "inner")

    def __init__(self, text, line, inner=None):
        self.text, self.line, self.inner = text, line, inner

    def __repr__(self):
        return self.text if self.inner is None else self.text + repr(self.inner)


def read(text):
    """The tokens of a source; each bracket has the tokens within it."""
    flat, line, at = [], 1, 0
    while at < len(text):
        m = TOKEN.match(text, at)
        if m.lastgroup not in ("skip",):
            flat.append(Token(m.group(), line))
        line += m.group().count("\n")
        at = m.end()
    stack = [[]]
    for t in flat:
        if t.text in OPEN:
            t.inner = []
            stack[-1].append(t)
            stack.append(t.inner)
        elif t.text in CLOSE:
            if len(stack) > 1:
                stack.pop()
        else:
            stack[-1].append(t)
    return stack[0]


def without_contracts(tokens):
    """The tokens without contracts and ghost items, of which no code is made."""
    out, i = [], 0
    while i < len(tokens):
        t = tokens[i]
        if t.text in ("ensures", "requires", "invariant", "decreases"):
            j = i + 1
            if j < len(tokens) and re.match(r"\w", tokens[j].text):
                j += 1
            if j < len(tokens) and tokens[j].text == "{":
                i = j + 1
                continue
        if t.text == "ghost":
            while i < len(tokens) and tokens[i].text not in (";", ","):
                i += 1
            i += 1
            continue
        if t.text == "#":
            i += 1
            if i < len(tokens) and tokens[i].text == "!":
                i += 1
            i += 1
            continue
        if t.inner is not None:
            t.inner = without_contracts(t.inner)
        out.append(t)
        i += 1
    return out


def split(tokens, sign):
    parts, last = [], 0
    for i, t in enumerate(tokens):
        if t.inner is None and t.text == sign:
            parts.append(tokens[last:i])
            last = i + 1
    parts.append(tokens[last:])
    return parts


def is_word(t):
    return t.inner is None and re.match(r"[^\W\d]\w*$", t.text) is not None


def find(tokens, sign, start=0):
    for i in range(start, len(tokens)):
        if tokens[i].inner is None and tokens[i].text == sign:
            return i
    return len(tokens)


def find_group(tokens, start):
    for i in range(start, len(tokens)):
        if tokens[i].text == "{":
            return i
    return len(tokens)


def behind_parameters(tokens, at):
    """What stands behind `<..>`, which begins there."""
    depth = 0
    while at < len(tokens):
        depth += (tokens[at].text == "<") - (tokens[at].text == ">")
        at += 1
        if depth == 0:
            break
    return at


def before_parameters(tokens, at):
    """Where the name stands before `::<..>`, if that ends there, and else the place itself."""
    if at < 2 or tokens[at].text != ">":
        return at
    depth = 0
    while at >= 0:
        depth += (tokens[at].text == ">") - (tokens[at].text == "<")
        at -= 1
        if depth == 0:
            break
    return at - (tokens[at].text == "::")


def closure_body(tokens, i):
    """Where the body of a closure begins, of which the first `|` stands there."""
    at = find(tokens, "|", i + 1) + 1
    return find_group(tokens, at) if at < len(tokens) and tokens[at].text == "->" else at
