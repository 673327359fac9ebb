"""The code of a function: its tokens, and what the names of goals and steps are made from (calls, `?`, tests, arms, loops, bindings)."""
import re
from collections import Counter

TEXT = r'b?"(?:\\.|[^"\\])*"|b?\'(?:\\.|[^\'\\])\'|br?#*"[^"]*"#*'
NUMBER = r"0x[0-9a-fA-F_]+|\d[\d_]*(?:\.\d+)?(?:[iu](?:8|16|32|64|128|size))?"
SIGN = r"=>|->|::|&&|\|\||<<=|>>=|<<|>>|<=|>=|==|!=|\+=|-=|\*=|/=|%=|\|=|&=|\.\.=|\.\.|."
TOKEN = re.compile(rf"{TEXT}|'[a-z_]+\b|{NUMBER}|[A-Za-z_]\w*|{SIGN}", re.S)
WORD = re.compile(r"[A-Za-z_]\w*$")
KEYWORDS = frozenset("let mut if else match for in while loop return as ref move fn break continue true false".split())
CLOSING = {"{": "}", "(": ")", "[": "]"}
OPENING = {close: open_ for open_, close in CLOSING.items()}
BEFORE_OPERAND = (";", "=", ",", "&&", "||", "=>", "return", "if", "while")
ASSIGNING = ("=", "+=", "-=", "*=", "/=", "%=", "|=", "&=")


def without_comments(text):
    """The text with blanks for its comments, so that each place stays what it was."""
    return re.sub(r"//[^\n]*", lambda found: " " * len(found.group()), text)


def tokens(text):
    return [it.group() for it in TOKEN.finditer(without_comments(text)) if not it.group().isspace()]


def is_name(token):
    return bool(WORD.match(token)) and token not in KEYWORDS


def closed_at(text, start):
    """The place after the bracket that closes the one at `start` of a text, or -1."""
    depth = 0
    for it in TOKEN.finditer(text, start):
        depth += (it.group() in CLOSING) - (it.group() in OPENING)
        if depth == 0:
            return it.end()
    return -1


def forward(found, start, stops):
    """From `start`, the first token in `stops` that is outside all brackets, or the bracket that closes those around: its index."""
    depth = 0
    for i in range(start, len(found)):
        if depth == 0 and found[i] in stops:
            return i
        depth += (found[i] in CLOSING) - (found[i] in OPENING)
        if depth < 0:
            return i
    return len(found)


def back(found, start, stops):
    """As `forward`, but from `start` to the front; -1 if there is none."""
    depth = 0
    for i in range(start, -1, -1):
        if depth == 0 and found[i] in stops:
            return i
        depth += (found[i] in OPENING) - (found[i] in CLOSING)
        if depth < 0:
            return i
    return -1


def parts(found, sign):
    """The tokens between the signs that are outside all brackets."""
    out, start = [], 0
    while start <= len(found):
        end = forward(found, start, (sign,))
        out.append(found[start:end])
        start = end + 1
    return out


class Function:
    """A function of a file: its name, the type of its impl, its signature with its clauses, and its body."""

    def __init__(self, name, kind, head, body):
        self.name, self.kind, self.head, self.body = name, kind, head, body


def body_place(text, start):
    """Where the body of the function begins whose parameters follow `start`: after its clauses, whose braces are not those of the body."""
    depth, clause, at = 0, False, start
    while at < len(text):
        token = TOKEN.match(text, at)
        if not token:
            return -1
        it = token.group()
        depth += (it in "([") - (it in ")]")
        if depth == 0 and it in ("requires", "ensures", "ghost", "decreases", "law", "given"):
            clause = True
        elif depth == 0 and it == "{":
            if not clause:
                return at
            clause, at = False, closed_at(text, at)
            if at < 0:
                return -1
            continue
        elif depth == 0 and it == ";" and not clause:
            return -1
        at = token.end()
    return -1


def functions(source):
    """Each function of a file that has a body, by (type, name, how many of these came before)."""
    text, kinds, out, seen = without_comments(source), [], {}, Counter()
    for it in re.finditer(r"\b(?:impl|trait)\b[^;{}]*\{", text):
        head = it.group()
        kind = re.search(r"\bfor\s+&?(?:mut\s+)?([A-Z]\w*)", head)
        kind = kind or re.search(r"(?:impl|trait)\b\s*(?:<[^{]*?>)?\s*(?:[a-z_]+::)*([A-Z]\w*)", head)
        kinds.append((it.start(), closed_at(text, it.end() - 1), kind and kind[1]))
    for it in re.finditer(r"\bfn\s+([a-z_]\w*)", text):
        start = body_place(text, it.end())
        end = closed_at(text, start) if start >= 0 else -1
        if end >= 0:
            kind = next((kind for first, last, kind in kinds if first <= it.start() < last), None)
            key = (kind, it[1])
            out[(*key, seen[key])] = Function(it[1], kind, text[it.start() : start], text[start:end])
            seen[key] += 1
    return out


class Call:
    """A call: its name, its tokens from the receiver on, its arguments, whether a `?` follows, and the names that a `let` gives its value."""

    def __init__(self, name, written, arguments, is_asked, is_last, bound):
        self.name, self.written, self.arguments = name, tuple(written), tuple(arguments)
        self.is_asked, self.is_last, self.bound = is_asked, is_last, bound


def bound_by(found, sign):
    """The names to which the `=` at this index gives a value."""
    start = back(found, sign - 1, (";", "let"))
    pattern = found[start + 1 : sign]
    if start >= 0 and found[start] == "let" and forward(pattern, 0, ("=",)) == len(pattern):
        return [it for it in pattern[: forward(pattern, 0, (":",))] if is_name(it)]
    place = back(found, sign - 2, ()) - 1 if found[sign - 1] == "]" else sign - 1
    return [it for it in found[place : place + 1] if is_name(it)]


def calls(found):
    """The calls of a body, in order."""
    out = []
    for i, token in enumerate(found):
        opens = i + 1
        if not is_name(token):
            continue
        if found[opens : opens + 2] == ["::", "<"]:
            opens = forward(found, opens, (">", ">>", ";")) + 1
        if found[opens : opens + 1] != ["("]:
            continue
        closes = forward(found, opens + 1, ())
        begin = i
        while begin > 0 and (found[begin - 1] in (".", "::", "&", "mut", "?", ")", "]") or is_name(found[begin - 1])):
            begin = back(found, begin - 2, ()) if found[begin - 1] in (")", "]") else begin - 1
        asked = found[closes + 1 : closes + 2] == ["?"]
        ends = found[closes + 1 + asked : closes + 2 + asked]
        names = bound_by(found, begin - 1) if begin and found[begin - 1] == "=" else []
        out.append(Call(token, found[begin : closes + 1], found[opens : closes + 1], asked, ends in ([";"], ["as"]), names))
    return out


class Body:
    """What the names of a function's goals and steps are made from."""

    def __init__(self, text):
        self.tokens = found = tokens(text)
        self.words = set(found)
        self.calls = calls(found)
        self.called = Counter(it.name for it in self.calls)
        self.called.update(it for it, after in zip(found, found[1:]) if after == "!" and is_name(it))
        self.asked = Counter(name for it in self.calls if it.is_asked for name in {it.name, *(it.bound if it.is_last else ())})
        self.asked.update(name for i, it in enumerate(found) if it == "?" and found[i - 1] != ")" for name in self.given_at(i))
        self.lets, self.bound = set(), set()
        for i in (i for i, it in enumerate(found) if it == "="):
            value = found[i + 1 : forward(found, i + 1, (";",))]
            self.lets.update(bound_by(found, i))
            self.bound.update((it, name) for it, after in zip(value, value[1:]) if after in ("(", "::") for name in bound_by(found, i))
        self.tests, self.operands, self.arms, self.loops = [], [], [], []
        self.read_branches()

    def given_at(self, place):
        """The names that are given the value of the expression that ends before this index."""
        sign = back(self.tokens, place - 1, (";", "=", "=>", ","))
        return bound_by(self.tokens, sign) if sign >= 0 and self.tokens[sign] == "=" else []

    def read_branches(self):
        found = self.tokens
        for i, it in enumerate(found):
            if it in ("if", "while"):
                condition = found[i + 1 : forward(found, i + 1, ("{",))]
                self.loops += [condition] * (it == "while")
                if condition[:1] == ["let"]:
                    self.arms.append(condition[1 : forward(condition, 0, ("=",))])
                else:
                    self.tests.append(condition)
            elif it == "for":
                self.loops.append(found[i + 1 : forward(found, i + 1, ("{",))])
            elif it == "=>":
                pattern = self.pattern_before(i)
                guard = pattern.index("if") if "if" in pattern else len(pattern)
                self.arms.append(pattern[:guard])
                self.tests += [pattern[guard + 1 :]] * (guard < len(pattern))
            elif it in ("&&", "||"):
                self.operands.append(found[back(found, i - 1, BEFORE_OPERAND) + 1 : i])
            elif it == "else" and found[i + 1 : i + 2] == ["{"] and found[i - 1] != "}":
                start = back(found, i - 1, (";", "let"))
                self.arms.append(found[start + 1 : forward(found, start, ("=",))])

    def pattern_before(self, arrow):
        """The pattern of the arm whose arrow is at this index, with its guard."""
        found, depth, start = self.tokens, 0, arrow
        while start > 0:
            it = found[start - 1]
            after_block = it == "}" and found[start] not in ("=>", "if", "|")
            if depth == 0 and (it in (",", "=>") or it in CLOSING or after_block):
                break
            depth += (it in OPENING) - (it in CLOSING)
            start -= 1
        return found[start:arrow]
