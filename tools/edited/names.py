"""The names that rattle gives to goals and steps, and whether the code of a function still makes one.

A call's step is `f` or `f-r` under `let r`, and `f-2` for the second; a test's is `if-a-b` or `if-x-lt5`, with `then-` and `else-` on its
paths; an arm's is `in-V` or `in_default`; a `?` has the arms `in_ok-x` and `in_err-x`, by its binding or its call; a loop is `loop-x`;
what a function ensures is `returns-PATH-clause-LABEL`; and a sum that may be too large is `overflow_add-x`.
"""
import re

from .code import forward, is_name, parts

BEGINS = re.compile(r"(returns|loop|if|then|else|in|in_ok|in_err|in_default|clause|invariant|decreases|match|preserved|init|smaller|whole|test|item|requires)$")
COMPUTES = re.compile(r"(overflow|nonzero|slice_bounds|bounds|offset_bounds|invariant_of)")
COMPARED = re.compile(r"(eq|ne|lt|le|gt|ge)(\d+)$")
SIGNS = {"eq": "==", "ne": "!=", "lt": "<", "le": "<=", "gt": ">", "ge": ">="}
COMPUTED = {
    "overflow_add": "+", "overflow_sub": "-", "overflow_mul": "*", "nonzero_div": "/", "nonzero_rem": "%", "overflow_shl": "<<",
    "overflow_shr": ">>", "overflow_cast": "as",
}  # fmt: skip


def parts_of(name):
    """The parts of a name: pairs of a kind and its words, of which the first may be a step."""
    out = []
    for word in re.split(r"[-+]", name):
        if BEGINS.match(word) or COMPUTES.match(word):
            out.append((word, []))
        elif out:
            out[-1][1].append(word)
        else:
            out.append(("step", [word]))
    return out


def test_has(words, condition):
    """Whether a condition is the one that these words name."""
    place = 0
    for word in words:
        compared = COMPARED.match(word)
        if compared:
            pairs = zip(condition, condition[1:])
            if not any(it == SIGNS[compared[1]] and re.match(rf"{compared[2]}\b", after.replace("_", "")) for it, after in pairs):
                return False
        elif word == "not" or word in SIGNS:
            if {"not": "!", **SIGNS}[word] not in condition:
                return False
        elif not re.match(r"[A-Za-z_]", word) or word not in condition[place:]:
            return False
        else:
            place = condition.index(word, place)
    return True


def atoms(condition):
    """The operands of a condition that have no operands themselves."""
    if condition[:1] == ["("] and forward(condition, 1, ()) == len(condition) - 1:
        return atoms(condition[1:-1])
    for sign in ("||", "&&"):
        found = parts(condition, sign)
        if len(found) > 1:
            return [inner for it in found for inner in atoms(it)]
    return [condition]


def arm_has(words, pattern):
    """Whether a pattern is the one that these words name; None if no rule says."""
    there = [re.sub(r"[iu](8|16|32|64|128|size)$", "", it.replace("_", "")) if it[0].isdigit() else it for it in pattern if re.match(r"\w", it)]
    place = 0
    for word in words:
        if word in ("default", "in_default"):
            continue
        if re.match(r"empty$|len\d", word):
            return None
        compared = COMPARED.match(word)
        wanted = compared[2] if compared else word
        if wanted not in there[place:]:
            return False
        place = there.index(wanted, place) + 1
    return True


def is_arm(words, body):
    if words in (["Some"], ["None"]) and body.loops:
        return True
    while len(words) > 1 and (words[-1] in body.called or words[-1] in body.lets):
        words = words[:-1]
    found = [arm_has(words, it) for it in body.arms]
    return True if any(found) else None if None in found else False


def is_test(words, body):
    operands = [*body.operands, *(it for condition in body.tests for it in atoms(condition))]
    if any(test_has(words, it) for it in operands):
        return True
    # a test may be named by a binding or a call of its own
    return False if any(it in body.words for it in words) else None


def is_step(words, number, body):
    name, names = words[0], words[1:]
    if name not in body.called:
        return None
    if body.called[name] < number:
        return False
    return True if not names or names[0] not in body.lets or (name, names[0]) in body.bound else None


def is_computed(kind, words, body):
    sign = COMPUTED.get(kind)
    if not sign:
        return None
    there = sign in body.words or f"{sign}=" in body.words
    return there and all(it in body.words or it.isdigit() for it in words[:1])


def is_made(part, body):
    """Whether the code of a body makes this part of a name: True, False, or None if no rule says."""
    kind, words = part
    number = 1
    if words and words[-1].isdigit() and (kind != "in" or len(words) > 1):
        number, words = int(words[-1]), words[:-1]
    if kind in ("clause", "test"):
        return True
    if kind == "in_default":
        return any("_" in it or not it for it in body.arms) or "else" in body.words
    if kind == "loop":
        return any(not words or words[0] in it or f"_{words[0]}" in it for it in body.loops) or bool(words) and f"'{words[0]}" in body.words
    if not words:
        return None if kind in ("if", "then", "else", "in", "in_ok", "in_err") else True
    if kind in ("if", "then", "else"):
        return is_test(words, body)
    if kind in ("in_ok", "in_err"):
        return body.asked[words[0]] > 0
    if kind == "in":
        return is_arm(words, body)
    return is_step(words, number, body) if kind == "step" else is_computed(kind, words, body)


def words_of(name):
    return [it for it in re.split(r"[-+]", name) if is_name(it)]
