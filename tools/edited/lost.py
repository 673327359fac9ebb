"""Which names that the proofs of a function cite are made from its code no longer, or of other code, after an edit of its body."""
import re
from collections import Counter

from .code import ASSIGNING, CLOSING, Body, forward, is_name
from .names import arm_has, atoms, is_made, parts_of, test_has, words_of

QUESTION_ARM = re.compile(r"(?:(?:in_ok|in_err)-)?([A-Za-z_]\w*?)(?:-(\d+))?$")
LATER_RESIDUAL = re.compile(r"from_residual-in_err-([A-Za-z_]\w*)$")
RETURNS_OF_ARM = re.compile(r"returns-in-([\w-]+?)(?:-clause-\w+)?$")
CONTINUES = frozenset("else . ? ) , ; && || + - * / == != < > } =>".split())


def not_made(was, now, cited):
    """Names of which a part, or a word, is made from the code no longer."""
    for name in sorted(cited.names):
        gone = next((it for it in parts_of(name) if is_made(it, was) and is_made(it, now) is not True), None)
        word = next((it for it in words_of(name) if it in was.words and it not in now.words), None)
        if gone:
            yield name, f"no code makes {'-'.join([gone[0], *gone[1]])} now"
        elif word:
            yield name, f"the code does not have the word {word} now"
    for name in sorted(cited.variables):
        word = name.split("-")[0]
        if is_name(word) and word in was.words and word not in now.words:
            yield f"l.{name}", f"the code does not have the variable {word} now"


def questions(was, now, cited):
    """A `?` whose value the proofs name."""
    for name in was.asked:
        if was.asked[name] > now.asked[name] and re.search(rf"\bin_(?:ok|err)-{name}\b", cited.text):
            yield f"in_ok-{name}", f"the value of {name} does not come from its ? now"


def unnamed(body, is_question):
    """The calls in order whose step, or whose `?`, has the name of the call and not that of a binding."""
    named = {it for it in body.calls if it.is_last and it.bound not in ([], ["_"])}
    if is_question:
        return [it for it in body.calls if it.is_asked and it not in named]
    return [it for it in body.calls if it.is_asked or it not in named]


def taken_over(was, now, cited):
    """Names that belong to another call of the same function after the edit, since it stands before."""
    stems = {*cited.steps, *("-".join([kind, *words]) for it in cited.goals for kind, words in parts_of(it) if kind in ("in_ok", "in_err") and words)}
    for name in sorted(stems):
        found = QUESTION_ARM.match(name)
        if not found:
            continue
        of_question, number = name.startswith(("in_ok-", "in_err-")), int(found[2] or 1)
        before, after = ([it.written for it in unnamed(body, of_question) if it.name == found[1]] for body in (was, now))
        if len(after) > len(before) >= number and before[number - 1] != after[number - 1] and before[number - 1] in after[number:]:
            yield name, "it is now the name of " + " ".join(after[number - 1])[:60]


def first_question(body):
    """The name that the first `?` of a body has, and how many there are."""
    places = [i for i, it in enumerate(body.tokens) if it == "?"]
    asked = [it for it in body.calls if it.is_asked]
    named = body.given_at(places[0]) if places and body.tokens[places[0] + 1 : places[0] + 2] == [";"] else []
    first = named[0] if named else asked[0].name if asked else None
    return first, len(places)


def newly_bound(was, now, cited):
    """The step of a call, which a `let` names after its binding now: that of `let early = f()` is `f-early`."""
    for name in sorted(cited.names):
        for kind, words in parts_of(name):
            number = int(words[-1]) if len(words) > 1 and words[-1].isdigit() else 1
            if kind != "step" or len(words) > 1 + (number > 1):
                continue
            before, after = (sum(it.name == words[0] for it in unnamed(body, False)) for body in (was, now))
            if after < number <= before:
                yield name, f"the code names this call of {words[0]} after its binding now, or does not make it"


def residuals(was, now, cited):
    """`from_residual` is the step of the first `?`; those of later ones have their arm in the name."""
    (first, count), (first_now, count_now) = first_question(was), first_question(now)
    if first and first_now and first != first_now:
        if count_now > count and "from_residual" in cited.steps:
            yield "from_residual", f"it belongs to the ? of {first_now}, and not to that of {first}"
        for name in cited.steps if count_now < count else ():
            found = LATER_RESIDUAL.match(name)
            if found and found[1] == first_now:
                yield name, "its ? is the first now"


def changed(body):
    """The variables that a body changes, or may change."""
    found = body.tokens
    for i, (it, after) in enumerate(zip(found, found[1:])):
        lent = found[max(i - 2, 0) : i] == ["&", "mut"]
        given = after in ASSIGNING and found[i - 1] not in ("let", "mut")
        if is_name(it) and (lent or given or after in ("[", ".")):
            yield it


def loops(was, now, cited):
    """A variable that the proofs name as one that a loop changes."""
    for name in sorted((cited.changed & set(changed(was))) - set(changed(now))):
        yield f"loop .{name}", "the loop changes it no longer"


def last_expression(found):
    """The tokens of the last expression of a block."""
    depth, last = 0, 1
    for i, it in enumerate(found[:-1]):
        depth += (it in CLOSING) - (it in (")", "]", "}"))
        after_block = it == "}" and i + 2 < len(found) and found[i + 1] not in CONTINUES
        if depth == 1 and (it == ";" or after_block):
            last = i + 1
    return found[last:-1]


def is_branch(found):
    """Whether the value of an expression comes from a branch."""
    inner = last_expression(found) if found[:1] == ["{"] else found
    return inner[:1] in (["if"], ["match"])


def arms(body):
    """The pattern and the value of each arm."""
    for i, it in enumerate(body.tokens):
        if it == "=>":
            value = body.tokens[i + 1 : forward(body.tokens, i + 1, (",",))]
            block = forward(value, 1, ()) + 1 if value[:1] == ["{"] else len(value)
            yield tuple(body.pattern_before(i)), value[:block]


def branches(was, now, cited):
    """The value of the body, or of an arm, comes from a branch now, or no longer: what it returns has other names."""
    whole = sorted(it for it in cited.goals if re.match(r"returns(?:-clause-\w+)?$", it))
    if whole and is_branch(was.tokens) != is_branch(now.tokens):
        yield whole[0], "the last expression is a branch now, or no longer"
    before, after = list(arms(was)), list(arms(now))
    count = Counter(pattern for pattern, _ in before)
    for pattern, value in before:
        if count[pattern] == 1 and any(pattern == it and is_branch(value) != is_branch(other) for it, other in after):
            for name in sorted(cited.goals):
                found = RETURNS_OF_ARM.match(name)
                if found and arm_has(found[1].split("-"), list(pattern)):
                    yield name, "the value of the arm is a branch now, or no longer"


def tests(was, now, cited):
    """A test that is cited has a further operand."""
    alone = [it for it in was.tests if len(atoms(it)) == 1]
    for name in sorted(cited.names):
        for kind, words in parts_of(name):
            if kind not in ("if", "then", "else") or not words:
                continue
            for condition in (it for it in alone if test_has(words, it) and it not in now.tests):
                near = [it for it in now.tests if any(test_has(words, part) for part in atoms(it))]
                if near and all(len(atoms(it)) > 1 for it in near):
                    yield name, "its test " + " ".join(condition) + " has a further operand"


def lost(before, after, cited):
    """The names that the edit takes away, each with why."""
    was, now, out = Body(before), Body(after), {}
    for rule in (not_made, newly_bound, questions, taken_over, residuals, loops, branches, tests):
        for name, why in rule(was, now, cited):
            out.setdefault(name, why)
    return out
