"""Which names of goals and steps the proofs of a function cite."""
import re

STEP = re.compile(r"\b(?:c|w|c1|c2|d)\.([A-Za-z_][\w+-]*)(?=[.\s)},;])")
GOAL = re.compile(r"\bgoal\.(?:at\.)?(?!at\.)([A-Za-z_][\w+-]*\w)")
BROUGHT = re.compile(r"\buse [\w.+]+\.Goals\.\{([^}]*)\}")
LOOP = re.compile(r"\bl\.(?:initial\.|fn\.)?([a-z_][\w-]*)")
CHANGED = re.compile(r"\bc\.loop-\w+\.([a-z_]\w*)")
# Words that follow `c.` without being a step.
OTHERS = frozenset("args requires ranges type_inv auto utf8 self row behind p old new".split())


class Cited:
    """The names that some proof files cite: goals, steps, the variables of loops, and those that a loop changes."""

    def __init__(self, paths):
        self.paths = paths
        self.text = "\n".join(re.sub(r"--[^\n]*", "", it.read_text()) for it in paths)
        self.goals = {*GOAL.findall(self.text), *(it.strip() for found in BROUGHT.findall(self.text) for it in found.split(","))}
        self.steps = set(STEP.findall(self.text)) - OTHERS
        self.variables = set(LOOP.findall(self.text))
        self.changed = set(CHANGED.findall(self.text)) - {"invariant", "auto"}
        self.names = self.goals | self.steps


def is_of(folder, function):
    """Whether a folder of proofs/ has those of this function, alone or with the others of its cycle."""
    return folder == function.name or folder.startswith("+") and function.name in re.split(r"[+-]", folder)


def proofs_of(crate, path, function):
    """The proof files of a function of this file of the crate: in its folder, in that of its cycle, and those that name its goals."""
    proofs, module = crate / "proofs", path.with_suffix("").parts[1:]
    module = () if module == ("lib",) else module
    root, found = proofs.joinpath(*module), set()
    for file in root.glob("**/*.antt"):
        *above, folder = file.relative_to(root).parts[:-1] or ("",)
        if function.kind:
            kinds_fit = not above or any(function.kind in it for it in above)
        else:
            kinds_fit = not any(it[:1].isupper() for it in above)
        if is_of(folder, function) and kinds_fit:
            found.add(file)
        elif folder.startswith("+") and re.search(rf"\b{function.name}\b", file.read_text()):
            found.add(file)
    if not module:
        found = {it for it in found if len(it.relative_to(proofs).parts) <= 3}
    names = re.compile(rf"proofs\.(?:{'.'.join(module)}\.)?(?:\w+\.)?\+?{function.name}\.(?:Goals|Given)")
    found.update(it for it in {*proofs.glob("*.antt"), *root.glob("*.antt")} if names.search(it.read_text()))
    return sorted(found)
