"""Compares include/fz.h with the exports of crates/fz_c/src: signatures, structs and the numbers of answers; and the ctypes of fzfits with both."""
import ctypes
import re
import sys
from pathlib import Path

TOP = Path(__file__).resolve().parents[2]
sys.path.insert(0, str(TOP / "python"))
from fzfits import library  # noqa: E402  # pylint: disable=wrong-import-position

EXPORT = re.compile(r'#\[unsafe\(no_mangle\)\]\s*pub extern "C" fn (\w+)\(([^)]*)\) -> (\w+)', re.S)
STRUCT = re.compile(r"^#\[repr\(C\)\]\s*(?:#\[[^\]]*\]\s*)*pub struct (\w+) \{(.*?)\n\}", re.S | re.M)
COMMENT = re.compile(r"/\*.*?\*/|^ *#[^\n]*$", re.S | re.M)
CALL = re.compile(r"\b(u?int32_t) (fz_\w+)\(([^)]*)\);", re.S)
C_STRUCT = re.compile(r"^struct (fz_\w+) \{(.*?)^\};", re.S | re.M)
NUMBERS = {"u8": "uint8_t", "u32": "uint32_t", "u64": "uint64_t", "i32": "int32_t"}
OF_CTYPES = {ctypes.c_uint32: "uint32_t", ctypes.c_uint64: "uint64_t", ctypes.c_int32: "int32_t", ctypes.c_size_t: "size_t", ctypes.c_void_p: "*"}


def c_name(name):
    """FzCoded as C spells it: struct fz_coded."""
    return "struct " + re.sub(r"(?<!^)([A-Z])", r"_\1", name).lower()


def c_words(name, kind):
    """A parameter of Rattle as the parameters of C that stand for it."""
    slice_of = re.fullmatch(r"&(mut )?\[(\w+)\]", kind)
    if slice_of:
        const = "" if slice_of[1] else "const "
        return [f"{const}{c_type(slice_of[2])} *{name}", f"size_t {name}_len"]
    one = re.fullmatch(r"&(mut )?(\w+)", kind)
    if one:
        const = "" if one[1] else "const "
        return [f"{const}{c_type(one[2])} *{name}"]
    return [f"{NUMBERS[kind]} {name}"]


def c_type(kind):
    return NUMBERS.get(kind) or c_name(kind)


def fields(body):
    """The fields of a struct of Rattle as C has them."""
    found = []
    for name, kind in re.findall(r"pub (\w+): ([^,\n]+),", body):
        many = re.fullmatch(r"\[(\w+); (\d+)\]", kind)
        found.append(f"{c_type(many[1])} {name}[{many[2]}]" if many else f"{c_type(kind)} {name}")
    return found


def of_source(folder):
    """The signatures and structs of the exports, in the words of C."""
    calls, structs = {}, {}
    for path in sorted(folder.glob("*.rt")):
        text = path.read_text()
        for name, parameters, answer in EXPORT.findall(text):
            words = [it.split(":") for it in parameters.split(",") if it.strip()]
            calls[name] = (NUMBERS[answer], [it for one, kind in words for it in c_words(one.strip(), kind.strip())])
    for path in sorted([*folder.glob("*.rt"), *(TOP / "crates/fz_flat/src").glob("*.rt")]):
        for name, body in STRUCT.findall(path.read_text()):
            structs[c_name(name)] = fields(body)
    return calls, structs


def kinds_of_header(text):
    """The kinds of refusal that the header names, in the spelling of the source."""
    found = re.findall(r"FZ_KIND_(\w+) = (\d+)", text)
    return {"".join(it.capitalize() for it in name.split("_")): number for name, number in found}


def of_header(text):
    """The same of the header."""
    text = COMMENT.sub("", text)
    calls = {name: (answer, [" ".join(it.split()) for it in parameters.split(",") if it.strip() != "void"]) for answer, name, parameters in CALL.findall(text)}
    structs = {f"struct {name}": [" ".join(it.split()) for it in body.split(";") if it.strip()] for name, body in C_STRUCT.findall(text)}
    return calls, structs


def answers_of_source(text):
    """The numbers of the answers by name, in the spelling of the header."""
    found = re.findall(r"(?:Fault|TileFault)::(\w+) => (-\d+)", text)
    return {"FZ_" + re.sub(r"(?<!^)([A-Z])", r"_\1", name).upper(): int(number) for name, number in found}


def answers_of_header(text):
    found = re.findall(r"(FZ_\w+) = (-?\d+)", re.search(r"enum fz_answer \{(.*?)\};", text, re.S)[1])
    return {name: int(number) for name, number in found if int(number)}


def of_ctypes(arguments):
    """The arguments of a call of fzfits in the words of C; size_t and uint64_t are one type of ctypes."""
    return [OF_CTYPES.get(it, "*") for it in arguments]


def as_ctypes(parameter):
    """A parameter of the header as of_ctypes says it."""
    return "*" if "*" in parameter else OF_CTYPES[getattr(ctypes, "c_" + parameter.split()[0].replace("_t", "").replace("size", "size_t"))]


def compared():
    """What is compared, as a list of a name, and what both say."""
    header = (TOP / "include/fz.h").read_text()
    source = TOP / "crates/fz_c/src"
    (calls, structs), (c_calls, c_structs) = of_source(source), of_header(header)
    pairs = [(f"{name} of fz.h", calls.get(name), c_calls.get(name)) for name in sorted({*calls, *c_calls})]
    pairs += [(f"{name} of fz.h", structs.get(name), c_structs.get(name)) for name in sorted({*structs, *c_structs})]
    pairs.append(("the answers of fz.h", answers_of_source((source / "fault.rt").read_text()), answers_of_header(header)))
    kinds = dict(re.findall(r"Kind::(\w+) => (\d+),", (TOP / "crates/fz_base/src/kind.rt").read_text()))
    pairs += [(f"the kind {name} of fz.h", number, kinds.get(name)) for name, number in kinds_of_header(header).items()]
    pairs += [(f"the kind {number} of fzfits", name, next((it for it, one in kinds.items() if int(one) == number), None)) for number, name in library.KINDS.items()]
    wanted = {**{-it: None for it in library.KINDS}, **library.ARGUMENTS}
    pairs.append(("the answers of fzfits", sorted(wanted), sorted(answers_of_header(header).values())))
    for name, arguments in library.CALLS.items():
        pairs.append((f"{name} of fzfits", of_ctypes(arguments), [as_ctypes(it) for it in c_calls.get(name, (0, []))[1]]))
    return pairs


def differences():
    """How many things were compared, and what differs, a line each. Nothing to compare is a difference."""
    pairs = compared()
    found = [f"{name}: {one} and {other}" for name, one, other in pairs if one != other]
    return len(pairs), found + ["no export was found"] * (len(pairs) < 20)
