"""What the headers of c/ must say: the numbers, layouts and functions of the Rattle types."""
import re

from tests.c.machines import HEADER
from tests.shared.checks import ROOT


STRUCTS = {"Handle": "pim_handle", "CProtocol": "pim_protocol", "CAnswer": "pim_answer", "CReason": "pim_reason",
           "CWaiter": "pim_waiter", "CChangedTask": "pim_changed_task",
           "CChangedPrio": "pim_changed_prio", "CHanded": "pim_handed"}
TYPES = {"u8": "uint8_t", "u16": "uint16_t", "u32": "uint32_t", "u64": "uint64_t", "usize": "uint64_t",
         "*mut u8": "void *", **{name: f"struct {c}" for name, c in STRUCTS.items()}}


def sources():
    """Returns the Rattle files that have libpim's types and numbers, with their texts."""
    folders = [ROOT / "crates" / name / "src" for name in ("pim_c", "pim_ffi")]
    return {path: path.read_text() for folder in folders for path in folder.glob("*.rt")}


def constants(text):
    return {name: int(value) for name, value in re.findall(r"pub const ([A-Z_]+): \w+ = (\d+);", text)}


def fields(texts, name):
    """Returns the fields of a repr(C) struct, but for those that take no bytes."""
    body = re.search(r"#\[repr\(C\)\][^}]*?pub struct " + name + r" \{(.*?)\n\}", "\n".join(texts.values()), re.S)[1]
    found = re.findall(r"^    (?:pub )?(\w+): ([^,]+),", body, re.M)
    return [(field, TYPES[kind]) for field, kind in found if kind != "Global"]


def laid_out(c, found):
    """Returns tests of the offsets and the size that repr(C) gives to these fields."""
    end_of_last, aligned, tests = "0", "1", []
    for field, kind in found:
        at = f"(({end_of_last} + _Alignof({kind}) - 1) / _Alignof({kind}) * _Alignof({kind}))"
        tests.append(f'_Static_assert(offsetof(struct {c}, {field}) == {at}, "{c}.{field}");')
        end_of_last = f"{at} + sizeof({kind})"
        aligned = f"(_Alignof({kind}) > {aligned} ? _Alignof({kind}) : {aligned})"
    size = f"({end_of_last} + {aligned} - 1) / {aligned} * {aligned}"
    return [*tests, f'_Static_assert(sizeof(struct {c}) == {size}, "{c}");']


def tables():
    """Returns the numbers of the header's tables of answers and of refusals, with what is said of each."""
    for first in ("PIM_NO_MANAGER", "PIM_REFUSED_NO_TASK"):
        body = re.search(r"enum \w+ \{\s+" + first + r" = (.*?)\n\};", HEADER, re.S)[0]
        yield re.findall(r"(PIM_[A-Z_]+) = \d+(.*?)(?=PIM_[A-Z_]+ = |\Z)", body, re.S)


def spelled(name):
    return re.sub("^PIM_(REFUSED_(?=.))?", "", name).lower().replace("_", "-")


def exports():
    """Returns libpim's functions: the types that C needs for the result and the parameters of each.

    A handle is const where the contract says that its manager stays the same.
    """
    texts = "\n".join(sources().values())
    found = {}
    export = r'pub extern "C" fn (\w+)\(([^()]*)\)(?: -> (\w+))?\n((?:    ensures .*\n)+)'
    for name, params, result, clauses in re.findall(export, texts):
        types = [kind.strip() for kind in re.findall(r"\w+: ([^,]+)", params)]
        handle = f"{'const ' if 'ensures same ' in clauses else ''}struct pim_handle *"
        found[name] = [TYPES.get(result, "void")] + [c for kind in types if kind != "Global" for c in c_types(kind, handle)]
    return found


def c_types(kind, handle):
    if kind == "&mut Handle":
        return [handle]
    if slice_of := re.fullmatch(r"&(mut )?\[(\w+)\]", kind):
        return [f"{'' if slice_of[1] else 'const '}{TYPES[slice_of[2]]} *", TYPES["usize"]]
    return [TYPES[kind]]


class Layouts:
    """Tests for each CPU."""

    def test_layouts(self):
        texts, tests = sources(), []
        for name, c in STRUCTS.items():
            found = fields(texts, name)
            body = re.search(r"^struct " + c + r" \{(.*?)^\};", HEADER, re.S | re.M)[1]
            in_header = [" ".join(line.split()) for line in re.findall(r"^    ([^;/]+);", body, re.M)]
            in_rattle = [f"{kind} {field}".replace("* ", "*") for field, kind in found]
            self.equal(f"the fields of struct {c}", (in_header,), (in_rattle,))
            if name != "Handle" or self.MACHINE.bits == 64:  # pim.h asserts its size for 32 bits
                tests += laid_out(c, found)
        self.compiles("the layouts of the structs", tests)
