"""Assembly of which an assembler makes the same bytes as the compiler that wrote it."""
import re

from files import Fault, run, write

# A gap before a loop, which an assembler fills with instructions that do nothing.
GAP = re.compile(r"\t\.p2align\t\d+(?:, , \d+)?$")
# A jump, which x86-64 has in two lengths, and the first byte of the longer one with its opcode's.
JUMP = re.compile(r"\tj\w+\t(\.L\w+)$")
LONGER = {b"\x0f": 2, b"\xe9": 1}
QUOTED = re.compile(r'"([^"]*)"')


def as_built(text, built, tools, work):
    """Returns the assembly with the bytes that were built wherever an assembler has a choice.

    It may choose a shorter jump, and fills gaps otherwise. Labels show where they are in what an
    assembler makes. It makes the same bytes up to the first jump that was built longer.
    """
    lines = renamed(text).splitlines()
    places = [number for number, it in enumerate(lines) if GAP.match(it) or JUMP.match(it)]
    while longer := longer_jumps(lines, ends := assembled(lines, places, tools, work), built):
        for number, opcode in longer.items():
            target = JUMP.match(lines[number])[1]
            lines[number] = f"{listed(opcode)}\n\t.long\t{target}-.-4"
    for number, (section, begin, end) in ends.items():
        if GAP.match(lines[number]) and end > begin:
            lines[number] = f"{listed(built[section][begin:end])}\n{lines[number]}"
    return "\n".join(lines) + "\n"


def renamed(text):
    """Returns the assembly with names that each assembler reads: none is quoted.

    Those are of functions that the library keeps for itself.
    """
    def plain(quoted):
        return re.sub(r"\W+", ".", quoted[1]).strip(".")

    is_text = re.compile(r"\t\.(?:section|ascii|asciz|ident|file)\b")
    lines = text.splitlines()
    named = [it if is_text.match(it) else QUOTED.sub(plain, it) for it in lines]
    quoted = {it for line in lines if not is_text.match(line) for it in QUOTED.findall(line)}
    if len({QUOTED.sub(plain, f'"{it}"') for it in quoted}) < len(quoted):
        raise Fault("two functions of libpim.S have the same name")
    return "\n".join(named) + "\n"


def listed(data):
    return f"\t.byte\t{', '.join(map(hex, data))}"


def assembled(lines, places, tools, work):
    """Returns the section, the begin and the end of these lines, as an assembler has them."""
    lines, source = list(lines), work / "labelled.s"
    for number in places:
        lines[number] = f"pim_begin_{number}:\n{lines[number]}\npim_end_{number}:"
    write(source, "\n".join(lines) + "\n")
    run(f"{tools}gcc", "-c", source, "-o", source.with_suffix(".o"))
    table = run(f"{tools}objdump", "-t", source.with_suffix(".o"))
    row = r"^(\w+) l\s+(\S+)\s+\w+ pim_(begin|end)_(\d+)$"
    found = {(kind, int(number)): (section, int(at, 16))
             for at, section, kind, number in re.findall(row, table, re.M)}
    return {it: (*found["begin", it], found["end", it][1]) for it in places}


def longer_jumps(lines, ends, built):
    """Returns the first jump of each section that was built longer, with its opcode."""
    first = {}
    for number, (section, begin, end) in ends.items():
        size = LONGER.get(built[section][begin:begin + 1])
        if JUMP.match(lines[number]) and end - begin == 2 and size and section not in first:
            first[section] = (number, built[section][begin:begin + size])
    return dict(first.values())


def sections(file, tools):
    """Returns the bytes of each section of an object file that a program has in its memory."""
    row = r"^ +\d+ (\S+) +(\w+) +\w+ +\w+ +(\w+) .*\bCONTENTS, ALLOC\b"
    table, data = run(f"{tools}objdump", "-hw", file), file.read_bytes()
    ends = {name: (int(at, 16), int(size, 16)) for name, size, at in re.findall(row, table, re.M)}
    return {name: data[at:at + size] for name, (at, size) in ends.items() if size}
