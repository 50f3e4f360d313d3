#!/usr/bin/env python3
"""Makes the tables of opcodes in crates/opcode_table from tools/opcodes.txt.

    tools/opcodes.py            writes them
    tools/opcodes.py --check    ends with 1 where they stand otherwise
"""
from made import filled, rows_of, settle, text_of

CRATE = "crates/opcode_table"
TEXT = "tools/opcodes.txt"
# a copy that a program of the gate compares with the built tables
COPY = "crates/cases_tables/data/opcodes.txt"
SHIFTS, SLOTS = 128, 512


class Parts:
    """A file in which parts are made anew, one after the other."""

    def __init__(self, path):
        self.path, self.lines = f"{CRATE}/{path}", text_of(f"{CRATE}/{path}").splitlines()

    def put(self, first, last, lines, behind=""):
        """Puts lines between the line `first`, the next one that is `behind`, where one is asked for, and the next `last`."""
        start = self.lines.index(first)
        start = self.lines.index(behind, start) + 1 if behind else start + 1
        self.lines[start:self.lines.index(last, start)] = lines

    def text(self):
        return "\n".join(self.lines) + "\n"


def hash_of(word):
    number = 0
    for byte in word.encode():
        number = (number * 15 + byte) % 65536
    return number


def perfect(words):
    """The shifts and slots of a perfect hash: the words of the fullest shifts are placed first, each shift at the least number by which
    all its words find free slots."""
    groups = {}
    for place, word in enumerate(words):
        groups.setdefault(hash_of(word) % SHIFTS, []).append((hash_of(word) // SHIFTS, place))
    shifts, slots = [0] * SHIFTS, [len(words)] * SLOTS
    for low, group in sorted(groups.items(), key=lambda it: -len(it[1])):
        shift = 0
        while len({(high + shift) % SLOTS for high, _ in group}) < len(group) or any(
                slots[(high + shift) % SLOTS] != len(words) for high, _ in group):
            shift += 1
        shifts[low] = shift
        for high, place in group:
            slots[(high + shift) % SLOTS] = place
    return shifts, slots


def main():
    rows = [line.split() for line in rows_of(TEXT)]
    opcodes = [(bytes.fromhex(code), op, word, kind) for code, op, word, kind in (it for it in rows if len(it) == 4)]
    aliases = [(word, op) for _, word, op in (it for it in rows if len(it) == 3)]
    ops = [op for _, op, _, _ in opcodes]
    of_op = {op: (code, kind) for code, op, _, kind in opcodes}
    words = [word for _, _, word, _ in opcodes] + [word for word, _ in aliases]
    if [code for code, _, _, _ in opcodes] != sorted(code for code, _, _, _ in opcodes):
        raise SystemExit(f"the opcodes of {TEXT} don't rise by their bytes")

    op_file = Parts("src/op.rt")
    op_file.put("pub enum Op {", "}", [f"    {op}," for op in ops])

    def row(code, op, word, kind):
        second = f"Some(0x{code[1]:02X})" if len(code) == 2 else "None"
        return f'    0x{code[0]:02X} {second}, {op} "{word}" {kind};'

    table = Parts("src/table.rt")
    table.put(f"pub static OPCODES: [Opcode; {len(words)}] = rows![", "];",
              [row(*it) for it in opcodes] + [row(of_op[op][0], op, word, of_op[op][1]) for word, op in aliases])

    known = {code: op for code, op, _, _ in opcodes}

    def found(code):
        return f"    Some(Op::{known[code]})," if code in known else "    None,"

    last = max(code[1] for code in known if len(code) == 2)
    bytes_file = Parts("src/bytes.rt")
    bytes_file.put("static OF_BYTE: [Option<Op>; 256] = [", "];", [found(bytes([it])) for it in range(256)])
    bytes_file.put(f"static AFTER_FE: [Option<Op>; {last + 1}] = [", "];", [found(bytes([0xFE, it])) for it in range(last + 1)])

    shifts, slots = perfect(words)
    mnemonic = Parts("src/mnemonic.rt")
    mnemonic.put(f"static SHIFTS: [u8; {SHIFTS}] = [", "];", filled(shifts))
    mnemonic.put(f"static SLOTS: [u16; {SLOTS}] = [", "];", filled(slots))

    specs = Parts("specs/Opcodes.antt")
    variants = [f"  {op}," for op in ops]
    specs.put("use Rattle.opcode_table.specs.declared.op.Op.TheVariants.{", "}", variants)

    def spec(code, op, word, kind):
        which = "one" if len(code) == 1 else "two"
        return f'    {which} 0x{code[-1]:02X} {op} (codes "{word}") {kind} ∷'

    specs.put("opcodes =", "    []", [spec(*it) for it in opcodes])
    specs.put("abbrev pub number_of : Op → ℕ", "", [f"number_of {op} = {number}" for number, op in enumerate(ops)])
    specs.put("aliases =", "    []", [f'    (codes "{word}", {op}) ∷' for word, op in aliases])

    numbers = Parts("proofs/Numbers.antt")
    numbers.put("use Rattle.opcode_table.specs.declared.op.Op.TheVariants.{", "}", variants)
    numbers.put("pub tag-number : (op : Op) → tag_of the_type op ≡ number_of op", "", [f"tag-number {op} = refl" for op in ops])
    below = f"pub number-below : (op : Op) → number_of op < {len(ops)}"
    numbers.lines = numbers.lines[:numbers.lines.index(below) + 1] + [f"number-below {op} = lit< tt" for op in ops]

    made = {it.path: it.text() for it in (op_file, table, bytes_file, mnemonic, specs, numbers)}
    settle({**made, COPY: text_of(TEXT)})


main()
