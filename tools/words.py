#!/usr/bin/env python3
"""Makes the lists of words in crates/il_lexer from tools/words.txt.

    tools/words.py            writes them
    tools/words.py --check    ends with 1 where they stand otherwise
"""
import re

from made import between, filled, rows_of, settle, text_of

CRATE = "crates/il_lexer"
TEXT = "tools/words.txt"
# a copy that a program of the gate compares with the built lists
COPY = "crates/cases_tables/data/words.txt"
SLOTS = 4096


def multiplier():
    """What spreads the keys of the words, as crates/il_lexer/src/keys.rt has it."""
    return int(re.search(r"const MULTIPLIER: u64 = (\d+);", text_of(f"{CRATE}/src/keys.rt"))[1])


def key_of(word):
    """The last eight bytes as one number, the first of them the highest."""
    return int.from_bytes(word.encode()[-8:], "big")


def slot_of(word, by):
    return (key_of(word) + word.encode()[0]) * by % 2**64 // 2**52


def slots_of(words):
    """For each slot the number of the word that has it, or 0."""
    slots, by = [None] * SLOTS, multiplier()
    for number, word in enumerate(words):
        if slots[slot_of(word, by)] is not None:
            raise SystemExit(f"{word} has the slot of another word: give MULTIPLIER in src/keys.rt another value")
        slots[slot_of(word, by)] = number
    return [it or 0 for it in slots]


def main():
    rows = [line.split() for line in rows_of(TEXT)]
    names, words = [name for name, _ in rows], [word for _, word in rows]
    if words != sorted(words, key=str.encode):
        raise SystemExit(f"the words of {TEXT} don't rise by their bytes")
    head = "\n".join(text_of(f"{CRATE}/src/word.rt").split("\npub const ")[0].splitlines())
    consts = [f"pub const {name}: u16 = {number};" for number, name in enumerate(names)]
    count = len(words)
    words_file = between(f"{CRATE}/src/words.rt", f"pub static WORDS: [&str; {count}] = [", "];", [f'    "{it}",' for it in words])
    made = {f"{CRATE}/src/words.rt": words_file}
    for first, lines in ((f"static KEYS: [u64; {count}] = [", [f"    {key_of(it)}," for it in words]),
                         (f"static SLOTS: [u16; {SLOTS}] = [", filled(slots_of(words)))):
        old = words_file.splitlines()
        start = old.index(first) + 1
        words_file = "\n".join([*old[:start], *lines, *old[old.index("];", start):]]) + "\n"
    made[f"{CRATE}/src/words.rt"] = words_file
    made[f"{CRATE}/src/word.rt"] = head + "\n\n" + "\n\n".join(consts) + "\n"
    made[f"{CRATE}/specs/WordList.antt"] = between(
        f"{CRATE}/specs/WordList.antt", "words =", "    []", [f'    codes "{it}" ∷' for it in words])
    made[COPY] = text_of(TEXT)
    settle(made)


main()
