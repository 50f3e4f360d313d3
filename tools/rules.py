#!/usr/bin/env python3
"""Makes docs/RULES.md: each rule with its text, when it is broken, and the shortest case of this repository that breaks it.

    tools/rules.py            writes it
    tools/rules.py --check    ends with 1 where it stands otherwise

The texts are those of crates/il_tools/src/texts.rt where the program prints them, and else of tools/rules.txt, which says of each when it
is broken. A case is a source of crates/cases_sources, a method of crates/cases_verifier or a line of crates/cases_layers that its expected
output says to break that rule.
"""
import os
import re

from made import TOP, rows_of, settle, text_of

RULES = "docs/RULES.md"
CLASSES = {"L": ("Tokens", "lexical_text"), "S": ("Syntax", "syntax_text"), "D": ("What is declared twice", "twice_text"),
           "N": ("What isn't declared", "undeclared_text"), "B": ("What is out of its bounds", "bounds_text"),
           "Z": ("What is too large", None), "I": ("Demands on an image", None), "V": ("Methods", None), "Y": ("Types", None)}
ABOUT = {
    "L": "`ilasm` prints these, with the line. A lexical fault goes before all others.",
    "S": "`ilasm` prints these, with the line of the token.",
    "D": "`ilasm` prints these, with the line of the later declaration, where the source has no fault L or S.",
    "N": "`ilasm` prints these where the source has no fault L, S or D.",
    "B": "`ilasm` prints these where the source has no fault L, S, D or N.",
    "Z": "`ilasm` prints this where the source has no fault.",
    "I": "The text says what is wrong, the other column what is asked. So far `pe_layout` (I1 to I3), `metadata_tables` (I6, I7) and "
         "`body_codec` answer such faults; the definitions of the others stand in `image_model`.",
    "V": "`body_verifier` answers these, each with the place of an instruction, in bytes. A case is a method; see its file for the "
         "classes that it names.",
    "Y": "`assignability` answers this where a world is made.",
}
NO_CASE = {"L6": "16,777,217 commas", "Z1": "one `ldstr` of 33,554,432 letters", "Y1": "`.class A extends B { } .class B extends A { }`"}


def texts():
    """The texts that the program prints, by rule."""
    found, source = {}, text_of("crates/il_tools/src/texts.rt")
    for letter, (_, function) in CLASSES.items():
        if function:
            body = source.split(f"fn {function}(")[1].split("\n}")[0]
            found.update((f"{letter}{number}", text) for number, text in re.findall(r'(\d+) => "([^"]+)",', body))
    found.update(re.findall(r"error (Z\d+): ([^\\]+)", source))
    return found


def data(crate, file):
    with open(os.path.join(TOP, "crates", crate, "data", file), encoding="utf-8", errors="replace", newline="") as it:
        return it.read()


def shorter(cases, rule, case):
    """Keeps the shortest case of each rule."""
    if rule not in cases or len(case) < len(cases[rule]):
        cases[rule] = case


def sources(cases):
    """The shortest source of crates/cases_sources for each rule, and where there is none, its pieces."""
    many = {}
    for name, rule in re.findall(r"^(\S+): ([LSDNB]\d+) \d+:\d+$", text_of("crates/cases_sources/stdout"), re.M):
        if name.endswith(".il"):
            shorter(cases, rule, data("cases_sources", name))
        elif name.endswith(".many"):
            shorter(many, rule, data("cases_sources", name))
    for rule, case in many.items():
        cases.setdefault(rule, "(each line so many times) " + case)


def methods(cases):
    """The shortest method of crates/cases_verifier for each rule that it alone breaks first."""
    bodies = {}
    for file in os.listdir(os.path.join(TOP, "crates/cases_verifier/data")):
        text = data("cases_verifier", file)
        for match in re.finditer(r"\.method [^{}']*'([^']+)'[^{}]*\{", text):
            depth, end = 1, match.end()
            while depth and end < len(text):
                depth += (text[end] == "{") - (text[end] == "}")
                end += 1
            bodies[match[1]] = text[match.start():end]
    for name, rules in re.findall(r"^  ([^:\n]+):((?: \d+:V\d+)+)", text_of("crates/cases_verifier/stdout"), re.M):
        broken = re.findall(r"V\d+", rules)
        if name in bodies and len(set(broken)) == 1:
            shorter(cases, broken[0], bodies[name])
    for name, rules in re.findall(r"^  ([^:\n]+):((?: \d+:V\d+)+)", text_of("crates/cases_verifier/stdout"), re.M):
        for broken in re.findall(r"V\d+", rules):
            if name in bodies:
                cases.setdefault(broken, bodies[name])


def images(cases):
    """The shortest line of crates/cases_layers for each rule on images."""
    if not os.path.exists(os.path.join(TOP, "crates/cases_layers/stdout")):
        return
    for line, rule in re.findall(r"^(\S.*): (I\d+) at .*$", text_of("crates/cases_layers/stdout"), re.M):
        where = "frames" if line.startswith(("cut ", "read ", "written")) or re.match(r"open 0x", line) else "tables"
        shorter(cases, rule, f"{line} ({where})")


def shown(case):
    """A case as a cell of a table."""
    text = re.sub(r"\s+", " ", case).strip()
    if not text:
        return "a source without tokens"
    text = "".join(f"\\x{ord(it):02X}" if not 32 <= ord(it) < 0x10000 or 0x7F <= ord(it) < 0xA0 or it == "\ufffd" else it for it in text)
    text = text.replace("\\xFFFD", "\\xFF").replace("|", "\\|")
    text = re.sub(r"(\S{1,8}? ?)\1{14,}", lambda it: f"⟨{it[1].strip()}, {len(it[0]) // len(it[1])} times⟩", text)
    if len(text) > 300:
        text = text[:300] + " .."
    fence = "``" if "`" in text else "`"
    pad = " " if fence == "``" else ""
    return f"{fence}{pad}{text}{pad}{fence}"


def main():
    printed, cases = texts(), {}
    sources(cases)
    methods(cases)
    images(cases)
    lines = ["# Rules", "",
             "Made by tools/rules.py: change tools/rules.txt or the cases, and run the script. Each rule has its text, when it is broken, and the "
             "shortest case of this repository that breaks it. README tells how the program prints them, and in which order faults go; MAP where "
             "each definition stands.", ""]
    letter = ""
    for row in rows_of("tools/rules.txt"):
        rule, about = row.split(" ", 1)
        text, when = (printed[rule], about) if rule in printed else about.split(" | ", 1)
        if rule[0] != letter:
            letter = rule[0]
            lines += ["" if lines[-1] else None, f"## {letter}: {CLASSES[letter][0]}", "", ABOUT[letter], "",
                      "| Rule | Text | When | Shortest case |", "|---|---|---|---|"]
            lines = [it for it in lines if it is not None]
        case = NO_CASE.get(rule) or (shown(cases[rule]) if rule in cases else "")
        when = when.replace("|", "\\|")
        lines.append(f"| {rule} | {text} | {when} | {case} |")
    missing = [rule for rule in printed if not any(line.startswith(f"| {rule} |") for line in lines)]
    if missing:
        raise SystemExit(f"tools/rules.txt lacks {', '.join(missing)}")
    settle({RULES: "\n".join(lines) + "\n"})


main()
