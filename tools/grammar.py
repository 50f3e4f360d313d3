#!/usr/bin/env python3
"""Makes the tables of crates/ilasm_grammar from tools/grammar.txt: the productions, the rows by which the parser picks them, and the
numbers by which the table's facts are checked.

    tools/grammar.py            writes them
    tools/grammar.py --check    ends with 1 where they stand otherwise
"""
import re

from made import filled, rows_of, settle, text_of

CRATE = "crates/ilasm_grammar"
TEXT = "tools/grammar.txt"
# a copy that a program of the gate compares with the built table
COPY = "crates/cases_tables/data/grammar.txt"
KINDS = {"NAME": "NAME", "SCOPE": "SCOPE", "INT": "INT", "QSTRING": "QSTRING", "EQBYTES": "EQ_BYTES", "BYTEARRAY": "BYTE_ARRAY",
         "REALBYTES": "REAL_BYTES"}
PIECE = re.compile(r"`[^`]*`[?*]?|\(|\)[?*]?|\||[^\s()|`]+")
HEAD = "// Made by tools/grammar.py from tools/grammar.txt: change that text, and run the script.\n"


def numbers_of_kinds():
    """The terminals' numbers in src/terminals.rt."""
    return {name: int(number) for name, number in re.findall(r"^pub const (\w+): u16 = (\d+);", text_of(f"{CRATE}/src/terminals.rt"), re.M)}


def symbols_of(body):
    """The spellings of a body's symbols: a group in round brackets is one."""
    found, depth = [], 0
    for piece in PIECE.findall(body):
        if depth:
            found[-1] += f" {piece}"
        else:
            found.append(piece)
        depth += (piece == "(") - piece.startswith(")")
    return [] if body == "nothing" else found


class Grammar:
    """The productions, by their numbers, and what follows from them. Symbols are terminals ("t", number) or nonterminals ("n", number)."""

    def __init__(self):
        words = [line.split() for line in rows_of("tools/words.txt")]
        self.kinds = numbers_of_kinds()
        self.word = {word: (name, number) for number, (name, word) in enumerate(words)}
        rows = [line for line in rows_of(TEXT)]
        self.nonterminals = [tuple(line.split(" ", 1)) for line in rows if not line.startswith(" ")]
        self.number = {spelling: number for number, (_, spelling) in enumerate(self.nonterminals)}
        self.productions, head = [], -1
        for line in rows:
            if not line.startswith(" "):
                head += 1
                continue
            name, body = line.strip().split(" ", 1)
            self.productions.append((head, name, body))
        self.heads = [head for head, _, _ in self.productions]
        self.bodies = [[self.symbol(it) for it in symbols_of(body)] for _, _, body in self.productions]
        self.of = {}
        for number, head in enumerate(self.heads):
            self.of.setdefault(head, []).append(number)
        self.end = self.kinds["END"]
        self.settle_sets()

    def symbol(self, spelling):
        if spelling in self.number:
            return "n", self.number[spelling]
        if spelling in KINDS:
            return "t", self.kinds[KINDS[spelling]]
        if spelling.strip("`") in self.word:
            return "t", self.kinds["WORDS"] + self.word[spelling.strip("`")][1]
        raise SystemExit(f"{TEXT}: {spelling} is no symbol")

    def begins(self, symbols):
        """What the symbols may begin with, and whether they may vanish."""
        first = set()
        for sort, number in symbols:
            if sort == "t":
                return first | {number}, False
            first |= self.first[number]
            if number not in self.nullable:
                return first, False
        return first, True

    def settle_sets(self):
        count = len(self.nonterminals)
        self.first, self.follow, self.nullable = [set() for _ in range(count)], [set() for _ in range(count)], set()
        size = -1
        while size != (size := sum(map(len, self.first)) + sum(map(len, self.follow)) + len(self.nullable)):
            for head, body in zip(self.heads, self.bodies):
                first, vanishes = self.begins(body)
                self.first[head] |= first
                if vanishes:
                    self.nullable.add(head)
                for k, (sort, number) in enumerate(body):
                    if sort == "n":
                        first, vanishes = self.begins(body[k + 1:])
                        self.follow[number] |= first | (self.follow[head] if vanishes else set())

    def picked(self):
        """For each nonterminal the production for each terminal that one begins with, and the production that derives nothing."""
        rows, fallbacks = [{} for _ in self.nonterminals], [len(self.heads)] * len(self.nonterminals)
        for number, (head, body) in enumerate(zip(self.heads, self.bodies)):
            first, vanishes = self.begins(body)
            for kind in first:
                if kind in rows[head]:
                    raise SystemExit(f"{TEXT}: {self.nonterminals[head][1]} isn't decided by one token")
                rows[head][kind] = number
            if vanishes:
                fallbacks[head] = number
        return rows, fallbacks

    def least(self, value):
        """The least numbers of nonterminals for which `value` of each production isn't above its head's, found by going round."""
        found = [None] * len(self.nonterminals)
        changed = True
        while changed:
            changed = False
            for number, (head, body) in enumerate(zip(self.heads, self.bodies)):
                if any(sort == "n" and found[at] is None for sort, at in body):
                    continue
                more = value(found, body)
                if found[head] is None or more > found[head]:
                    found[head], changed = more, True
        return found


def packed(rows):
    """Where each row begins where they lie over each other: the fullest first, each at the first place where its cells are free."""
    taken, places = set(), [0] * len(rows)
    for n in sorted(range(len(rows)), key=lambda it: -len(rows[it])):
        while any(places[n] + kind in taken for kind in rows[n]):
            places[n] += 1
        taken |= {places[n] + kind for kind in rows[n]}
    return places


def statics(head, parts):
    """A file: its head, and statics, each as its comment, its name, its type and its lines."""
    made = [HEAD + head]
    for comment, name, of, count, lines, public in parts:
        made.append("\n".join([*(f"/// {it}" for it in comment), f"{public} static {name}: [{of}; {count}] = [", *lines, "];"]))
    return "\n\n".join(made) + "\n"


def masks(numbers):
    return sum(1 << it for it in numbers)


def antt_list(name, values):
    """A list of numbers as a definition, in lines of at most 149 characters."""
    lines, line = [], "   "
    for value in [*(f"{it} ∷" for it in values), "[]"]:
        if len(line) + 1 + len(value) > 149:
            lines.append(line)
            line = "   "
        line = f"{line} {value}"
    return [f"unfoldable pub {name} : List ℕ", f"{name} =", *lines, line]


def ranked(g):
    """The height of a least derivation from each nonterminal, and a production that begins one: the first that was found as low, going
    round over all of them until none is lower."""
    above = len(g.nonterminals)
    ranks, witnesses = [above] * above, [None] * above
    before = None
    while before != ranks:
        before = list(ranks)
        for number, (head, body) in enumerate(zip(g.heads, g.bodies)):
            height = max((ranks[at] + 1 for sort, at in body if sort == "n"), default=0)
            if height < ranks[head]:
                ranks[head], witnesses[head] = height, number
    return ranks, witnesses


def parents(g):
    found = [0] * len(g.nonterminals)
    for n in range(1, len(found)):
        found[n] = next(p for p, body in enumerate(g.bodies) if g.heads[p] < n and ("n", n) in body)
    return found


def weights_of(g):
    """For each nonterminal one more than the most that stands before the first terminal of a body of it."""
    weights = {}

    def weight(n):
        if n not in weights:
            most = 0
            for p in g.of[n]:
                total = 0
                for sort, number in g.bodies[p]:
                    if sort == "t":
                        break
                    total += weight(number)
                    if number not in g.nullable:
                        break
                most = max(most, total)
            weights[n] = most + 1
        return weights[n]

    return [weight(n) for n in range(len(g.nonterminals))]


def certificate(g):
    """specs/Certificate.antt."""
    ranks, witnesses = ranked(g)
    past = g.least(lambda found, body: 1 + sum(found[at] if sort == "n" else -6 for sort, at in body))
    comments = dict(re.findall(r"^-- (.*)\nunfoldable pub (\w+) :", text_of(f"{CRATE}/specs/Certificate.antt"), re.M))
    comments = {name: comment for comment, name in comments.items()}
    head = HEAD.replace("//", "--") + text_of(f"{CRATE}/specs/Certificate.antt").split("\n", 1)[1].split("\n\n")[0]
    parts = [antt_list("first_masks", [hex(masks(it)) for it in g.first]), antt_list("follow_masks", [hex(masks(it)) for it in g.follow]),
             ["unfoldable pub nullable_mask : ℕ", f"nullable_mask = {hex(masks(g.nullable))}"],
             antt_list("weights", weights_of(g)), antt_list("witnesses", witnesses), antt_list("ranks", ranks),
             antt_list("parents", parents(g)), antt_list("surplus", [max(it, 0) for it in past]),
             antt_list("shortfall", [max(-it, 0) for it in past])]
    return "\n\n".join([head, *("\n".join([f"-- {comments[part[0].split()[2]]}", *part]) for part in parts)]) + "\n"


def head_of(path):
    """The comment that stands first in a file, behind the line that says how it is made."""
    return text_of(f"{CRATE}/src/{path}").split("\n", 1)[1].split("\n\n")[0]


def named(path, rows, last):
    """A file of numbers with names."""
    lines = [f"/// {comment}\npub const {name}: u16 = {number};" for number, name, comment in rows]
    return HEAD + head_of(path) + "\n\n" + "\n".join(lines + last) + "\n"


def shown(g, symbol):
    """A symbol in src/rules.rt."""
    sort, number = symbol
    if sort == "n":
        return f"N(n::{g.nonterminals[number][0]})"
    for name in KINDS.values():
        if g.kinds[name] == number:
            return f"T(t::{name})"
    names = {at: name for name, at in g.word.values()}
    return f"T(t::WORDS + word::{names[number - g.kinds['WORDS']]})"


def comments_of(path):
    """The comments of a file's statics."""
    found = re.findall(r"((?:^/// .*\n)+)pub(?:\(crate\))? static (\w+):", text_of(f"{CRATE}/src/{path}"), re.M)
    return {name: [line[4:] for line in comment.splitlines()] for comment, name in found}


def main():
    g = Grammar()
    spelled = [spelling for _, spelling in g.nonterminals]
    rules = [f"{spelled[head]} = {body}" for head, _, body in g.productions]
    starts = [0]
    for body in g.bodies:
        starts.append(starts[-1] + len(body))
    rows, fallbacks = g.picked()
    places = packed(rows)
    cells = max(places) + g.end + 1
    symbols = [number if sort == "n" else 256 + number for body in g.bodies for sort, number in body] + [0]
    nowhere = len(symbols)
    nexts = [start + k + 1 if k + 1 < len(body) else nowhere for start, body in zip(starts, g.bodies) for k in range(len(body))] + [nowhere]
    begins = [start if body else nowhere for start, body in zip(starts, g.bodies)]
    owners, picks, inners = [len(spelled)] * cells, [0] * cells, [cells] * cells
    for n, row in enumerate(rows):
        for kind, production in row.items():
            at = places[n] + kind
            owners[at], picks[at] = n, production
            body = g.bodies[production]
            if body and body[0][0] == "n" and kind in rows[body[0][1]]:
                inners[at] = places[body[0][1]] + kind
    crate, public = "pub(crate)", "pub"
    made = {}
    made["src/nonterminals.rt"] = named("nonterminals.rt", [(number, *it) for number, it in enumerate(g.nonterminals)],
                                        ["/// The number of nonterminals.", f"pub const COUNT: u16 = {len(spelled)};"])
    made["src/productions.rt"] = named("productions.rt", [(number, name, rules[number]) for number, (_, name, _) in enumerate(g.productions)
                                                          if name != "-"], [])
    bodies = [line for rule, body in zip(rules, g.bodies) for line in [f"    // {rule}", *(f"    {shown(g, it)}," for it in body)]]
    says = comments_of("rules.rt")
    made["src/rules.rt"] = statics(
        "//! The productions, in their order: a number is a place here. `productions` spells them out.\n\n"
        "use crate::Symbol::{Nonterminal as N, Terminal as T};\nuse crate::{Symbol, nonterminals as n, terminals as t};\nuse il_lexer::word;",
        [(says["HEADS"], "HEADS", "u16", len(rules), filled(g.heads), pub_of("rules.rt", "HEADS")),
         (says["STARTS"], "STARTS", "u16", len(starts), filled(starts), pub_of("rules.rt", "STARTS")),
         (says["BODIES"], "BODIES", "Symbol", starts[-1], bodies, pub_of("rules.rt", "BODIES"))])
    for path, parts in (("choices.rt", [("ROWS", "u16", places), ("FALLBACKS", "u16", fallbacks), ("OWNERS", "u16", owners),
                                        ("PICKS", "u16", picks), ("INNERS", "u16", inners)]),
                        ("places.rt", [("SYMBOLS", "u16", symbols), ("NEXTS", "u16", nexts), ("BEGINS", "u16", begins),
                                       ("ARITIES", "u8", list(map(len, g.bodies)))]),
                        ("cells.rt", [("CELL_NUMBERS", "u16", cell_numbers(owners, picks, begins, inners)),
                                      ("PLACE_NUMBERS", "u16", [it for pair in zip(symbols, nexts) for it in pair])])):
        says = comments_of(path)
        made[f"src/{path}"] = statics(head_of(path), [(says[name], name, of, len(values), filled(values), crate)
                                                      for name, of, values in parts])
    made["specs/Certificate.antt"] = certificate(g)
    settle({**{f"{CRATE}/{path}": text for path, text in made.items()}, COPY: text_of(TEXT)})


def pub_of(path, name):
    return re.search(rf"^(pub(?:\(crate\))?) static {name}:", text_of(f"{CRATE}/src/{path}"), re.M)[1]


def cell_numbers(owners, picks, begins, inners):
    """For each cell its owner, its pick, where that one's body begins, and the inner cell."""
    return [it for owner, pick, inner in zip(owners, picks, inners)
            for it in (owner, pick, begins[pick], inner)]


main()
