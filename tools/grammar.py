#!/usr/bin/env python3
"""Writes the table of a grammar, and the grammar as it is written, from one description.

Usage: tools/grammar.py DESCRIPTION..        (at the top of the repository)

A description is a text file:

    -- a comment, to the end of the line
    grammar STATEMENT                          the name of the table
    table crates/NAME/src/statement_table.rt   where the table goes, and the names of terminals and places
    written crates/NAME/specs/Statement.antt   where the grammar as it is written goes
    crate NAME                                 the crate of both
    terminals BEGIN END NAME                   each in capitals, numbered from 0, at most 128
    statement = BEGIN { statement } END        the rules, the first being the start; a rule goes on over indented lines
              | NAME

In a rule: `a b` one after the other, `a | b` either, `[ a ]` a or nothing, `{ a }` any number, `( a )` grouping,
`clause (A B) a` a terminal of the set and then a, or nothing where none of the set follows, and
`once (A B) { a }` any number of which no two begin with the same terminal of the set, and
`once (A B) needs (A) { a }` the same, where one begins with each terminal of the second set.

The table has one entry for each form, and a form that stands in several places has one entry. Its hints (sets, ranks,
heights) are computed here and tested by the checker, so nothing rests on this tool. It says where a grammar can't be read
with one token of look-ahead.

Names of places: AT_RULE is a rule, and AT_TOKEN_NAME the terminal NAME. AT_RULE_2, AT_RULE_3, .. are what is left of a sequence from its second part on, its
third, .., and of a choice from its second side on. AT_RULE_PART_1, .. are the parts or sides that are neither rules nor
terminals. In a repetition, AT_.._EACH is what is repeated; in a clause, AT_.._THEN is what follows the terminal; and in a
list of options, AT_.._MANY is its repetition.
"""

import re
import sys

RESERVED = set(
    "data record deriving module where use mod pub package open as unfoldable abbrev axiom unfold unfolding ruleset mutual"
    " infix infixl infixr elim let in do Type coe fcoe tcoe hcom com ground assumption word rule empty both either many"
    " nearest each_once".split()
)


class Wrong(Exception):
    """A description that can't be used, and why."""


# What a rule's body is: tuples
#   ("terminal", NAME) ("rule", name) ("empty",) ("sequence", [parts]) ("choice", [sides]) ("repeat", part)
#   ("clause", (NAMES), part) ("once", (NAMES), (NEEDED), part)


class Description:
    def __init__(self, text):
        self.name = self.table = self.written = self.crate = None
        self.terminals = []
        self.rules = {}
        entries = []
        for line in text.splitlines():
            line = line.split("--")[0].rstrip()
            if not line:
                continue
            if line[0].isspace() and entries:
                entries[-1] += " " + line.strip()
            else:
                entries.append(line)
        bodies = []
        for entry in entries:
            word, rest = entry.split(None, 1)
            if rest.startswith("="):
                if word in self.rules:
                    raise Wrong(f"rule {word} stands twice")
                self.rules[word] = None
                bodies.append((word, rest[1:]))
            elif word == "terminals":
                self.terminals += rest.split()
            elif word in ("grammar", "table", "written", "crate"):
                setattr(self, "name" if word == "grammar" else word, rest.strip())
            else:
                raise Wrong(f"neither a rule nor a heading: {entry}")
        if len(self.terminals) > 128:
            raise Wrong(f"{len(self.terminals)} terminals, and a set holds 128")
        if len(set(self.terminals)) < len(self.terminals):
            raise Wrong("a terminal stands twice")
        for name, body in bodies:
            self.rules[name] = Body(self, name, body).whole()


class Body:
    """Reads the body of a rule."""

    def __init__(self, description, name, text):
        self.of, self.name = description, name
        self.words = re.findall(r"[A-Za-z_0-9]+|[|(){}\[\]]", text)
        if "".join(self.words) != re.sub(r"\s+", "", text):
            raise Wrong(f"rule {name}: a sign that no rule has")
        self.at = 0

    def peek(self):
        return self.words[self.at] if self.at < len(self.words) else None

    def take(self, want=None):
        word = self.peek()
        if word is None or (want and word != want):
            raise Wrong(f"rule {self.name}: {want or 'more'} is wanted before {word or 'the end'}")
        self.at += 1
        return word

    def whole(self):
        form = self.choice()
        if self.peek() is not None:
            raise Wrong(f"rule {self.name}: {self.peek()} is too much")
        return form

    def choice(self):
        sides = [self.sequence()]
        while self.peek() == "|":
            self.take()
            sides.append(self.sequence())
        return sides[0] if len(sides) == 1 else ("choice", tuple(sides))

    def sequence(self):
        parts = []
        while self.peek() not in (None, "|", ")", "]", "}"):
            parts.append(self.part())
        if not parts:
            return ("empty",)
        return parts[0] if len(parts) == 1 else ("sequence", tuple(parts))

    def closed(self, end):
        form = self.choice()
        self.take(end)
        return form

    def names(self):
        self.take("(")
        names = []
        while self.peek() != ")":
            names.append(self.terminal(self.take()))
        self.take(")")
        return tuple(names)

    def terminal(self, word):
        if word not in self.of.terminals:
            raise Wrong(f"rule {self.name}: {word} is no terminal")
        return word

    def part(self):
        word = self.take()
        if word == "(":
            return self.closed(")")
        if word == "[":
            return ("choice", (self.closed("]"), ("empty",)))
        if word == "{":
            return ("repeat", self.closed("}"))
        if word == "clause":
            return ("clause", self.names(), self.part())
        if word == "once":
            names, needed = self.names(), ()
            if self.peek() == "needs":
                self.take()
                needed = self.names()
            self.take("{")
            return ("once", names, needed, self.closed("}"))
        if word in self.of.rules:
            return ("rule", word)
        return ("terminal", self.terminal(word))


class Table:
    """The entries of a grammar, and their hints."""

    def __init__(self, description):
        self.of = description
        self.forms, self.places, self.constants = [], {}, []
        for name in description.rules:
            self.places[("rule", name)] = len(self.forms)
            self.forms.append(None)
        for name, body in description.rules.items():
            place = self.places[("rule", name)]
            self.constants.append((f"AT_{name.upper()}", place))
            if body[0] == "rule":
                raise Wrong(f"rule {name} is no more than another rule")
            self.forms[place] = self.entry(body, f"AT_{name.upper()}")
        self.hints()

    def number(self, terminal):
        return self.of.terminals.index(terminal)

    def mask(self, names):
        return sum(1 << self.number(name) for name in set(names))

    def place(self, form, name):
        """The place of a form, which is added where it is new."""
        number = self.places.get(form, len(self.forms))
        if form[0] == "terminal":
            name = f"AT_TOKEN_{form[1]}"
        if form[0] not in ("rule", "empty"):
            known = dict(self.constants)
            if known.get(name, number) != number:
                raise Wrong(f"two places are called {name}")
            if name not in known:
                self.constants.append((name, number))
        if form not in self.places:
            self.places[form] = number
            self.forms.append(None)
        # The parts of a form that stood before have names of this place too.
        if form[0] != "rule":
            self.forms[number] = self.entry(form, name)
        return number

    def entry(self, form, name):
        kind = form[0]
        if kind == "terminal":
            return ("Terminal", self.number(form[1]))
        if kind == "empty":
            return ("Empty",)
        if kind in ("sequence", "choice"):
            return self.chain(kind, form[1], name)
        if kind == "repeat":
            return ("Repeat", self.place(form[1], name + "_EACH"))
        if kind == "clause":
            return ("Clause", self.mask(form[1]), self.place(form[2], name + "_THEN"))
        return ("Once", self.place(("repeat", form[3]), name + "_MANY"), self.mask(form[1]), self.mask(form[2]))

    def chain(self, kind, parts, name):
        """A sequence or a choice of several, as one of two: the first, and the chain of the others."""
        base, first = re.fullmatch(r"(.*?)(?:_#(\d+))?", name).groups()
        step = int(first or 1)
        head = self.place(parts[0], f"{base}_PART_{step}")
        if len(parts) == 2:
            tail = self.place(parts[1], f"{base}_PART_{step + 1}")
        else:
            tail = self.place((kind, parts[1:]), f"{base}_#{step + 1}")
        return ("Sequence" if kind == "sequence" else "Choice", head, tail)

    def hints(self):
        count = len(self.forms)
        self.nullable = [False] * count
        self.first = [0] * count
        self.goes_on = [0] * count
        self.opened = [0] * count
        changed = True
        while changed:
            changed = False
            for place in range(count):
                new = self.step(place)
                old = (self.nullable[place], self.first[place], self.goes_on[place], self.opened[place])
                if new != old:
                    changed = True
                    self.nullable[place], self.first[place], self.goes_on[place], self.opened[place] = new
        self.ranks()
        self.heights()
        self.test()

    def step(self, place):
        form = self.forms[place]
        kind = form[0]
        nullable, first, goes_on, opened = self.nullable, self.first, self.goes_on, self.opened
        if kind == "Terminal":
            return (False, 1 << form[1], 0, 0)
        if kind == "Empty":
            return (True, 0, 0, 0)
        if kind == "Repeat":
            part = form[1]
            return (True, first[part], first[part] | goes_on[part], opened[part])
        if kind == "Once":
            part = form[1]
            return (form[3] == 0, first[part], goes_on[part], opened[part])
        if kind == "Clause":
            part = form[2]
            return (True, form[1], goes_on[part], opened[part] | form[1])
        a, b = form[1:]
        if kind == "Sequence":
            return (
                nullable[a] and nullable[b],
                first[a] | (first[b] if nullable[a] else 0),
                goes_on[b] | (goes_on[a] if nullable[b] else 0),
                opened[b] | (opened[a] if nullable[b] else 0),
            )
        return (
            nullable[a] or nullable[b],
            first[a] | first[b],
            goes_on[a] | goes_on[b] | (first[b] if nullable[a] else 0) | (first[a] if nullable[b] else 0),
            opened[a] | opened[b],
        )

    def ranks(self):
        """Above the rank of each form that is read at the same token."""
        self.rank = [0] * len(self.forms)
        for _ in range(len(self.forms) + 1):
            for place, form in enumerate(self.forms):
                below = []
                if form[0] == "Sequence":
                    below = [form[1]] + ([form[2]] if self.nullable[form[1]] else [])
                elif form[0] == "Choice":
                    below = form[1:]
                elif form[0] in ("Repeat", "Once"):
                    below = [form[1]]
                self.rank[place] = max([self.rank[other] + 1 for other in below], default=0)
        for place in range(len(self.forms)):
            if self.rank[place] > len(self.forms):
                raise Wrong(f"{self.shown(place)} begins with itself")

    def heights(self):
        """Above the heights of the forms of a shortest text."""
        self.height = [None] * len(self.forms)
        for _ in range(len(self.forms) + 1):
            for place, form in enumerate(self.forms):
                if self.height[place] is not None:
                    continue
                if form[0] == "Once":
                    part = self.forms[form[1]][1]
                    wanted = [number for number in range(128) if form[3] >> number & 1]
                    limits = [self.limit(part, number) for number in wanted]
                    if None not in limits:
                        self.height[place] = max(limits, default=0)
                    continue
                if form[0] not in ("Sequence", "Choice"):
                    self.height[place] = 0
                    continue
                known = [self.height[part] for part in form[1:] if self.height[part] is not None]
                if form[0] == "Sequence" and len(known) == 2:
                    self.height[place] = max(known) + 1
                elif form[0] == "Choice" and known:
                    self.height[place] = min(known) + 1
        for place in range(len(self.forms)):
            if self.height[place] is None:
                raise Wrong(f"{self.shown(place)} has no text, or needs an option that does not begin so for certain")

    def limit(self, place, number):
        """Above the heights of the sequences of a text that begins so, or None where none is known."""
        form = self.forms[place]
        if form[0] == "Terminal":
            return 0 if form[1] == number else None
        if form[0] == "Choice":
            known = [side for side in (self.limit(side, number) for side in form[1:]) if side is not None]
            return min(known, default=None)
        if form[0] == "Sequence" and self.height[place] is not None:
            first = self.limit(form[1], number)
            return None if first is None else max(first, self.height[place] + 1)
        return None

    def test(self):
        """What the checker's test would find wrong, with names."""
        for place, form in enumerate(self.forms):
            kind = form[0]
            if kind == "Sequence":
                a, b = form[1:]
                self.apart(place, self.goes_on[a] & self.first[b], "goes on the first part, or begins the second")
                if not self.nullable[b]:
                    self.apart(place, self.opened[a] & self.first[b], "begins a clause left out, or the second part")
            elif kind == "Choice":
                a, b = form[1:]
                self.apart(place, self.first[a] & self.first[b], "begins both sides")
                if self.nullable[a] and self.nullable[b]:
                    raise Wrong(f"{self.shown(place)}: both sides may be empty")
            elif kind == "Repeat":
                if self.nullable[form[1]]:
                    raise Wrong(f"{self.shown(place)}: what is repeated may be empty")
                self.apart(place, self.goes_on[form[1]] & self.first[form[1]], "goes on what is repeated, or begins the next")
            elif kind == "Once":
                self.apart(place, self.opened[form[1]] & form[3], "begins a clause left out, or a needed option")

    def apart(self, place, both, why):
        if both:
            names = [name for number, name in enumerate(self.of.terminals) if both >> number & 1]
            raise Wrong(f"{self.shown(place)}: {' '.join(names)} {why}")

    def shown(self, place):
        names = [name.replace("_#", "_") for name, number in self.constants if number == place]
        return f"{names[0] if names else 'a terminal'} (entry {place})"

    def text(self):
        out = [
            f"//! The table of the grammar in `{self.of.written.split('/')[-1]}`: written by `tools/grammar.py`.",
            "",
            f"use pe_grammar::{{{'Bounds, ' if any(form[0] == 'Once' for form in self.forms) else ''}Entry, Form}};",
            "",
        ]
        for title, constants in (
            ("// The terminals.", [(name, number) for number, name in enumerate(self.of.terminals)]),
            ("// The places.", self.constants),
        ):
            out.append(title)
            for name, number in constants:
                out += [f"pub const {name.replace('_#', '_')}: u16 = {number};", ""]
        out += [f"pub static {self.of.name}: [Entry; {len(self.forms)}] = ["]
        for place, form in enumerate(self.forms):
            shown = form[0] + (f"({', '.join(map(str, form[1:]))})" if len(form) > 1 else "")
            lines = [f"        form: Form::{shown},"]
            if form[0] == "Once":
                lines = [
                    "        form: Form::Once(",
                    f"            {form[1]},",
                    "            Bounds {",
                    f"                once: {form[2]},",
                    f"                needed: {form[3]},",
                    "            },",
                    "        ),",
                ]
            out += [
                "    Entry {",
                *lines,
                f"        nullable: {str(self.nullable[place]).lower()},",
                f"        first: {self.first[place]},",
                f"        goes_on: {self.goes_on[place]},",
                f"        opened: {self.opened[place]},",
                f"        rank: {self.rank[place]},",
                f"        height: {self.height[place]},",
                "    },",
            ]
        return "\n".join(out + ["];", ""])


def quoted(name):
    return f"«{name}»" if name in RESERVED else name


class Written:
    """The grammar as it is written, for specs/."""

    def __init__(self, description):
        self.of = description
        self.used = set()

    def shown(self, form, inner):
        """A form; `inner` is 0 on its own, 1 in a choice, 2 in a sequence or behind a word."""
        kind = form[0]
        if kind == "terminal":
            self.used.add("word")
            return form[1]
        if kind == "rule":
            return quoted(form[1])
        if kind == "empty":
            self.used.add("empty")
            return "empty"
        if kind in ("sequence", "choice"):
            sign, level = ("·", 2) if kind == "sequence" else ("∣", 1)
            self.used.add("◌·◌" if kind == "sequence" else "◌∣◌")
            text = f" {sign} ".join(self.shown(part, level) for part in form[1])
            return f"({text})" if inner >= level else text
        if kind == "repeat":
            self.used.add("many")
            text = f"many {self.shown(form[1], 3)}"
        elif kind == "clause":
            self.used.update(["nearest", "set_of"])
            text = f"nearest {self.set_of(form[1])} {self.shown(form[2], 3)}"
        else:
            self.used.update(["each_once", "bounds_of"])
            text = f"each_once (bounds_of {self.names(form[1])} {self.names(form[2])}) {self.shown(form[3], 3)}"
        return f"({text})" if inner >= 2 else text

    def set_of(self, names):
        return f"(set_of {self.names(names)})"

    def names(self, names):
        return f"({' ∷ '.join([*names, '[]'])})" if names else "[]"

    def text(self):
        rules = list(self.of.rules)
        bodies = [(name, self.shown(self.of.rules[name], 0)) for name in rules]
        lists = "{List, [], ◌∷◌}"
        names = ", ".join(["Written", "rule", *sorted(self.used)])
        out = [
            f"-- The grammar of {self.of.name}: written by tools/grammar.py. The first rule is the start.",
            f"use Rattle.std.specs.Prelude.{lists}",
            f"use Rattle.pe_grammar.specs.Written.{{{names}}}",
            "",
        ]
        for number, name in enumerate(self.of.terminals):
            out += [f"abbrev {name} : Written", f"{name} = word {number}", ""]
        for number, name in enumerate(rules):
            out += [f"abbrev {quoted(name)} : Written", f"{quoted(name)} = rule {number}", ""]
        for name, body in bodies:
            out += [f"abbrev {name}-rule : Written", f"{name}-rule = {body}", ""]
        title = self.of.name.lower() + "_grammar"
        out += [f"abbrev pub {title} : List Written", f"{title} ="]
        out += ["    " + "\n    ∷ ".join(f"{name}-rule" for name in rules) + "\n    ∷ []"]
        return "\n".join(out) + "\n"


def main(paths):
    if not paths:
        print(__doc__)
        return 2
    for path in paths:
        try:
            with open(path, encoding="utf-8") as file:
                description = Description(file.read())
            table = Table(description)
            for place, text in ((description.table, table.text()), (description.written, Written(description).text())):
                with open(place, "w", encoding="utf-8") as file:
                    file.write(text)
            print(f"{path}: {len(description.terminals)} terminals, {len(table.forms)} entries")
        except Wrong as why:
            print(f"{path}: {why}", file=sys.stderr)
            return 1
    return 0


if __name__ == "__main__":
    sys.exit(main(sys.argv[1:]))
