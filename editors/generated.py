"""Random ISLE: definitions as Cranelift has them, and a program of several files."""

from reading import CONSTANT, TERM, TYPE

WORDS = "add band bor bxor imm iconst load store icmp select ishl ushr sext zext fits value reg inst amode gpr xmm lower put emit".split()
VARIABLES = "x y z a b c ty rest src dst é1 x_2".split()
LINE_ENDS = ["\n"] * 6 + ["\r\n", "\r"]
FILES = [
    "prelude.isle", "types.isle", "inst.isle", "extract@1+2.isle", "café (2).isle", "notes,=#1.isle",
    "lower/arith.isle", "lower/logic.isle", "lower/memory.isle", "opts/cprop.isle", "opts/remat.isle", "opts/deep/vector.isle",
]  # fmt: skip


class Writer:
    """Writes random definitions over the names that there are. What it defines has a name that nothing had before."""

    def __init__(self, chance):
        self.chance, self.count = chance, 0
        self.names = {TYPE: ["Type"], TERM: ["lower"], CONSTANT: ["I8"]}

    def fresh(self, kind=None):
        """A new name, which is known from now on if it has a kind."""
        self.count += 1
        name = f"{self.chance.choice(WORDS)}{self.chance.choice(['_', '', 'é_', '.'])}{self.count}"
        name = name.capitalize() if kind == TYPE else name
        if kind:
            self.names[kind].append(name)
        return name

    def any(self, kind):
        return self.chance.choice(self.names[kind][-60:])

    def several(self, one, least, most, between=" "):
        return between.join(one() for _ in range(self.chance.randint(least, most)))

    def pattern(self, depth):
        """A pattern, with the depth that is left."""
        kind = self.chance.randrange(12)
        if depth > 0 and kind < 6:
            return f"({self.any(TERM)} {self.several(lambda: self.pattern(depth - 1), 0, 3)})"
        if depth > 0 and kind == 6:
            return f"(and {self.several(lambda: self.pattern(depth - 1), 1, 2)})"
        if depth > 0 and kind == 7:
            return f"{self.chance.choice(VARIABLES)} @ {self.pattern(depth - 1)}"
        return self.chance.choice([*VARIABLES, *VARIABLES, "_", "true", "-1", "0xff_ff", f"${self.any(CONSTANT)}"])

    def expression(self, depth):
        kind = self.chance.randrange(10)
        if depth > 0 and kind < 6:
            return f"({self.any(TERM)} {self.several(lambda: self.expression(depth - 1), 0, 3)})"
        if depth > 0 and kind == 6:
            defined = self.several(lambda: f"({self.chance.choice(VARIABLES)} {self.any(TYPE)} {self.expression(depth - 1)})", 1, 3)
            return f"(let ({defined}) {self.expression(depth - 1)})"
        return self.chance.choice([*VARIABLES, *VARIABLES, "false", "0b101", "12", f"${self.any(CONSTANT)}"])

    def condition(self):
        if self.chance.random() < 0.3:
            return f"(if {self.expression(1)})"
        return f"(if-let {self.pattern(1)} {self.expression(2)})"

    def rule(self, end):
        head = self.chance.choice(["", "", f"{self.fresh()} ", "3 ", f"{self.fresh()} -2 "])
        pattern = f"({self.any(TERM)} {self.several(lambda: self.pattern(2), 1, 3)})"
        conditions = "".join(f"{end}  {self.condition()}" for _ in range(self.chance.choice([0, 0, 1, 2])))
        return f"(rule {head}{pattern}{conditions}{end}  {self.expression(3)})"

    def term(self, end):
        """A term, and where it comes from."""
        types = self.several(lambda: self.any(TYPE), 0, 3)
        flags = self.chance.choice(["", "", "pure ", "multi ", "pure partial ", "rec "])
        name = self.fresh(TERM)
        decl = f"(decl {flags}{name} ({types}) {self.any(TYPE)})"
        variables = self.chance.sample(VARIABLES, 2)
        more = [
            f"(extern constructor {name} {name})", f"(extern extractor {name} {name})", f"(extern extractor infallible {name} {name})",
            f"(extractor ({name} {' '.join(variables)}) ({self.any(TERM)} {variables[0]} (and {variables[1]} {self.pattern(1)})))",
            self.rule(end), f"(attr {name} (tag a_tag))", f"(spec ({name} a b) (provide (= result (bvadd a b))))",
        ]  # fmt: skip
        return end.join([decl, *self.chance.sample(more, self.chance.randint(0, 2))])

    def type(self, end):
        name = self.fresh(TYPE)
        fields = [lambda: self.fresh(), lambda: f"({self.fresh()} {self.any(TYPE)})", lambda: f"({self.fresh()} (a {self.any(TYPE)}) (b {name}))"]
        variants = [self.chance.choice(fields)() for _ in range(self.chance.randint(1, 4))]
        self.names[TERM] += [f"{name}.{it.strip('(').split(' ')[0]}" for it in variants]
        rest = [
            "(primitive u8)", f"extern (enum {' '.join(variants)})", f"(enum{end}  {f'{end}  '.join(variants)})",
            f"nodebug (struct (a {self.any(TYPE)}) (b {name}))",
        ]  # fmt: skip
        return f"(type {name} {self.chance.choice(rest)})"

    def constant(self, _end):
        return f"(extern const ${self.fresh(CONSTANT)} {self.any(TYPE)})"

    def convert(self, _end):
        return f"(convert {self.any(TYPE)} {self.any(TYPE)} {self.any(TERM)})"

    def comment(self, _end):
        return self.chance.choice(["; é😀 (not a rule", "(; twice é (; 😀 ;) ;)", ";; ----"])

    def definition(self, end="\n"):
        kinds = [self.rule] * 8 + [self.term] * 5 + [self.type] * 2 + [self.constant, self.convert, self.comment]
        return self.chance.choice(kinds)(end)

    def file(self, count):
        """The text of a file. A term is declared first."""
        end = self.chance.choice(LINE_ENDS)
        first = f"(decl {self.fresh(TERM)} ({self.any(TYPE)}) {self.any(TYPE)})"
        gaps = [end, end, end * 2, end + "  "]
        return first + "".join(self.chance.choice(gaps) + self.definition(end) for _ in range(count)) + end

    def program(self):
        """A program: texts by path."""
        begin = "(type Type (primitive u8))\n(decl lower (Type) Type)\n(extern const $I8 Type)\n"
        return {path: (begin if path == FILES[0] else "") + self.file(self.chance.randint(10, 40)) for path in FILES}
