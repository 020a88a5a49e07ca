"""The cases of editors/sessions about the types of variables that are shown, behind their first mentions and in hovers."""

from program_cases import ARM_FILE, X64_FILE
from session_cases import Case

TYPES = "(type T (primitive T))\n(type U (primitive U))\n(type Op (enum (Pair (x T) (y U)) (One (z T))))\n"
DECLARED = TYPES + """(decl lower (Op) T)
(decl both (T T) T)
(extern constructor both both)
(extern extractor both got_both)
(decl make (T) U)
(extern constructor make make)
(decl one_of (T) Op)
(extractor (one_of x) (Op.One x))
(decl put (Op) T)
(extern extractor put got_put)
(convert Op T put)
"""
RULES = """(rule (lower (Op.Pair (both p q @ (both r _)) (and u v)))
  (if-let w (make q))
  (if-let (both s $NONE) p)
  (let ((t T (both p s))) (both t r)))
(rule 1 (lower (Op.One x)) (both x x))
(rule 2 (lower (one_of (both y y))) y)
(rule 3 (lower (Op.One (Op.One z))) z)
(rule 4 (lower (Op.Pair a (nothing b))) a)
"""
ALL = "1:1-9:1"
FIRST = ["1:30: T", "1:32: T", "1:42: T", "1:53: U", "1:55: U", "2:12: U", "3:18: T"]
OTHERS = ["5:25: T", "6:31: T", "7:33: T", "8:26: T"]
SHARED = "(type T (primitive T))\n(type U (primitive U))\n(decl shared (T) T)\n(rule (shared (only x)) (shared 1))\n"
ONLY = "(decl only (T) T)\n(extern extractor only only)\n"
TOML = f"""[[program]]
name = "x64"
files = ["prelude.isle", "{X64_FILE}"]

[[program]]
name = "arm"
files = ["prelude.isle", "{ARM_FILE}"]
"""

HINTED = [
    Case(
        "hints: terms in one another, `@`, `and`, an extractor, conditions, a `let`, a conversion, and errors",
        {"a.isle": DECLARED, "b.isle": RULES},
        [("open", "b.isle"), ("hints", "b.isle", ALL, *FIRST, *OTHERS)],
    ),
    Case(
        "hints: those of a range, with its bounds",
        {"a.isle": DECLARED, "b.isle": RULES},
        [
            ("open", "b.isle"),
            ("hints", "b.isle", "5:25-5:25", "5:25: T"),
            ("hints", "b.isle", "5:26-6:30"),
            ("hints", "b.isle", "4:1-5:24"),
            ("hints", "b.isle", "2:12-5:25", *FIRST[5:], "5:25: T"),
            ("hints", "b.isle", "5:25-2:12"),
            ("hints", "b.isle", "6:31-99:1", *OTHERS[1:]),
        ],
    ),
    Case(
        "hints: what is declared in a closed file changes",
        {"a.isle": DECLARED, "b.isle": "(rule (lower (Op.One x)) x)\n"},
        [
            ("hints", "b.isle", ALL, "1:23: T"),
            ("open", "b.isle"),
            ("write", "a.isle", DECLARED.replace("(z T)", "(z U)")),
            ("hints", "b.isle", ALL, "1:23: U"),
            ("remove", "a.isle"),
            ("hints", "b.isle", ALL),
        ],
    ),
    Case(
        "hints: a text that does not parse has none, and takes nothing from another but what it declares",
        {"a.isle": DECLARED, "b.isle": RULES, "c.isle": "(decl other (U) T)\n(rule (other x) (other x))\n"},
        [
            ("open", "b.isle"),
            ("open", "c.isle"),
            ("whole", "c.isle", "(decl other (U) T)\n(rule (other x) (other x)\n"),
            ("hints", "c.isle", ALL),
            ("hints", "b.isle", ALL, *FIRST, *OTHERS),
            ("whole", "c.isle", "(decl other (U) T)\n\n(rule (other x) (other x))\n"),
            ("hints", "c.isle", ALL, "3:15: U"),
        ],
    ),
    Case(
        "hints: none while an extractor uses itself",
        {"a.isle": DECLARED, "b.isle": "(rule (lower (Op.One x)) x)\n"},
        [
            ("open", "b.isle"),
            ("open", "a.isle", DECLARED.replace("(Op.One x))", "(one_of (and x x)))")),
            ("hints", "b.isle", ALL),
            ("whole", "a.isle", DECLARED),
            ("hints", "b.isle", ALL, "1:23: T"),
        ],
    ),
    Case(
        "hints: a file of two programs has those of the first, and a file of none has none",
        {"prelude.isle": SHARED, X64_FILE: ONLY.replace("(T)", "(U)"), ARM_FILE: ONLY, "other.isle": SHARED + ONLY, "isle.toml": TOML},
        [
            ("open", "prelude.isle"),
            ("hints", "prelude.isle", ALL, "4:22: U"),
            ("write", X64_FILE, ONLY),
            ("hints", "prelude.isle", ALL, "4:22: T"),
            ("open", "other.isle"),
            ("hints", "other.isle", ALL),
        ],
    ),
    Case(
        "hints: behind other letters",
        {"a.isle": DECLARED + "(rule (lower (; é😀 ;) (Op.One é1)) é1)\r\n(rule (lower (Op.One\r\n  x)) x)\n"},
        [("open", "a.isle"), ("hints", "a.isle", "1:1-99:1", "15:34: T", "17:4: T")],
    ),
]


def block(shown):
    """A block of Markdown."""
    return f"```isle\n{shown}\n```"


def typed(variable, shown):
    """A variable with its type, and then what else is shown of it."""
    return block(variable) + "\n\n" + block(shown)


LETS = """; x is hidden
(rule (lower (Op.One x)) ; not here
  (if-let y (let ((x U (make x)) (z U x)) z))
  (let ((v T (both x x)) (x T (both v v))) (both v x)))
"""

HOVERED = [
    Case(
        "hover: the type of a variable, where it is bound and where it is used",
        {"a.isle": DECLARED, "b.isle": RULES},
        [
            ("open", "b.isle"),
            *[("hover", "b.isle", f"p#{number}", typed("p : T", "(both p q @ (both r _))")) for number in (1, 2, 3)],
            ("hover", "b.isle", "q", typed("q : T", "(both p q @ (both r _))")),
            ("hover", "b.isle", "q#2", typed("q : T", "(both p q @ (both r _))")),
            ("hover", "b.isle", "r", typed("r : T", "(both r _)")),
            ("hover", "b.isle", "v", typed("v : U", "(and u v)")),
            ("hover", "b.isle", "w", typed("w : U", "  (if-let w (make q))")),
            ("hover", "b.isle", "s#2", typed("s : T", "(both s $NONE)")),
            ("hover", "b.isle", "x#3", typed("x : T", "(Op.One x)")),
            ("hover", "b.isle", "y#2", typed("y : T", "(both y y)")),
            ("hover", "b.isle", "z", typed("z : T", "(Op.One z)")),
        ],
    ),
    Case(
        "hover: no type of what is no variable, or of one without a type",
        {"a.isle": DECLARED, "b.isle": RULES},
        [
            ("open", "b.isle"),
            ("hover", "b.isle", "both", block("(decl both (T T) T)")),
            ("hover", "b.isle", "T", block("(type T (primitive T))")),
            ("hover", "b.isle", "Op.One", block("(One (z T))")),
            ("hover", "b.isle", "b", block("(nothing b)")),
            ("hover", "b.isle", "nothing", None),
            ("hover", "b.isle", "rule", None),
            ("hover", "a.isle", "x#2", block("(one_of x)")),
        ],
    ),
    Case(
        "hover: a variable that a `let` hides",
        {"a.isle": DECLARED, "b.isle": LETS},
        [
            ("open", "b.isle"),
            ("hover", "b.isle", "x#2", typed("x : T", "(Op.One x)")),
            ("hover", "b.isle", "x#3", block("(x U (make x))")),
            ("hover", "b.isle", "x#4", typed("x : T", "(Op.One x)")),
            ("hover", "b.isle", "x#5", block("(x U (make x))")),
            ("hover", "b.isle", "z#2", block("(z U x)")),
            ("hover", "b.isle", "y", typed("y : U", "  (if-let y (let ((x U (make x)) (z U x)) z))")),
            ("hover", "b.isle", "x#7", typed("x : T", "(Op.One x)")),
            ("hover", "b.isle", "x#8", block("(x T (both v v))")),
            ("hover", "b.isle", "v#3", block("(v T (both x x))")),
            ("hover", "b.isle", "x#9", block("(x T (both v v))")),
        ],
    ),
    Case(
        "hover: what is declared in a closed file changes",
        {"a.isle": DECLARED, "b.isle": "(rule (lower (Op.One x)) x)\n"},
        [
            ("hover", "b.isle", "x", typed("x : T", "(Op.One x)")),
            ("open", "b.isle"),
            ("write", "a.isle", DECLARED.replace("(z T)", "(z U)")),
            ("hover", "b.isle", "x#2", typed("x : U", "(Op.One x)")),
            ("remove", "a.isle"),
            ("hover", "b.isle", "x#2", block("(Op.One x)")),
        ],
    ),
    Case(
        "hover: no type in a text that does not parse, or while an extractor uses itself",
        {"a.isle": DECLARED, "b.isle": "(rule (lower (Op.One x)) x)\n"},
        [
            ("open", "b.isle"),
            ("whole", "b.isle", "(rule (lower (Op.One x)) x)\n(rule"),
            ("hover", "b.isle", "x", block("(Op.One x)")),
            ("whole", "b.isle", "(rule (lower (Op.One x)) x)\n"),
            ("hover", "b.isle", "x", typed("x : T", "(Op.One x)")),
            ("open", "a.isle", DECLARED.replace("(Op.One x))", "(one_of (and x x)))")),
            ("hover", "b.isle", "x", block("(Op.One x)")),
        ],
    ),
    Case(
        "hover: a file of two programs has the types of the first, and a file of none has none",
        {"prelude.isle": SHARED, X64_FILE: ONLY.replace("(T)", "(U)"), ARM_FILE: ONLY, "other.isle": SHARED + ONLY, "isle.toml": TOML},
        [
            ("open", "prelude.isle"),
            ("hover", "prelude.isle", "x", typed("x : U", "(only x)")),
            ("write", X64_FILE, ONLY),
            ("hover", "prelude.isle", "x", typed("x : T", "(only x)")),
            ("open", "other.isle"),
            ("hover", "other.isle", "x", block("(only x)")),
        ],
    ),
    Case(
        "hover: behind other letters",
        {"a.isle": DECLARED + "(rule (lower (; é😀 ;) (Op.One é1)) é1)\r\n(rule (lower (Op.One\r\n  x)) x)\n"},
        [
            ("open", "a.isle"),
            ("hover", "a.isle", "é1", typed("é1 : T", "(Op.One é1)")),
            ("hover", "a.isle", "é1#2", typed("é1 : T", "(Op.One é1)")),
            ("hover", "a.isle", "x#4", typed("x : T", "(Op.One\r\n  x)")),
        ],
    ),
]
