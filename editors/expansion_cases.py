"""The cases of editors/sessions about the code action that expands a use of an internal extractor."""

from program_cases import ARM_FILE, X64_FILE
from session_cases import Case

EXTRACTOR = "(extractor (E a b) (F a (G b @ _) b @ (H $C 0x1F)))\n"
USES = """(rule (f x (E p ; one
  (q (; two ;) 1)) y @ (E 1 z @ w))
  (if-let (E 2 3) (E x y))
  (E x y))
(extractor (K a) (E a 4))
(rule (E x y) x)
"""
ITSELF = "(extractor (E a) (F a (E a)))\n(rule (f (E (E x))) x)\n"
TOML = f"""[[program]]
name = "x64"
files = ["prelude.isle", "{X64_FILE}"]

[[program]]
name = "arm"
files = ["prelude.isle", "{ARM_FILE}"]
"""
SHARED = "(rule (f (E x)) x)\n"
ONE, SAME, OTHER = "(extractor (E a) (F a))\n", "(extractor (E b)\n  (F b))\n", "(extractor (E a) (G a))\n"


def expanded(old, new, text=USES):
    """A text after the first such part of it is replaced."""
    assert old in text
    return text.replace(old, new, 1)


EXPANDED = [
    Case(
        "expansions: arguments as they are written, in a root, behind `@`, in a condition and in a template",
        {"a.isle": EXTRACTOR, "b.isle": USES},
        [
            ("open", "b.isle"),
            (
                "expands",
                "b.isle",
                "E",
                expanded(
                    "(E p ; one\n  (q (; two ;) 1))",
                    "(F p (G (q (; two ;) 1)) b @ (H $C 0x1F))",
                ),
            ),
            ("expands", "b.isle", "E#2", expanded("(E 1 z @ w)", "(F 1 (G z @ w) b @ (H $C 0x1F))")),
            ("expands", "b.isle", "E#3", expanded("(E 2 3)", "(F 2 (G 3) b @ (H $C 0x1F))")),
            ("expands", "b.isle", "E#6", expanded("(E a 4)", "(F a (G 4) b @ (H $C 0x1F))")),
        ],
    ),
    Case(
        "expansions: none of an expression, of the root of a rule, of the head of an extractor, and of what is no use",
        {"a.isle": EXTRACTOR, "b.isle": USES},
        [
            ("open", "b.isle"),
            ("expands", "b.isle", "E#4", None),
            ("expands", "b.isle", "E#5", None),
            ("expands", "b.isle", "E#7", None),
            ("expands", "b.isle", "f", None),
            ("expands", "b.isle", "p", None),
            ("expands", "b.isle", "q", None),
            ("open", "a.isle"),
            ("expands", "a.isle", "E", None),
            ("expands", "a.isle", "F", None),
        ],
    ),
    Case(
        "expansions: one step of an extractor that uses itself",
        {"a.isle": ITSELF},
        [
            ("open", "a.isle"),
            ("expands", "a.isle", "E#2", expanded("(E a)))", "(F a (E a))))", ITSELF)),
            ("expands", "a.isle", "E#3", expanded("(E (E x))", "(F (E x) (E (E x)))", ITSELF)),
            ("expands", "a.isle", "E#4", expanded("(E (E x))", "(E (F x (E x)))", ITSELF)),
        ],
    ),
    Case(
        "expansions: kinds that a client wants only",
        {"a.isle": EXTRACTOR + USES},
        [
            ("open", "a.isle"),
            ("expands", "a.isle", "E#4", expanded("(E 2 3)", "(F 2 (G 3) b @ (H $C 0x1F))", EXTRACTOR + USES), ["refactor"]),
            ("expands", "a.isle", "E#4", expanded("(E 2 3)", "(F 2 (G 3) b @ (H $C 0x1F))", EXTRACTOR + USES), ["source", "refactor.inline"]),
            ("expands", "a.isle", "E#4", expanded("(E 2 3)", "(F 2 (G 3) b @ (H $C 0x1F))", EXTRACTOR + USES), [""]),
            ("expands", "a.isle", "E#4", None, ["quickfix"]),
            ("expands", "a.isle", "E#4", None, ["refactor.inline.call", "refactor.extract"]),
            ("expands", "a.isle", "E#4", None, []),
        ],
    ),
    Case(
        "expansions: none with another number of arguments, with two extractors, with an unfinished one, and behind an error",
        {"a.isle": ONE, "b.isle": "(rule (f (E x y) (E) (E z)) x)\n"},
        [
            ("open", "b.isle"),
            ("expands", "b.isle", "E", None),
            ("expands", "b.isle", "E#2", None),
            ("expands", "b.isle", "E#3", "(rule (f (E x y) (E) (F z)) x)\n"),
            ("open", "a.isle", ONE + OTHER),
            ("expands", "b.isle", "E#3", None),
            ("whole", "a.isle", ONE + ONE),
            ("expands", "b.isle", "E#3", None),
            ("whole", "a.isle", "(extractor (E a) (F a)\n"),
            ("expands", "b.isle", "E#3", None),
            ("whole", "a.isle", "(extractor (E a)\n(rule (f x) x))\n"),
            ("expands", "b.isle", "E#3", None),
            ("whole", "a.isle", "(rule (f x\n" + ONE),
            ("expands", "b.isle", "E#3", "(rule (f (E x y) (E) (F z)) x)\n"),
            ("whole", "a.isle", "(rule (f (extractor (E a) (F a))) 1)\n"),
            ("expands", "b.isle", "E#3", None),
            ("whole", "a.isle", ONE),
            ("whole", "b.isle", "0x\n(rule (f (E z)) x)\n"),
            ("expands", "b.isle", "E", None),
        ],
    ),
    Case(
        "expansions: none that would make two tokens one",
        {"a.isle": "(extractor (E a) a)\n(rule (f x(E y) (E z)w 1 (E u)) 1)\n"},
        [
            ("open", "a.isle"),
            ("expands", "a.isle", "E#2", None),
            ("expands", "a.isle", "E#3", None),
            ("expands", "a.isle", "E#4", "(extractor (E a) a)\n(rule (f x(E y) (E z)w 1 u) 1)\n"),
        ],
    ),
    Case(
        "expansions: names of terms, constants, `_`, `true` and names before patterns are no parameters",
        {"a.isle": "(extractor (E x and true $C _)\n  (x x @ _ x @ (x x) (and and x) true $C _ y @ x @ _ -1))\n(rule (f (E 1 2 3 4 5)) 6)\n"},
        [
            ("open", "a.isle"),
            (
                "expands",
                "a.isle",
                "E#2",
                "(extractor (E x and true $C _)\n  (x x @ _ x @ (x x) (and and x) true $C _ y @ x @ _ -1))\n"
                "(rule (f (x 1 x @ (x 1) (and 2 1) true $C _ y @ 1 -1)) 6)\n",
            ),
        ],
    ),
    Case(
        "expansions: of several programs each must have the same, and a file of none has none",
        {"prelude.isle": SHARED, X64_FILE: ONE, ARM_FILE: "; arm\n" + SAME, "other.isle": ONE + SHARED, "isle.toml": TOML},
        [
            ("open", "prelude.isle"),
            ("expands", "prelude.isle", "E", "(rule (f (F x)) x)\n"),
            ("write", ARM_FILE, OTHER),
            ("expands", "prelude.isle", "E", None),
            ("write", ARM_FILE, "; arm\n"),
            ("expands", "prelude.isle", "E", None),
            ("write", ARM_FILE, ONE),
            ("expands", "prelude.isle", "E", "(rule (f (F x)) x)\n"),
            ("open", "other.isle"),
            ("expands", "other.isle", "E#2", None),
        ],
    ),
    Case(
        "expansions: behind other letters",
        {"a.isle": "(extractor (é a) (ü a \"é\"))\n(; é😀 ;) (rule (f (; é😀 ;) (é (; 😀 ;) ß)) ß)\r\n"},
        [
            ("open", "a.isle"),
            (
                "expands",
                "a.isle",
                "é#5",
                "(extractor (é a) (ü a \"é\"))\n(; é😀 ;) (rule (f (; é😀 ;) (ü ß \"é\")) ß)\r\n",
            ),
        ],
    ),
]
