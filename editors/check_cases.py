"""The cases of editors/sessions about what the check of programs tells of the document that is opened or changed."""

from program_cases import ARM_FILE, PRELUDE, TOML, X64_FILE
from session_cases import Case

TYPES = "(type T (primitive T))\n(type U (primitive U))\n"
DECLARED = TYPES + "(decl foo (T) T)\n(decl made () U)\n(extern constructor made made)\n"
RIGHT, WRONG = "(rule (foo x) x)\n", "(rule (foo x) (made))\n"
WRONG_TYPE = "error 1:15 term-type Mismatched types: expression expects type 'T' but term has return type 'U'"
GONE = "error 1:15 unknown-term Unknown term in expression: 'made'"
NO_FOO = "error 1:7 rule-for-unknown-term Rule LHS root term is not defined"
ARGUMENTS = "(rule (lower x) (shared x x))\n"
COUNT = "error 2:17 argument-count Incorrect argument count for term 'shared': got 2, expect 1"
LOWER = "(decl lower (T) T)\n"
ONLY = "(decl only (T) T)\n(extern constructor only only)\n"
NOT_THERE = "error 5:19 unknown-term Unknown term in expression: 'only'"
UNUSED = "warning {line}:22 unused-let unused variable 'y'"
WITH_LET = RIGHT.replace(") x)", ") (let ((y T x)) (made)))")
WRONG_IN_LET = WRONG_TYPE.replace("1:15", "{line}:30")
BAR = "(decl bar (T) T)\n(rule (bar x) x)\n"
AT_TWO_PLACES = """[[program]]
name = "first"
files = ["a.isle", "b.isle"]

[[program]]
name = "second"
files = ["b.isle", "c.isle"]
"""
ABSENT = TOML.replace(', "made/absent.isle"', "")

CHECKED = [
    Case(
        "checking: a wrong type appears as it is typed, and goes as it is mended",
        {"a.isle": DECLARED, "b.isle": RIGHT},
        [
            ("open", "b.isle"),
            ("diagnostics", "b.isle"),
            ("whole", "b.isle", WRONG),
            ("diagnostics", "b.isle", WRONG_TYPE),
            ("whole", "b.isle", RIGHT),
            ("diagnostics", "b.isle"),
            ("whole", "b.isle", WRONG),
            ("diagnostics", "b.isle", WRONG_TYPE),
            ("close", "b.isle"),
            ("diagnostics", "b.isle"),
        ],
    ),
    Case(
        "checking: a term that is declared in a closed file, and then no more",
        {"a.isle": DECLARED.replace("(decl made () U)", "(decl made () T)"), "b.isle": WRONG},
        [
            ("open", "b.isle"),
            ("diagnostics", "b.isle"),
            ("write", "a.isle", TYPES + "(decl foo (T) T)\n"),
            ("insert", "b.isle", "made", " "),
            ("diagnostics", "b.isle", GONE),
        ],
    ),
    Case(
        "checking: a closed file changes, and the diagnostics of an open one follow",
        {"a.isle": DECLARED.replace("(decl made () U)", "(decl made () T)"), "b.isle": WRONG},
        [
            ("open", "b.isle"),
            ("diagnostics", "b.isle"),
            ("write", "a.isle", DECLARED),
            ("diagnostics_after_change", "b.isle", [], [WRONG_TYPE]),
            ("write", "a.isle", TYPES + "(decl foo (T) T)\n"),
            ("diagnostics_after_change", "b.isle", [], [GONE]),
        ],
    ),
    Case(
        "checking: a file of the program goes, and `isle.toml` comes",
        {"a.isle": DECLARED, "b.isle": WRONG},
        [
            ("open", "b.isle"),
            ("diagnostics", "b.isle", WRONG_TYPE),
            ("remove", "a.isle"),
            ("diagnostics_after_change", "b.isle", [WRONG_TYPE], [NO_FOO]),
            ("write", "isle.toml", '[[program]]\nname = "none"\nfiles = ["c.isle"]\n'),
            ("diagnostics_after_change", "b.isle", [WRONG_TYPE], []),
        ],
    ),
    Case(
        "checking: a folder is added, and the diagnostics of its open file follow",
        {"one/a.isle": DECLARED, "two/b.isle": WRONG},
        [
            ("open", "two/b.isle"),
            ("diagnostics", "two/b.isle"),
            ("folders", ["file://{root}/two"], []),
            ("diagnostics", "two/b.isle", NO_FOO),
            ("folders", [], ["file://{root}/two"]),
            ("diagnostics", "two/b.isle"),
        ],
        {"workspaceFolders": [{"uri": "file://{root}/one", "name": "one"}], "rootUri": None},
    ),
    Case(
        "checking: a term that is declared in an open file alone",
        {"a.isle": TYPES + "(decl foo (T) T)\n", "b.isle": WRONG},
        [
            ("open", "b.isle"),
            ("diagnostics", "b.isle", GONE),
            ("open", "a.isle", DECLARED.replace("(decl made () U)", "(decl made () T)")),
            ("insert", "b.isle", "made", " "),
            ("diagnostics", "b.isle"),
        ],
    ),
    Case(
        "checking: what changes in one file is told of the other open ones of its program",
        {"a.isle": DECLARED.replace("(decl made () U)", "(decl made () T)"), "b.isle": WRONG},
        [
            ("open", "b.isle"),
            ("open", "a.isle"),
            ("diagnostics", "b.isle"),
            ("whole", "a.isle", DECLARED),
            ("diagnostics", "a.isle"),
            ("diagnostics", "b.isle", WRONG_TYPE),
            ("close", "a.isle"),
            ("diagnostics", "b.isle"),
            ("open", "a.isle", DECLARED),
            ("diagnostics", "b.isle", WRONG_TYPE),
        ],
    ),
    Case(
        "checking: a document that is closed and was never on the disk",
        {"b.isle": WRONG},
        [
            ("open", "b.isle"),
            ("open", "new.isle", DECLARED),
            ("diagnostics", "b.isle", WRONG_TYPE),
            ("close", "new.isle"),
            ("diagnostics", "b.isle", NO_FOO),
        ],
    ),
    Case(
        "checking: a file that is open under two names counts once",
        {"a.isle": DECLARED, "b.isle": RIGHT, "link.isle": ("a.isle",)},
        [
            ("open", "b.isle"),
            ("open", "a.isle"),
            ("open", "link.isle"),
            ("diagnostics", "link.isle"),
            ("diagnostics", "a.isle"),
            ("diagnostics", "b.isle"),
        ],
    ),
    Case(
        "checking: a hidden file that is open",
        {".a.isle": DECLARED, "b.isle": WRONG},
        [("open", "b.isle"), ("diagnostics", "b.isle", WRONG_TYPE), ("open", ".a.isle"), ("diagnostics", "b.isle", WRONG_TYPE)],
    ),
    Case(
        "checking: an open file of two programs, of which one changes",
        {
            "prelude.isle": PRELUDE + "(decl wrapped (T) T)\n(rule (wrapped x) (only x))\n",
            X64_FILE: LOWER + "(rule (lower x) x)\n",
            ARM_FILE: LOWER + "(rule (lower x) x)\n" + ONLY,
            "isle.toml": ABSENT,
        },
        [
            ("open", "prelude.isle"),
            ("diagnostics", "prelude.isle", NOT_THERE),
            ("open", ARM_FILE),
            ("insert", ARM_FILE, "lower", " "),
            ("diagnostics", "prelude.isle", NOT_THERE),
            ("open", X64_FILE, LOWER + "(rule (lower x) x)\n" + ONLY),
            ("diagnostics", "prelude.isle"),
            ("whole", ARM_FILE, LOWER + "(rule (lower x) x)\n"),
            ("diagnostics", "prelude.isle", NOT_THERE),
            ("diagnostics", X64_FILE),
        ],
    ),
    Case(
        "checking: errors of another file are not told of this one",
        {"a.isle": DECLARED, "b.isle": WRONG},
        [("open", "a.isle"), ("diagnostics", "a.isle")],
    ),
    Case(
        "checking: a program with a syntax error in another file",
        {"a.isle": DECLARED, "b.isle": WRONG},
        [
            ("open", "b.isle"),
            ("diagnostics", "b.isle", WRONG_TYPE),
            ("open", "a.isle", DECLARED + "("),
            ("insert", "b.isle", "made", " "),
            ("diagnostics", "b.isle"),
            ("whole", "a.isle", DECLARED),
            ("insert", "b.isle", "made", " "),
            ("diagnostics", "b.isle", WRONG_TYPE),
        ],
    ),
    Case(
        "checking: what lints find in a document stays while another one of its program does not parse",
        {"a.isle": DECLARED, "b.isle": WITH_LET},
        [
            ("open", "b.isle"),
            ("open", "a.isle"),
            ("diagnostics", "b.isle", WRONG_IN_LET.format(line=1), UNUSED.format(line=1)),
            ("whole", "a.isle", DECLARED + "("),
            ("diagnostics", "b.isle", UNUSED.format(line=1)),
            ("whole", "b.isle", "\n" + WITH_LET),
            ("diagnostics", "b.isle", UNUSED.format(line=2)),
            ("whole", "a.isle", DECLARED),
            ("diagnostics", "b.isle", WRONG_IN_LET.format(line=2), UNUSED.format(line=2)),
        ],
    ),
    Case(
        "checking: a file comes between those of a program, and the next one has another number",
        {"a.isle": DECLARED, "c.isle": WRONG},
        [
            ("open", "c.isle"),
            ("diagnostics", "c.isle", WRONG_TYPE),
            ("write", "b.isle", BAR),
            ("insert", "c.isle", "made", " "),
            ("diagnostics", "c.isle", WRONG_TYPE),
            ("open", "b.isle"),
            ("diagnostics", "b.isle"),
            ("diagnostics", "c.isle", WRONG_TYPE),
        ],
    ),
    Case(
        "checking: a document that two programs have at different places, while it does not parse and after",
        {"a.isle": DECLARED, "b.isle": WRONG, "c.isle": DECLARED, "isle.toml": AT_TWO_PLACES},
        [
            ("open", "b.isle"),
            ("diagnostics", "b.isle", WRONG_TYPE),
            ("whole", "b.isle", WRONG + "("),
            ("whole", "b.isle", RIGHT),
            ("diagnostics", "b.isle"),
            ("whole", "b.isle", RIGHT + "("),
            ("whole", "b.isle", RIGHT + ")"),
            ("whole", "b.isle", WRONG),
            ("diagnostics", "b.isle", WRONG_TYPE),
        ],
    ),
    Case(
        "checking: two documents with one text, of which one changes",
        {"a.isle": WITH_LET, "b.isle": WITH_LET, "isle.toml": '[[program]]\nname = "none"\nfiles = ["c.isle"]\n'},
        [
            ("open", "a.isle"),
            ("open", "b.isle"),
            ("diagnostics", "a.isle", UNUSED.format(line=1)),
            ("diagnostics", "b.isle", UNUSED.format(line=1)),
            ("whole", "b.isle", RIGHT),
            ("diagnostics", "b.isle"),
            ("insert", "a.isle", "made", " "),
            ("diagnostics", "a.isle", UNUSED.format(line=1)),
        ],
    ),
    Case(
        "checking: two programs of one tree, each by itself",
        {"prelude.isle": PRELUDE, X64_FILE: LOWER + "(rule (lower x) (shared x))\n", ARM_FILE: LOWER + ARGUMENTS, "isle.toml": ABSENT},
        [("open", X64_FILE), ("diagnostics", X64_FILE), ("open", ARM_FILE), ("diagnostics", ARM_FILE, COUNT)],
    ),
    Case(
        "checking: what two programs tell of a file that they share stands once",
        {
            "prelude.isle": PRELUDE + "(rule (shared x) (shared x x))\n",
            X64_FILE: LOWER + "(rule (lower x) x)\n",
            ARM_FILE: LOWER + "(rule (lower x) x)\n",
            "isle.toml": ABSENT,
        },
        [("open", "prelude.isle"), ("diagnostics", "prelude.isle", COUNT.replace("2:17", "4:18"))],
    ),
    Case(
        "checking: a program that lacks a file is not checked",
        {"prelude.isle": PRELUDE, X64_FILE: LOWER + ARGUMENTS, ARM_FILE: LOWER + ARGUMENTS, "isle.toml": TOML},
        [("open", X64_FILE), ("diagnostics", X64_FILE, COUNT), ("open", ARM_FILE), ("diagnostics", ARM_FILE)],
    ),
    Case(
        "checking: a file of no program is not checked",
        {"prelude.isle": PRELUDE, "other.isle": WRONG, X64_FILE: LOWER, ARM_FILE: LOWER, "isle.toml": ABSENT},
        [("open", "other.isle"), ("diagnostics", "other.isle")],
    ),
    Case(
        "checking: a warning, and lints behind what the check tells",
        {"a.isle": TYPES + "(extern const $C T)\n", "b.isle": "(extern const $C T)\n(decl foo (T) T)\n(rule (foo x) (let ((y T x)) x))\n"},
        [
            ("open", "b.isle"),
            (
                "diagnostics",
                "b.isle",
                "warning 1:15 duplicate-constant Constant '$C' declared more than once: its last type counts",
                "warning 3:22 unused-let unused variable 'y'",
            ),
        ],
    ),
]
