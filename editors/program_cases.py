"""The cases of editors/sessions in which a folder holds several programs, or one in several folders."""

from session_cases import BOTH, C_BAR, NEW, TWO, TWO_BAR, A, A_BAR, B, B_BAR, C, Case

# Programs that share a prelude: x64 and arm both declare `lower`.
PRELUDE = "(type T (primitive T))\n(decl shared (T) T)\n(rule (shared x) x)\n"
X64 = "(decl lower (T) T)\n(rule (lower (shared x)) x)\n(decl x64_only () T)\n"
ARM = "; arm\n(decl lower (T) T)\n(rule (lower (shared y)) (lower y))\n(decl arm_only () T)\n"
TOML = """[[program]]
name = "x64"
files = ["prelude.isle", "isa/x64/lower.isle"]

[[program]]
name = "arm"
files = ["prelude.isle", "isa/arm/lower.isle", "made/absent.isle"]
"""
MANY = "".join(f'[[program]]\nname = "{it}"\nfiles = ["{it}.isle"]\n' for it in range(10))
MISTAKEN = TOML.replace("files", "file", 1)
FOLDERS = TOML.replace("isa/x64/lower.isle", "isa/x64").replace("isa/arm/lower.isle", "isa/arm/*.isle")
X64_FILE, ARM_FILE = "isa/x64/lower.isle", "isa/arm/lower.isle"
TREE = {"prelude.isle": PRELUDE, X64_FILE: X64, ARM_FILE: ARM}
ALONE = "(decl lower (T) T)\n(rule (lower x) (shared x))\n"


def renames(text, old, new):
    return text.replace(old, new)


# What must hold of such a tree, whether `isle.toml` says which programs there are or the folders do.
TOLD_APART = {
    "a name of both is renamed in one": [
        ("rename", X64_FILE, "lower#2", "low", {X64_FILE: renames(X64, "lower", "low")}),
        ("rename", ARM_FILE, "lower", "lowest", {ARM_FILE: renames(ARM, "lower", "lowest")}),
    ],
    "a name of both is renamed in one, both open": [
        ("open", ARM_FILE),
        ("open", X64_FILE),
        ("insert", ARM_FILE, "", NEW),
        ("rename", X64_FILE, "lower#2", "low", {X64_FILE: renames(X64, "lower", "low")}),
    ],
    "definition and references of a name of both": [
        ("definition", X64_FILE, "lower#2", f"{X64_FILE}:1:7"),
        ("references", ARM_FILE, "lower", f"{ARM_FILE}:2:7", f"{ARM_FILE}:3:8", f"{ARM_FILE}:3:27"),
    ],
    "implementations of a name of both": [
        ("implementation", X64_FILE, "lower#2", f"{X64_FILE}:2:8"),
        ("implementation", ARM_FILE, "lower", f"{ARM_FILE}:3:8"),
    ],
    "implementations of a name that they share": [
        ("implementation", X64_FILE, "shared", "prelude.isle:3:8"),
        ("implementation", "prelude.isle", "shared", "prelude.isle:3:8"),
        ("open", "prelude.isle"),
        ("insert", "prelude.isle", "", "(rule 1 (shared y) y)\n"),
        ("implementation", ARM_FILE, "shared", "prelude.isle:1:10", "prelude.isle:4:8"),
    ],
    "calls of a name that they share": [
        ("incoming", "prelude.isle", "shared", f"{X64_FILE}:2:1", f"{ARM_FILE}:3:1"),
        ("incoming", X64_FILE, "shared", f"{X64_FILE}:2:1", f"{ARM_FILE}:3:1"),
        ("incoming", ARM_FILE, "lower", f"{ARM_FILE}:3:1"),
        ("outgoing", ARM_FILE, "lower", "prelude.isle:2:1", f"{ARM_FILE}:2:1"),
        ("outgoing", "prelude.isle", "shared"),
        ("open", "prelude.isle"),
        ("insert", "prelude.isle", "", "(rule 1 (shared (shared y)) y)\n"),
        ("incoming", ARM_FILE, "shared", "prelude.isle:1:1", f"{X64_FILE}:2:1", f"{ARM_FILE}:3:1"),
        ("outgoing", "prelude.isle", "shared", "prelude.isle:3:1"),
    ],
    "a name that they share": [
        ("definition", X64_FILE, "shared", "prelude.isle:2:7"),
        ("references", "prelude.isle", "shared", "prelude.isle:2:7", "prelude.isle:3:8", f"{X64_FILE}:2:15", f"{ARM_FILE}:3:15"),
        ("rename", "prelude.isle", "shared", "all", {path: renames(text, "shared", "all") for path, text in TREE.items()}),
    ],
    "a name that they share is renamed in the file that they share": [
        ("refused", X64_FILE, "shared", "all"),
        ("open", X64_FILE),
        ("refused", X64_FILE, "shared", "all"),
        ("rename", "prelude.isle", "shared", "all", {path: renames(text, "shared", "all") for path, text in TREE.items()}),
    ],
    "a broken text of another program": [
        ("write", ARM_FILE, ARM + "(decl"),
        ("rename", X64_FILE, "lower", "low", {X64_FILE: renames(X64, "lower", "low")}),
        ("refused", "prelude.isle", "shared", "all"),
        ("refused", ARM_FILE, "lower", "low"),
    ],
    "a broken document of another program": [
        ("open", ARM_FILE),
        ("insert", ARM_FILE, "arm_only", "("),
        ("rename", X64_FILE, "lower", "low", {X64_FILE: renames(X64, "lower", "low")}),
        ("refused", "prelude.isle", "shared", "all"),
    ],
    "a broken text that they share": [
        ("write", "prelude.isle", PRELUDE + "("),
        ("refused", X64_FILE, "lower", "low"),
        ("refused", ARM_FILE, "lower", "low"),
    ],
    "a name that another program has is not taken": [
        ("rename", X64_FILE, "lower", "arm_only", {X64_FILE: renames(X64, "lower", "arm_only")}),
        ("refused", ARM_FILE, "lower", "arm_only"),
        ("refused", "prelude.isle", "shared", "arm_only"),
    ],
    "names of another program are not offered": [
        ("offers", X64_FILE, "x64_only", "x64_only"),
        ("open", X64_FILE),
        ("whole", X64_FILE, X64 + "(rule (lower x) (ar"),
        ("offers", X64_FILE, "ar"),
        ("whole", X64_FILE, X64 + "(rule (lower x) (sh"),
        ("offers", X64_FILE, "sh", "shared"),
    ],
    "all symbols, each once": [
        ("symbols", "o", f"lower {X64_FILE}:1:7", f"x64_only {X64_FILE}:3:7", f"lower {ARM_FILE}:2:7", f"arm_only {ARM_FILE}:4:7"),
        ("symbols", "shared", "shared prelude.isle:2:7"),
    ],
}

PROGRAMS = [
    *(
        Case(f"programs: {how}: {name}", {**TREE, **toml}, steps)
        for how, toml in {"isle.toml": {"isle.toml": TOML}, "isle.toml with folders and `*`": {"isle.toml": FOLDERS}, "folders alone": {}}.items()
        for name, steps in TOLD_APART.items()
    ),
    Case(
        "programs: isle.toml: a file of no program stands alone",
        {**TREE, "isle.toml": TOML, "alone.isle": ALONE, "broken.isle": "(decl"},
        [
            ("open", "alone.isle"),
            ("definition", "alone.isle", "shared"),
            ("definition", "alone.isle", "lower#2", "alone.isle:1:7"),
            ("references", "prelude.isle", "shared", "prelude.isle:2:7", "prelude.isle:3:8", f"{X64_FILE}:2:15", f"{ARM_FILE}:3:15"),
            ("rename", "alone.isle", "lower", "low", {"alone.isle": renames(ALONE, "lower", "low")}),
            ("rename", X64_FILE, "lower", "low", {X64_FILE: renames(X64, "lower", "low")}),
        ],
    ),
    Case(
        "programs: isle.toml comes, changes and goes",
        {"a.isle": A, "b.isle": B, "c.isle": C},
        [
            ("references", "a.isle", "foo", "a.isle:2:7", "b.isle:1:8", "c.isle:2:8", "c.isle:2:13"),
            ("write", "isle.toml", '[[program]]\nname = "p"\nfiles = ["a.isle", "b.isle"]\n'),
            ("references", "a.isle", "foo", "a.isle:2:7", "b.isle:1:8"),
            ("write", "isle.toml", '[[program]]\nname = "p"\nfiles = ["a.isle", "c.isle"]\n'),
            ("references", "a.isle", "foo", "a.isle:2:7", "c.isle:2:8", "c.isle:2:13"),
            ("rename", "a.isle", "foo", "bar", {"a.isle": A_BAR, "c.isle": C_BAR}),
            ("rename", "c.isle", "bar", "foo", {"a.isle": A, "c.isle": C}),
            ("remove", "isle.toml"),
            ("rename", "a.isle", "foo", "bar", {**TWO_BAR, "c.isle": C_BAR}),
        ],
    ),
    Case(
        "programs: isle.toml: a file that was absent comes",
        {**TREE, "isle.toml": TOML},
        [
            ("write", "made/absent.isle", "(rule (lower (arm_only)) (shared (arm_only)))\n"),
            ("references", ARM_FILE, "arm_only", f"{ARM_FILE}:4:7", "made/absent.isle:1:15", "made/absent.isle:1:35"),
            ("definition", "made/absent.isle", "lower", f"{ARM_FILE}:2:7"),
            (
                "rename",
                ARM_FILE,
                "arm_only",
                "only",
                {ARM_FILE: renames(ARM, "arm_only", "only"), "made/absent.isle": "(rule (lower (only)) (shared (only)))\n"},
            ),
        ],
    ),
    Case(
        "programs: isle.toml in one of two folders",
        {**{f"one/{path}": text for path, text in {**TREE, "isle.toml": TOML}.items()}, "two/a.isle": A, "two/b.isle": B},
        [
            ("rename", f"one/{X64_FILE}", "lower", "low", {f"one/{X64_FILE}": renames(X64, "lower", "low")}),
            ("rename", "two/b.isle", "foo", "bar", {f"two/{path}": text for path, text in TWO_BAR.items()}),
        ],
        {"workspaceFolders": BOTH},
    ),
    Case(
        "programs: isle.toml that is no TOML does not end the server",
        {**TWO, "isle.toml": "[[program\n"},
        [
            ("definition", "a.isle", "foo", "a.isle:2:7"),
            ("refused", "b.isle", "foo", "bar"),
            ("remove", "isle.toml"),
            ("rename", "b.isle", "foo", "bar", TWO_BAR),
        ],
    ),
    Case(
        "programs: isle.toml that has a mistake: nothing is renamed, and the reason tells it",
        {**TREE, "isle.toml": MISTAKEN},
        [
            ("refused", X64_FILE, "lower", "low", "cannot rename: {root}/isle.toml:3:1: error: unknown key 'file'"),
            ("definition", X64_FILE, "shared", "prelude.isle:2:7"),
            ("references", ARM_FILE, "lower", f"{ARM_FILE}:2:7", f"{ARM_FILE}:3:8", f"{ARM_FILE}:3:27"),
            ("open", X64_FILE),
            ("refused", X64_FILE, "lower", "low", "cannot rename: {root}/isle.toml:3:1: error: unknown key 'file'"),
            ("write", "isle.toml", TOML),
            ("rename", X64_FILE, "lower#2", "low", {X64_FILE: renames(X64, "lower", "low")}),
            ("write", "isle.toml", MISTAKEN),
            ("refused", ARM_FILE, "lower", "low", "cannot rename: {root}/isle.toml:3:1: error: unknown key 'file'"),
        ],
    ),
    Case(
        "programs: isle.toml that can't be read: nothing is renamed",
        {**TWO, "isle.toml": b"\xff\n"},
        [
            ("refused", "b.isle", "foo", "bar", "cannot rename: {root}/isle.toml: cannot be read"),
            ("references", "a.isle", "foo", "a.isle:2:7", "b.isle:1:8"),
        ],
    ),
    Case(
        "programs: isle.toml that has a mistake, in one of two folders: nothing is renamed in either",
        {**{f"one/{path}": text for path, text in {**TREE, "isle.toml": MISTAKEN}.items()}, "two/a.isle": A, "two/b.isle": B},
        [
            ("refused", "two/b.isle", "foo", "bar", "cannot rename: {root}/one/isle.toml:3:1: error: unknown key 'file'"),
            ("references", "two/a.isle", "foo", "two/a.isle:2:7", "two/b.isle:1:8"),
        ],
        {"workspaceFolders": BOTH},
    ),
    Case(
        "programs: isle.toml that has a mistake, in each of two folders: the reason tells that of the file's",
        {
            **{f"one/{path}": text for path, text in {**TREE, "isle.toml": MISTAKEN}.items()},
            **{"two/a.isle": A, "two/b.isle": B, "two/isle.toml": "\n" + MISTAKEN},
        },
        [
            ("refused", "two/b.isle", "foo", "bar", "cannot rename: {root}/two/isle.toml:4:1: error: unknown key 'file'"),
            ("refused", f"one/{X64_FILE}", "lower", "low", "cannot rename: {root}/one/isle.toml:3:1: error: unknown key 'file'"),
            ("open", "two/b.isle"),
            ("refused", "two/b.isle", "foo", "bar", "cannot rename: {root}/two/isle.toml:4:1: error: unknown key 'file'"),
        ],
        {"workspaceFolders": BOTH},
    ),
    Case(
        "programs: requests that alternate between programs, more than the server keeps indexes of, while texts change",
        {"isle.toml": MANY, **{f"{it}.isle": B + "\n" * it + A for it in range(10)}},
        [
            *[("definition", f"{it}.isle", "foo", f"{it}.isle:{it + 3}:7") for it in [*range(10), *range(10)]],
            ("write", "3.isle", B + "\n" * 20 + A),
            ("definition", "3.isle", "foo", "3.isle:23:7"),
            ("definition", "2.isle", "foo", "2.isle:5:7"),
            ("open", "2.isle"),
            ("insert", "2.isle", "", "\n"),
            ("definition", "3.isle", "foo", "3.isle:23:7"),
            ("definition", "2.isle", "foo", "2.isle:6:7"),
            *[("rename", f"{it}.isle", "foo", "bar", {f"{it}.isle": B_BAR + "\n" * it + A_BAR}) for it in (0, 9, 1)],
            ("definition", "0.isle", "bar", "0.isle:3:7"),
        ],
    ),
    Case(
        "programs: without isle.toml a folder that declares no term twice is one program",
        {"one/a.isle": A, "two/b.isle": B, "two/three/c.isle": C},
        [
            ("definition", "two/b.isle", "foo", "one/a.isle:2:7"),
            ("rename", "two/b.isle", "foo", "bar", {"one/a.isle": A_BAR, "two/b.isle": B_BAR, "two/three/c.isle": C_BAR}),
        ],
    ),
    Case(
        "programs: without isle.toml: a file goes with the folders above it, and not with those beside it",
        {"a.isle": A, "one/b.isle": B + "(decl twice () T)\n", "one/in/c.isle": C, "two/d.isle": B + "(decl twice () T)\n"},
        [
            ("definition", "one/in/c.isle", "foo", "a.isle:2:7"),
            ("references", "one/b.isle", "twice", "one/b.isle:2:7"),
            (
                "references",
                "a.isle",
                "foo",
                "a.isle:2:7",
                "one/b.isle:1:8",
                "one/in/c.isle:2:8",
                "one/in/c.isle:2:13",
                "two/d.isle:1:8",
            ),
            ("rename", "one/b.isle", "twice", "once", {"one/b.isle": B + "(decl once () T)\n"}),
        ],
    ),
    Case(
        "programs: without isle.toml: a term comes to be declared twice, and once again",
        {"one/a.isle": A, "two/b.isle": B},
        [
            ("definition", "two/b.isle", "foo", "one/a.isle:2:7"),
            ("write", "three/c.isle", A),
            ("definition", "two/b.isle", "foo"),
            ("rename", "one/a.isle", "foo", "fox", {"one/a.isle": A.replace("foo", "fox")}),
            ("remove", "three/c.isle"),
            ("write", "one/a.isle", A),
            ("rename", "two/b.isle", "foo", "bar", {"one/a.isle": A_BAR, "two/b.isle": B_BAR}),
        ],
    ),
]
