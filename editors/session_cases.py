"""The cases of editors/sessions: folders, what happens there and in the client, and what must be answered."""

from typing import NamedTuple

BEHIND = {"write", "write_alike", "remove", "move"}


class Case(NamedTuple):
    """A case. Steps are names of methods of `Session` in editors/sessions, with their words.

    Files are texts by path; a tuple is what a link leads to. `{root}` in a URI is the folder's path, `{room}` that of the folder around
    it. A case without `begin` names its folder by `rootUri`. Versions in edits are looked at where `versions` says so."""

    name: str
    files: dict
    steps: list
    begin: dict = None
    versions: bool = False
    folder: str = "root"

    def changes_behind(self):
        """Whether files change behind the server, so that a client can tell of it."""
        return any(step[0] in BEHIND for step in self.steps)


# Two files: `foo` is declared in one and used in the other.
A = "(type T (primitive T))\n(decl foo (T) T)\n"
B = "(rule (foo x) x)\n"
A_BAR = A.replace("foo", "bar")
B_BAR = B.replace("foo", "bar")
TWO = {"a.isle": A, "b.isle": B}
TWO_BAR = {"a.isle": A_BAR, "b.isle": B_BAR}
C = "; more\n(rule (foo (foo y)) y)\n"
C_BAR = C.replace("foo", "bar")
NEW = "; new\n"

CLOSED = [
    Case(
        "closing: a document is saved and closed, then renamed in",
        TWO,
        [
            ("open", "b.isle"),
            ("insert", "b.isle", "", NEW),
            ("save", "b.isle"),
            ("close", "b.isle"),
            ("references", "a.isle", "foo", "a.isle:2:7", "b.isle:2:8"),
            ("rename", "a.isle", "foo", "bar", {"a.isle": A_BAR, "b.isle": NEW + B_BAR}),
            ("is_on_disk", "b.isle", NEW + B_BAR),
        ],
    ),
    Case(
        "closing: a document is saved and stays open",
        TWO,
        [
            ("open", "b.isle"),
            ("insert", "b.isle", "", NEW),
            ("save", "b.isle"),
            ("insert", "b.isle", "", NEW),
            ("rename", "a.isle", "foo", "bar", {"a.isle": A_BAR, "b.isle": NEW + NEW + B_BAR}),
        ],
    ),
    Case(
        "closing: a document is closed without saving: the file is as it was",
        TWO,
        [
            ("open", "b.isle"),
            ("insert", "b.isle", "", NEW + "(decl foe (T) T)\n"),
            ("symbols", "fo", "foo a.isle:2:7", "foe b.isle:2:7"),
            ("close", "b.isle"),
            ("symbols", "fo", "foo a.isle:2:7"),
            ("rename", "a.isle", "foo", "foe", {"a.isle": A.replace("foo", "foe"), "b.isle": B.replace("foo", "foe")}),
        ],
    ),
    Case(
        "closing: a new document is saved, closed and opened again",
        TWO,
        [
            ("open", "c.isle", C),
            ("references", "a.isle", "foo", "a.isle:2:7", "b.isle:1:8", "c.isle:2:8", "c.isle:2:13"),
            ("save", "c.isle"),
            ("close", "c.isle"),
            ("references", "a.isle", "foo", "a.isle:2:7", "b.isle:1:8", "c.isle:2:8", "c.isle:2:13"),
            ("open", "c.isle"),
            ("rename", "c.isle", "foo#2", "bar", {**TWO_BAR, "c.isle": C_BAR}),
        ],
    ),
    Case(
        "closing: a new document is closed without saving, and is gone",
        TWO,
        [
            ("open", "c.isle", C),
            ("close", "c.isle"),
            ("references", "a.isle", "foo", "a.isle:2:7", "b.isle:1:8"),
            ("rename", "a.isle", "foo", "bar", TWO_BAR),
        ],
    ),
    Case(
        "closing: a renaming is made in closed files, and made back",
        TWO,
        [
            ("rename", "a.isle", "foo", "a_longer_name", {"a.isle": A.replace("foo", "a_longer_name"), "b.isle": B.replace("foo", "a_longer_name")}),
            ("rename", "b.isle", "a_longer_name", "b", {"a.isle": A.replace("foo", "b"), "b.isle": B.replace("foo", "b")}),
            ("open", "b.isle"),
            ("rename", "a.isle", "b", "foo", TWO),
            ("save", "b.isle"),
            ("close", "b.isle"),
            ("rename", "b.isle", "foo", "bar", TWO_BAR),
        ],
    ),
    Case(
        "closing: a broken document is mended, saved and closed",
        TWO,
        [
            ("open", "b.isle"),
            ("whole", "b.isle", "(rule (foo x) x"),
            ("refused", "a.isle", "foo", "bar"),
            ("insert", "b.isle", "(rule", NEW),
            ("whole", "b.isle", NEW + B),
            ("save", "b.isle"),
            ("close", "b.isle"),
            ("rename", "a.isle", "foo", "bar", {"a.isle": A_BAR, "b.isle": NEW + B_BAR}),
        ],
    ),
]

CHANGED = [
    Case(
        "disk: a file changes",
        TWO,
        [
            ("write", "b.isle", NEW + B),
            ("references", "a.isle", "foo", "a.isle:2:7", "b.isle:2:8"),
            ("rename", "a.isle", "foo", "bar", {"a.isle": A_BAR, "b.isle": NEW + B_BAR}),
        ],
    ),
    Case(
        "disk: a file changes right before a renaming",
        TWO,
        [
            ("references", "a.isle", "foo", "a.isle:2:7", "b.isle:1:8"),
            ("write", "b.isle", NEW + B),
            ("rename", "a.isle", "foo", "bar", {"a.isle": A_BAR, "b.isle": NEW + B_BAR}),
        ],
    ),
    Case(
        "disk: a file changes, and keeps its length and its times",
        TWO,
        [
            ("references", "a.isle", "foo", "a.isle:2:7", "b.isle:1:8"),
            ("write_alike", "b.isle", "(rule (foo y) y)\n"),
            ("write_alike", "b.isle", "(rule(foo  x) x)\n"),
            ("rename", "a.isle", "foo", "bar", {"a.isle": A_BAR, "b.isle": "(rule(bar  x) x)\n"}),
        ],
    ),
    Case(
        "disk: a definition changes its name",
        TWO,
        [
            ("definition", "b.isle", "foo", "a.isle:2:7"),
            ("write", "a.isle", A.replace("foo", "fox")),
            ("definition", "b.isle", "foo"),
            ("refused", "b.isle", "foo", "bar"),
            ("symbols", "fo", "fox a.isle:2:7"),
            ("write", "b.isle", B.replace("foo", "fox")),
            ("rename", "b.isle", "fox", "bar", TWO_BAR),
        ],
    ),
    Case(
        "disk: a file comes",
        TWO,
        [
            ("write", "c.isle", C),
            ("references", "a.isle", "foo", "a.isle:2:7", "b.isle:1:8", "c.isle:2:8", "c.isle:2:13"),
            ("outline", "c.isle"),
            ("rename", "c.isle", "foo#2", "bar", {**TWO_BAR, "c.isle": C_BAR}),
        ],
    ),
    Case(
        "disk: a file comes right before a renaming, in a folder that comes",
        TWO,
        [("write", "new/deep/c.isle", C), ("rename", "a.isle", "foo", "bar", {**TWO_BAR, "new/deep/c.isle": C_BAR})],
    ),
    Case(
        "disk: a file comes that has the new name",
        TWO,
        [
            ("write", "c.isle", "(decl bar (T) T)\n"),
            ("refused", "a.isle", "foo", "bar"),
            ("remove", "c.isle"),
            ("rename", "a.isle", "foo", "bar", TWO_BAR),
        ],
    ),
    Case(
        "disk: a file comes that is broken, and is mended",
        TWO,
        [
            ("write", "c.isle", "(decl bar (T) T"),
            ("refused", "a.isle", "foo", "baz"),
            ("write", "c.isle", "(decl bar (T) T)"),
            ("rename", "a.isle", "foo", "baz", {"a.isle": A.replace("foo", "baz"), "b.isle": B.replace("foo", "baz")}),
        ],
    ),
    Case(
        "disk: a file goes",
        {**TWO, "c.isle": C},
        [
            ("remove", "c.isle"),
            ("references", "a.isle", "foo", "a.isle:2:7", "b.isle:1:8"),
            ("rename", "a.isle", "foo", "bar", TWO_BAR),
            ("is_on_disk", "c.isle", None),
        ],
    ),
    Case(
        "disk: a file goes right before a renaming",
        {**TWO, "c.isle": C},
        [("remove", "c.isle"), ("rename", "a.isle", "foo", "bar", TWO_BAR), ("is_on_disk", "c.isle", None)],
    ),
    Case(
        "disk: a folder goes",
        {**TWO, "sub/c.isle": C, "sub/d.isle": "(decl sub (T) T)\n"},
        [("remove", "sub"), ("symbols", "", "T a.isle:1:7", "foo a.isle:2:7"), ("rename", "a.isle", "foo", "bar", TWO_BAR)],
    ),
    Case(
        "disk: the file goes that has the definition",
        TWO,
        [("remove", "a.isle"), ("definition", "b.isle", "foo"), ("refused", "b.isle", "foo", "bar"), ("symbols", "")],
    ),
    Case(
        "disk: a file gets another name",
        TWO,
        [
            ("move", "b.isle", "c.isle"),
            ("references", "a.isle", "foo", "a.isle:2:7", "c.isle:1:8"),
            ("rename", "a.isle", "foo", "bar", {"a.isle": A_BAR, "c.isle": B_BAR}),
            ("is_on_disk", "b.isle", None),
        ],
    ),
    Case(
        "disk: a folder gets another name",
        {"a.isle": A, "sub/b.isle": B},
        [("move", "sub", "other"), ("rename", "a.isle", "foo", "bar", {"a.isle": A_BAR, "other/b.isle": B_BAR})],
    ),
    Case(
        "disk: two files change their names with each other",
        TWO,
        [
            ("move", "a.isle", "c.txt"),
            ("move", "b.isle", "a.isle"),
            ("move", "c.txt", "b.isle"),
            ("definition", "a.isle", "foo", "b.isle:2:7"),
            ("rename", "a.isle", "foo", "bar", {"a.isle": B_BAR, "b.isle": A_BAR}),
        ],
    ),
    Case(
        "disk: the file of an open document changes: the document is what counts",
        TWO,
        [
            ("open", "b.isle"),
            ("write", "b.isle", NEW + B),
            ("references", "a.isle", "foo", "a.isle:2:7", "b.isle:1:8"),
            ("rename", "a.isle", "foo", "bar", TWO_BAR),
            ("close", "b.isle"),
            ("references", "a.isle", "bar", "a.isle:2:7"),
            ("definition", "b.isle", "foo"),
        ],
    ),
    Case(
        "disk: the file of an open document goes",
        TWO,
        [
            ("open", "b.isle"),
            ("remove", "b.isle"),
            ("rename", "a.isle", "foo", "bar", TWO_BAR),
            ("close", "b.isle"),
            ("references", "a.isle", "bar", "a.isle:2:7"),
        ],
    ),
    Case(
        "disk: a file stops being UTF-8, and is UTF-8 again",
        {**TWO, "c.isle": C},
        [
            ("write", "c.isle", C.encode() + b"; \xff\n"),
            ("rename", "a.isle", "foo", "bar", TWO_BAR),
            ("write", "c.isle", C_BAR),
            ("rename", "a.isle", "bar", "foo", {**TWO, "c.isle": C}),
        ],
    ),
    Case(
        "disk: a file becomes a folder, and a folder a file",
        {**TWO, "c.isle": C},
        [
            ("remove", "c.isle"),
            ("write", "c.isle/d.isle", C),
            ("references", "a.isle", "foo", "a.isle:2:7", "b.isle:1:8", "c.isle/d.isle:2:8", "c.isle/d.isle:2:13"),
            ("rename", "a.isle", "foo", "bar", {**TWO_BAR, "c.isle/d.isle": C_BAR}),
        ],
    ),
    Case(
        "disk: `git checkout` of another branch: files change, come and go together",
        {**TWO, "c.isle": C, "d.isle": "(decl gone (T) T)\n"},
        [
            ("open", "a.isle"),
            ("write", "b.isle", NEW + B),
            ("remove", "c.isle"),
            ("move", "d.isle", "e/d.isle"),
            ("write", "f.isle", C),
            ("symbols", "o", "foo a.isle:2:7", "gone e/d.isle:1:7"),
            ("rename", "b.isle", "foo", "bar", {"a.isle": A_BAR, "b.isle": NEW + B_BAR, "f.isle": C_BAR}),
        ],
    ),
]

# A name that editors spell in different ways, and how.
SIGNS = "b+c@d(e)=f,g.isle"
SIGNS_ESCAPED = "file://{root}/b%2Bc%40d%28e%29%3Df%2Cg.isle"
ACUTE = "é.isle"
ODD = " \"#<>?`{}%\\^!$&'*+,;=:@[]|~().isle"
ODD_ESCAPED = "file://{root}/%20%22%23%3C%3E%3F%60%7B%7D%25%5C%5E!$&'*+,;=:@[]|~().isle"
ODD_ALL_ESCAPED = "".join(["file://{root}/", *(f"%{ord(it):02x}" for it in ODD.removesuffix(".isle")), "%2Eisle"])


def spelt(name, file, open_as, ask_as, closed_as):
    """A file whose URI is spelt in two ways: opened in one, asked in the other."""
    files = {"a.isle": A, file: B}
    after = {"a.isle": A_BAR, file: B_BAR}
    return [
        Case(
            f"spelling: {name}: closed",
            files,
            [
                ("references", "a.isle", "foo", "a.isle:2:7", f"{closed_as}:1:8"),
                ("references", ask_as, "foo", "a.isle:2:7", f"{closed_as}:1:8"),
                ("symbols", "foo", "foo a.isle:2:7"),
                ("rename", open_as, "foo", "bar", after, [closed_as]),
                ("is_on_disk", file, B_BAR),
            ],
        ),
        Case(
            f"spelling: {name}: open",
            files,
            [
                ("open", open_as),
                ("references", "a.isle", "foo", "a.isle:2:7", f"{open_as}:1:8"),
                ("references", ask_as, "foo", "a.isle:2:7", f"{open_as}:1:8"),
                ("definition", ask_as, "foo", "a.isle:2:7"),
                ("insert", open_as, "", NEW),
                ("rename", "a.isle", "foo", "bar", {**after, file: NEW + B_BAR}, [open_as]),
            ],
        ),
        Case(
            f"spelling: {name}: open, saved and closed",
            files,
            [
                ("open", open_as),
                ("insert", open_as, "", NEW),
                ("save", open_as),
                ("close", open_as),
                ("rename", ask_as, "foo", "bar", {**after, file: NEW + B_BAR}, [closed_as]),
            ],
        ),
    ]


# `foo` and `$foo` stand right behind a number.
NUMBER = "(type T (primitive T))\n(decl f (T T) T)\n"
GLUED = NUMBER + "(rule (f 1foo) foo)\n"
GLUED_CONSTANT = NUMBER + "(extern const $foo T)\n(rule (f 1$foo) $foo)\n"

NUMBERS = [
    Case(
        "numbers: a name right behind one is not renamed, until a space stands between them",
        {"a.isle": GLUED},
        [
            ("refused", "a.isle", "foo", "bar"),
            ("refused", "a.isle", "foo", "zoo"),
            ("open", "a.isle"),
            ("whole", "a.isle", GLUED.replace("1foo", "1 foo")),
            ("rename", "a.isle", "foo#2", "bar", {"a.isle": GLUED.replace("1foo", "1 foo").replace("foo", "bar")}),
        ],
    ),
    Case(
        "numbers: a constant right behind one is renamed behind its dollar",
        {"a.isle": GLUED_CONSTANT},
        [("rename", "a.isle", "$foo", "bar", {"a.isle": GLUED_CONSTANT.replace("foo", "bar")})],
    ),
]

# `A.B` and `A.C` are variants. `P.Q.R` is a variant of two types.
VARIANTS = "(type A (enum (B (x A)) C))\n(decl foo (A) A)\n"
USES = "(rule (foo (A.B x)) (foo (A.C)))\n(extractor (bar x) (A.B x))\n"
DOUBLE = "(type P (enum Q.R S))\n(type P.Q (enum R))\n(rule (foo (P.Q.R)) (P.S))\n"
RENAMED = {"a.isle": VARIANTS.replace("(B ", "(Long "), "b.isle": USES.replace("A.B", "A.Long")}

VARIANT = [
    Case(
        "variants: one is renamed where it is declared, and back where it is used",
        {"a.isle": VARIANTS, "b.isle": USES},
        [
            ("rename", "a.isle", "B", "Long", RENAMED),
            ("rename", "b.isle", "A.Long#2", "B", {"a.isle": VARIANTS, "b.isle": USES}),
            ("refused", "b.isle", "A.B", "C"),
            ("refused", "a.isle", "B", "1"),
        ],
    ),
    Case(
        "variants: one that is a variant of another type, too, is not renamed",
        {"a.isle": VARIANTS, "b.isle": DOUBLE},
        [
            ("refused", "b.isle", "Q.R", "T"),
            ("refused", "b.isle", "R))", "T"),
            ("refused", "b.isle", "P.Q.R", "T"),
            ("rename", "b.isle", "P.S", "T", {"b.isle": DOUBLE.replace(" S)", " T)").replace("P.S", "P.T")}),
        ],
    ),
]

SPELT = [
    *spelt("signs escaped", SIGNS, SIGNS_ESCAPED, "file://{root}/" + SIGNS, "file://{root}/" + SIGNS),
    *spelt("signs bare", SIGNS, "file://{root}/" + SIGNS, SIGNS_ESCAPED, "file://{root}/" + SIGNS),
    *spelt("%c3%a9", ACUTE, "file://{root}/%c3%a9.isle", "file://{root}/%C3%A9.isle", "file://{root}/%C3%A9.isle"),
    *spelt("%C3%A9", ACUTE, "file://{root}/%C3%A9.isle", "file://{root}/%c3%A9.isle", "file://{root}/%C3%A9.isle"),
    *spelt("every sign there is", ODD, ODD_ALL_ESCAPED, ODD_ESCAPED, ODD_ESCAPED),
    *spelt("localhost", "b.isle", "file://localhost{root}/b.isle", "file://{root}/b.isle", "file://{root}/b.isle"),
    *spelt("letters escaped", "b.isle", "file://{root}/%62.isle", "file://{root}/b.isl%65", "file://{root}/b.isle"),
]

LINKED = [
    Case(
        "spelling: a document is opened by a link to its file",
        {**TWO, "link.isle": ("b.isle",)},
        [
            ("open", "link.isle", B),
            ("references", "a.isle", "foo", "a.isle:2:7", "link.isle:1:8"),
            ("insert", "link.isle", "", NEW),
            ("rename", "a.isle", "foo", "bar", {"a.isle": A_BAR, "b.isle": NEW + B_BAR}, ["file://{root}/link.isle"]),
        ],
    ),
    Case(
        "spelling: a link to a file, both closed",
        {**TWO, "link.isle": ("b.isle",)},
        [
            ("references", "a.isle", "foo", "a.isle:2:7", "b.isle:1:8"),
            ("definition", "link.isle", "foo", "a.isle:2:7"),
            ("rename", "link.isle", "foo", "bar", TWO_BAR, ["file://{root}/b.isle"]),
        ],
    ),
    Case(
        "spelling: an open document is asked about by a link to its file",
        {**TWO, "link.isle": ("b.isle",)},
        [
            ("open", "b.isle"),
            ("insert", "b.isle", "", NEW),
            ("definition", "link.isle", "foo", "a.isle:2:7"),
            ("references", "link.isle", "foo", "a.isle:2:7", "b.isle:2:8"),
            ("outline", "link.isle"),
            ("rename", "link.isle", "foo", "bar", {"a.isle": A_BAR, "b.isle": NEW + B_BAR}, ["file://{root}/b.isle"]),
        ],
    ),
    Case(
        "spelling: a document is opened by a link, saved and closed",
        {**TWO, "link.isle": ("b.isle",)},
        [
            ("open", "link.isle", B),
            ("insert", "link.isle", "", NEW),
            ("save", "link.isle"),
            ("close", "link.isle"),
            ("rename", "a.isle", "foo", "bar", {"a.isle": A_BAR, "b.isle": NEW + B_BAR}, ["file://{root}/b.isle"]),
        ],
    ),
    Case(
        "spelling: a document is opened by a link to its folder",
        TWO,
        [
            ("link", "../way", "root"),
            ("open", "file://{room}/way/b.isle"),
            ("references", "a.isle", "foo", "a.isle:2:7", "file://{room}/way/b.isle:1:8"),
            ("rename", "a.isle", "foo", "bar", TWO_BAR, ["file://{room}/way/b.isle"]),
        ],
    ),
    Case(
        "spelling: the folder is named by a link, documents by their real paths",
        {**TWO, "../way": ("root",)},
        [
            ("open", "b.isle"),
            ("references", "b.isle", "foo", "b.isle:1:8", "a.isle:2:7"),
            ("insert", "b.isle", "", NEW),
            ("rename", "b.isle", "foo", "bar", {"a.isle": A_BAR, "b.isle": NEW + B_BAR}),
        ],
        {"rootUri": "file://{room}/way"},
    ),
    Case(
        "spelling: the folder and its documents are named by a link",
        {**TWO, "../way": ("root",)},
        [
            ("open", "file://{room}/way/b.isle"),
            ("open", "file://{room}/way/a.isle"),
            ("definition", "file://{room}/way/b.isle", "foo", "file://{room}/way/a.isle:2:7"),
            ("close", "file://{room}/way/a.isle"),
            ("insert", "file://{room}/way/b.isle", "", NEW),
            ("rename", "file://{room}/way/b.isle", "foo", "bar", {"a.isle": A_BAR, "b.isle": NEW + B_BAR}),
        ],
        {"rootUri": "file://{room}/way"},
    ),
    Case(
        "spelling: a link leads to another file than before",
        {**TWO, "c.isle": C, "link.isle": ("b.isle",)},
        [
            ("definition", "link.isle", "foo", "a.isle:2:7"),
            ("remove", "link.isle"),
            ("link", "link.isle", "c.isle"),
            ("definition", "link.isle", "foo", "a.isle:2:7"),
            ("rename", "link.isle", "foo#2", "bar", {**TWO_BAR, "c.isle": C_BAR}),
        ],
    ),
]

BOTH = [{"uri": "file://{root}/one", "name": "one"}, {"uri": "file://{root}/two", "name": "two"}]
TWICE = {**{f"one/{path}": text for path, text in TWO.items()}, **{f"two/{path}": text for path, text in TWO.items()}}
ONE_BAR = {f"one/{path}": text for path, text in TWO_BAR.items()}

ROOTS = [
    Case("folders: rootUri alone", TWO, [("rename", "b.isle", "foo", "bar", TWO_BAR)], {"rootUri": "file://{root}"}),
    Case("folders: rootUri with a slash behind it", TWO, [("rename", "b.isle", "foo", "bar", TWO_BAR)], {"rootUri": "file://{root}/"}),
    Case("folders: rootUri with localhost", TWO, [("rename", "b.isle", "foo", "bar", TWO_BAR)], {"rootUri": "file://localhost{root}"}),
    Case("folders: rootUri with signs that are escaped", TWO, [("rename", "b.isle", "foo", "bar", TWO_BAR)], None, folder="my folder+é@1"),
    Case(
        "folders: rootUri with signs that are bare",
        TWO,
        [("open", "b.isle"), ("rename", "b.isle", "foo", "bar", TWO_BAR)],
        {"rootUri": "file://{room}/a+b@c(d)"},
        folder="a+b@c(d)",
    ),
    Case("folders: rootPath alone", TWO, [("rename", "b.isle", "foo", "bar", TWO_BAR)], {"rootPath": "{root}", "rootUri": None}),
    Case(
        "folders: workspaceFolders alone",
        TWO,
        [("rename", "b.isle", "foo", "bar", TWO_BAR)],
        {"rootUri": None, "workspaceFolders": [{"uri": "file://{root}", "name": "it"}]},
    ),
    Case(
        "folders: rootUri, rootPath and workspaceFolders that are one",
        TWO,
        [
            ("references", "b.isle", "foo", "a.isle:2:7", "b.isle:1:8"),
            ("rename", "b.isle", "foo", "bar", TWO_BAR),
        ],
        {"rootPath": "{root}", "rootUri": "file://{root}", "workspaceFolders": [{"uri": "file://{root}/", "name": "it"}]},
    ),
    Case(
        "folders: workspaceFolders null, and rootUri",
        TWO,
        [("rename", "b.isle", "foo", "bar", TWO_BAR)],
        {"rootUri": "file://{root}", "workspaceFolders": None},
    ),
    Case(
        "folders: workspaceFolders with localhost and escaped signs",
        TWO,
        [("open", "file://localhost{root}/b.isle"), ("rename", "a.isle", "foo", "bar", TWO_BAR)],
        {"workspaceFolders": [{"uri": "file://localhost{room}/%61+b", "name": "it"}]},
        folder="a+b",
    ),
    Case(
        "folders: two folders, each with its program",
        TWICE,
        [
            ("symbols", "foo", "foo one/a.isle:2:7", "foo two/a.isle:2:7"),
            ("definition", "two/b.isle", "foo", "two/a.isle:2:7"),
            ("rename", "one/b.isle", "foo", "bar", ONE_BAR),
            ("rename", "two/b.isle", "foo", "bar", {path.replace("one", "two"): text for path, text in ONE_BAR.items()}),
        ],
        {"rootUri": "file://{root}/one", "workspaceFolders": BOTH},
    ),
    Case(
        "folders: two folders, one in the other: each file is there once",
        {"a.isle": A, "two/b.isle": B},
        [
            ("symbols", "", "T a.isle:1:7", "foo a.isle:2:7"),
            ("references", "a.isle", "foo", "a.isle:2:7", "two/b.isle:1:8"),
            ("open", "two/b.isle"),
            ("references", "a.isle", "foo", "a.isle:2:7", "two/b.isle:1:8"),
            ("rename", "a.isle", "foo", "bar", {"a.isle": A_BAR, "two/b.isle": B_BAR}),
        ],
        {"workspaceFolders": [{"uri": "file://{root}", "name": "it"}, BOTH[1]]},
    ),
    Case(
        "folders: one folder twice, under two spellings and a link",
        {**TWO, "../way": ("root",)},
        [
            ("symbols", "foo", "foo a.isle:2:7"),
            ("rename", "b.isle", "foo", "bar", TWO_BAR),
        ],
        {"workspaceFolders": [{"uri": f"file://{it}", "name": "it"} for it in ("{root}", "localhost{root}/", "{room}/%77ay")]},
    ),
    Case(
        "folders: a folder is added, and taken away",
        TWICE,
        [
            ("symbols", "foo", "foo one/a.isle:2:7"),
            ("folders", [], []),
            ("folders", ["file://{root}/two"], []),
            ("symbols", "foo", "foo one/a.isle:2:7", "foo two/a.isle:2:7"),
            ("definition", "two/b.isle", "foo", "two/a.isle:2:7"),
            ("folders", [], ["file://{root}/one"]),
            ("symbols", "foo", "foo two/a.isle:2:7"),
            ("rename", "two/b.isle", "foo", "bar", {path.replace("one", "two"): text for path, text in ONE_BAR.items()}),
        ],
        {"workspaceFolders": BOTH[:1]},
    ),
    Case(
        "folders: a folder with an odd spelling is added and taken away",
        TWICE,
        [
            ("folders", ["file://localhost{root}/tw%6F/"], []),
            ("symbols", "foo", "foo one/a.isle:2:7", "foo two/a.isle:2:7"),
            ("folders", [], ["file://localhost{root}/tw%6F/"]),
            ("symbols", "foo", "foo one/a.isle:2:7"),
        ],
        {"workspaceFolders": BOTH[:1]},
    ),
    Case(
        "folders: the server says that it takes changes of folders",
        TWO,
        [
            ("can", "workspace", "workspaceFolders", "supported", True),
            ("can", "workspace", "workspaceFolders", "changeNotifications", True),
        ],
    ),
    Case(
        "folders: no folder: each document stands alone",
        TWO,
        [
            ("open", "a.isle"),
            ("open", "b.isle"),
            ("definition", "b.isle", "foo"),
            ("definition", "a.isle", "foo", "a.isle:2:7"),
            ("rename", "a.isle", "foo", "bar", {"a.isle": A_BAR}),
        ],
        {"rootUri": None},
    ),
    Case(
        "folders: a document outside of the folder stands alone",
        TWO,
        [
            ("open", "file://{room}/other.isle", A + C),
            ("references", "a.isle", "foo", "a.isle:2:7", "b.isle:1:8"),
            ("definition", "file://{room}/other.isle", "foo#3", "file://{room}/other.isle:2:7"),
            ("rename", "a.isle", "foo", "bar", TWO_BAR),
            ("open", "file://{room}/root2/broken.isle", "(decl"),
            ("rename", "a.isle", "bar", "foo", TWO),
            ("rename", "file://{room}/other.isle", "foo#2", "bar", {"../other.isle": A_BAR + C_BAR}),
        ],
    ),
    Case(
        "folders: a document without a file stands alone",
        TWO,
        [
            ("open", "untitled:Untitled-1", A + B),
            ("references", "a.isle", "foo", "a.isle:2:7", "b.isle:1:8"),
            ("references", "untitled:Untitled-1", "foo", "untitled:Untitled-1:2:7", "untitled:Untitled-1:3:8"),
            ("rename", "a.isle", "foo", "bar", TWO_BAR),
        ],
    ),
    Case(
        "disk: a client that can is asked to watch files",
        TWO,
        [("registers", "**/*.isle", "**/isle.toml")],
        {"rootUri": "file://{root}", "capabilities": {"workspace": {"didChangeWatchedFiles": {"dynamicRegistration": True}}}},
    ),
    Case("disk: a client that can't is not asked", TWO, [("registers",)]),
]

PLAIN = {"rootUri": "file://{root}", "capabilities": {"workspace": {"workspaceEdit": {"documentChanges": False}}}}

VERSIONS = [
    Case(
        "versions: an edit has the versions of open documents, and null for files",
        {**TWO, "c.isle": C},
        [
            ("open", "b.isle"),
            ("open", "c.isle"),
            ("insert", "c.isle", "", NEW),
            ("insert", "c.isle", "", NEW),
            ("rename", "a.isle", "foo", "bar", {**TWO_BAR, "c.isle": NEW + NEW + C_BAR}),
            ("rename", "a.isle", "bar", "foo", {**TWO, "c.isle": NEW + NEW + C}),
            ("save", "c.isle"),
            ("close", "c.isle"),
            ("rename", "a.isle", "foo", "bar", {**TWO_BAR, "c.isle": NEW + NEW + C_BAR}),
        ],
        versions=True,
    ),
    Case("versions: an edit of files alone has null versions", TWO, [("rename", "b.isle", "foo", "bar", TWO_BAR)], versions=True),
    Case(
        "versions: a document that is opened again has its new version",
        TWO,
        [
            ("open", "b.isle"),
            ("insert", "b.isle", "", NEW),
            ("close", "b.isle"),
            ("open", "b.isle"),
            ("rename", "b.isle", "foo", "bar", TWO_BAR),
        ],
        versions=True,
    ),
    Case(
        "versions: a client that announces no documentChanges gets changes",
        TWO,
        [("open", "b.isle"), ("rename", "b.isle", "foo", "bar", TWO_BAR)],
        PLAIN,
        versions=True,
    ),
    Case(
        "versions: a client that announces nothing gets changes",
        TWO,
        [("open", "b.isle"), ("rename", "b.isle", "foo", "bar", TWO_BAR)],
        {"rootUri": "file://{root}", "capabilities": {}},
        versions=True,
    ),
]

SURROGATES = [
    Case(
        "surrogates: a lone surrogate in a change",
        TWO,
        [
            ("open", "b.isle"),
            ("insert", "b.isle", "", "; \ud800 ;\n"),
            ("insert", "b.isle", "x", "(foo "),
            ("whole", "b.isle", "(rule (foo x) ; \udc00\n x)\n"),
            ("insert", "b.isle", "x#2", "(; é\ud800😀 ;) "),
            ("definition", "b.isle", "foo", "a.isle:2:7"),
            ("rename", "b.isle", "x#2", "y", {"b.isle": "(rule (foo y) ; \ufffd\n (; é\ufffd😀 ;) y)\n"}),
            ("rename", "a.isle", "foo", "bar", {"a.isle": A_BAR, "b.isle": "(rule (bar y) ; \ufffd\n (; é\ufffd😀 ;) y)\n"}),
        ],
    ),
    Case(
        "surrogates: a change behind a lone surrogate in its line",
        TWO,
        [
            ("open", "b.isle"),
            ("insert", "b.isle", "(rule", "(; \ud800 ;) "),
            ("insert", "b.isle", "x#2", "(foo (; \udfff ;) "),
            ("insert", "b.isle", "x#2", ") "),
            ("whole", "b.isle", "(; \ud800 ;) (rule (foo x) (foo (; \udfff ;) x))\n"),
            ("rename", "a.isle", "foo", "bar", {"a.isle": A_BAR, "b.isle": "(; \ufffd ;) (rule (bar x) (bar (; \ufffd ;) x))\n"}),
        ],
    ),
]

# Names behind characters of two and of four bytes: of one and of two units of UTF-16.
WIDE = {"a.isle": "(type T (primitive T))\n(; é😀 ;) (decl foo (T) T)\n", "b.isle": "(; 😀 ;) (rule (foo é) é)\n"}
WIDE_BAR = {path: text.replace("foo", "bar") for path, text in WIDE.items()}


def offering(*encodings):
    """What a client announces that offers these encodings."""
    return {"rootUri": "file://{root}", "capabilities": {"general": {"positionEncodings": list(encodings)}}}


def counting(encoding, first, second, begin):
    """The steps and the beginning of a case where `foo` is at these two places."""
    return [
        ("encoding", encoding),
        ("references", "a.isle", "foo", first, second),
        ("open", "b.isle"),
        ("insert", "b.isle", "é#2", "(; ü😀 ;) "),
        ("insert", "b.isle", "é#2", "(; ß ;) "),
        ("definition", "b.isle", "foo", first),
        ("rename", "b.isle", "é#2", "y", {"b.isle": "(; 😀 ;) (rule (foo y) (; ü😀 ;) (; ß ;) y)\n"}),
        ("insert", "b.isle", "(rule", "(; ß😀 ;) "),
        (
            "rename",
            "b.isle",
            "foo",
            "bar",
            {"a.isle": WIDE_BAR["a.isle"], "b.isle": "(; 😀 ;) (; ß😀 ;) (rule (bar y) (; ü😀 ;) (; ß ;) y)\n"},
        ),
    ], begin


ENCODINGS = [
    Case(
        "encodings: bytes of UTF-8, if the client offers them",
        WIDE,
        *counting("utf-8", "a.isle:2:20", "b.isle:1:19", offering("utf-16", "utf-32", "utf-8")),
    ),
    Case(
        "encodings: units of UTF-16, if the client offers no others that are known",
        WIDE,
        *counting("utf-16", "a.isle:2:17", "b.isle:1:17", offering("utf-32", "utf-16", "utf-7")),
    ),
    Case("encodings: units of UTF-16, if the client offers none", WIDE, *counting("utf-16", "a.isle:2:17", "b.isle:1:17", None)),
    Case("encodings: what is no text offers nothing", WIDE, [("encoding", "utf-16")], offering({"utf-8": 8}, 8, None)),
    Case(
        "encodings: what is no list offers nothing",
        WIDE,
        [("encoding", "utf-16")],
        {"rootUri": "file://{root}", "capabilities": {"general": {"positionEncodings": "utf-8"}}},
    ),
]

CASES = [*CLOSED, *CHANGED, *NUMBERS, *VARIANT, *SPELT, *LINKED, *ROOTS, *VERSIONS, *SURROGATES, *ENCODINGS]
