"""An independent reading of ISLE: the names of texts, where they are defined and used, and what renaming one makes of the texts."""

import bisect
import functools
import math
import re
from typing import NamedTuple, Optional

from client import Lines

TYPE, TERM, CONSTANT, VARIABLE = "type", "term", "constant", "variable"
RESERVED = {"_", "true", "false", "and", "let", "if", "rule", "pure", "multi", "partial", "rec"}
SKIPPED = re.compile(r"(?:[ \t\r\n]+|;[^\r\n]*)*")
COMMENT_END = re.compile(r"\(;|;\)")
LITERAL = re.compile(r"-?(?:0[xXoObB])?[0-9A-Fa-f_]*")
SYMBOL = re.compile(r"[^();@\f \t\r\n]+")
# How definitions are read, by their words.
DEFINITIONS = {it: it for it in "type decl rule extractor extern convert attr spec model form instantiate".split()}
DEFINITIONS |= {"macro": "other", "state": "other"}
# A definition begins here, whatever lists are open before it.
BEGINS = re.compile(rf"(?<![^\r\n])\((?:pragma|{'|'.join(DEFINITIONS)})(?![^();@\f \t\r\n])")
RADIXES = {"x": 16, "o": 8, "b": 2}
# So many broken definitions of one text are passed over.
MOST_BROKEN = 100


class Mark(NamedTuple):
    """A place where a name is."""

    kind: str
    name: str  # in full, without the `$` of a constant; that of a variant has its type's name in front
    start: int
    end: int
    defines: bool
    binder: Optional[int] = None  # where a variable is bound, if it is
    owner: Optional[str] = None  # the type of the variant that is defined here
    whole: tuple = ()  # what is defined here, from where to where
    implements: bool = False  # whether it is the root of a rule or an extractor, or what an `extern` is about


class Refused(Exception):
    """A definition that does not parse."""


class Token(NamedTuple):
    kind: str  # `(`, `)`, `@`, `literal` or `symbol`
    text: str
    start: int
    end: int


def is_identifier(text):
    """Whether a symbol is an identifier. Of characters outside ASCII letters and digits count."""
    first, *rest = text
    return (first.isalpha() or first in "_$") and all(it.isalpha() or it.isnumeric() or it in "_$." for it in rest)


def literal_has_value(text):
    """Whether a literal is a number of at most 128 bits."""
    digits = text.removeprefix("-")
    radix = RADIXES.get(digits[1:2].lower(), 10) if digits[:1] == "0" else 10
    digits = (digits[2:] if radix != 10 else digits).replace("_", "")
    try:
        number = int(digits, radix)
    except ValueError:
        return False
    return number < 1 << (127 if text.startswith("-") else 128)


def comment_end(text, start):
    """Where the block comment ends that begins here, or None."""
    depth = 0
    for found in COMMENT_END.finditer(text, start):
        depth += 1 if found[0] == "(;" else -1
        if depth == 0:
            return found.end()
    return None


@functools.lru_cache(maxsize=64)
def tokens_of(text):
    """The tokens of a text, and whether they stop at what is no token."""
    tokens, at = [], 0
    while True:
        at = SKIPPED.match(text, at).end()
        if at == len(text):
            return tokens, False
        first = text[at]
        if text.startswith("(;", at):
            at = comment_end(text, at)
            if at is None:
                return tokens, True
            continue
        if first in "()@":
            kind, end = first, at + 1
        elif first == "\f":
            return tokens, True
        elif first in "0123456789" or (first == "-" and SYMBOL.match(text, at + 1)):
            kind, end = "literal", LITERAL.match(text, at).end()
            if not literal_has_value(text[at:end]):
                return tokens, True
        else:
            kind, end = "symbol", SYMBOL.match(text, at).end()
        tokens.append(Token(kind, text[at:end], at, end))
        at = end


class Reader:
    """Reads the definitions of a text, one after another, and marks its names."""

    def __init__(self, tokens):
        self.tokens, self.at, self.marks, self.bound, self.mute = tokens, 0, [], [], False
        # whether a template is read, and the variables that templates leave to the rules that use their extractors
        self.in_template, self.left = False, set()

    # ---- tokens

    def peek(self):
        return self.tokens[self.at] if self.at < len(self.tokens) else Token("end", "", 0, 0)

    def next(self, kind=None):
        token = self.peek()
        if token.kind == "end" or (kind and token.kind != kind):
            raise Refused
        self.at += 1
        return token

    def eat(self, word):
        """Whether this word is next, which is then read."""
        found = self.peek().kind == "symbol" and self.peek().text == word
        self.at += found
        return found

    def name(self):
        token = self.next("symbol")
        if not is_identifier(token.text):
            raise Refused
        return token

    def until_closed(self, read):
        """Reads until the list ends, and its `)`."""
        found = []
        while self.peek().kind != ")":
            found.append(read())
        return found, self.next(")")

    def in_list(self, read):
        """Reads what stands in parentheses."""
        self.next("(")
        found = read()
        self.next(")")
        return found

    def skip_list(self):
        """Passes over what is left of a list, and its `)`."""
        depth = 1
        while depth:
            depth += {"(": 1, ")": -1}.get(self.next().kind, 0)

    # ---- marks

    def mark(self, kind, token, defines=False, **more):
        if not self.mute:
            name = token.text[1:] if kind == CONSTANT else token.text
            self.marks.append(Mark(kind, more.pop("name", name), token.start, token.end, defines, **more))

    def uses(self, kind, **more):
        token = self.name()
        self.mark(kind, token, **more)
        return token

    def binder(self, name):
        """Where a variable is bound that is in scope: the last one of this name."""
        return next((start for text, start in reversed(self.bound) if text == name), None)

    def occurs(self, token):
        """A variable in a pattern: the first one binds it."""
        if self.mute:
            return
        binder = self.binder(token.text)
        if binder is None:
            binder = token.start
            self.bound.append((token.text, binder))
        self.mark(VARIABLE, token, binder == token.start, binder=binder)

    # ---- patterns and expressions

    def atom(self):
        """A literal, a constant or a word; or the symbol of a variable."""
        token = self.next()
        if token.kind == "literal" or token.text in ("true", "false"):
            return None
        if token.kind != "symbol" or not is_identifier(token.text):
            raise Refused
        if token.text.startswith("$"):
            self.mark(CONSTANT, token)
            return None
        return token

    def pattern(self):
        if self.peek().kind == "(":
            self.next()
            if not self.eat("and"):
                self.uses(TERM)
            self.until_closed(self.pattern)
        elif not self.eat("_"):
            token = self.atom()
            if token:
                self.occurs(token)
                is_named = self.peek().kind == "@"
                if self.in_template and (is_named or self.marks[-1].defines):
                    self.left.add(token.text)
                if is_named:
                    self.next()
                    self.pattern()

    def expression(self):
        if self.peek().kind != "(":
            token = self.atom()
            if token:
                binder = self.binder(token.text)
                self.mark(VARIABLE, token, False, binder=binder)
            return
        self.next()
        if not self.eat("let"):
            self.uses(TERM)
            self.until_closed(self.expression)
            return
        self.next("(")
        defined, _ = self.until_closed(self.let)
        self.expression()
        self.next(")")
        if not self.mute and defined:
            del self.bound[-len(defined) :]

    def let(self):
        """A definition of a `let`: the variable is in scope behind its value."""
        self.next("(")
        token = self.name()
        self.uses(TYPE)
        self.expression()
        self.next(")")
        if not self.mute:
            self.bound.append((token.text, token.start))
            self.mark(VARIABLE, token, True, binder=token.start)

    def condition(self):
        """`(if-let P X)` or `(if X)`. The variables of P are bound behind X."""
        self.next("(")
        if self.eat("if"):
            self.expression()
        else:
            self.next("symbol")
            begin, self.mute = self.at, True
            self.pattern()
            self.mute = False
            self.expression()
            end, self.at = self.at, begin
            self.pattern()
            self.at = end
        self.next(")")

    def is_condition(self):
        ahead = self.tokens[self.at : self.at + 2]
        return len(ahead) == 2 and ahead[0].kind == "(" and ahead[1].text in ("if", "if-let")

    # ---- definitions

    def rule(self):
        if self.peek().kind == "symbol":
            self.name()
        if self.peek().kind == "literal":
            self.next()
        place, root = len(self.marks), self.tokens[self.at + 1 : self.at + 2] if self.peek().kind == "(" else []
        self.pattern()
        for mark in self.marks[place : place + 1]:
            if root and root[0].start == mark.start:
                self.marks[place] = mark._replace(implements=True)
        while self.is_condition():
            self.condition()
        self.expression()
        self.next(")")

    def extractor(self):
        self.next("(")
        self.uses(TERM, implements=True)
        self.until_closed(lambda: self.occurs(self.name()))
        self.in_template = True
        self.pattern()
        self.in_template = False
        self.next(")")

    def decl(self):
        for flag in ("pure", "multi", "partial", "rec"):
            self.eat(flag)
        start, token = self.begun, self.name()
        place = len(self.marks)
        self.next("(")
        self.until_closed(lambda: self.uses(TYPE))
        self.uses(TYPE)
        end = self.next(")").end
        self.marks.insert(place, Mark(TERM, token.text, token.start, token.end, True, whole=(start, end)))

    def type(self):
        start, token, place = self.begun, self.name(), len(self.marks)
        while self.eat("extern") or self.eat("nodebug"):
            pass
        self.next("(")
        if self.eat("primitive"):
            self.name()
            self.next(")")
        elif self.eat("enum"):
            self.until_closed(lambda: self.variant(token))
        elif self.eat("struct"):
            self.fields()
        else:
            raise Refused
        end = self.next(")").end
        self.marks.insert(place, Mark(TYPE, token.text, token.start, token.end, True, whole=(start, end)))

    def variant(self, owner):
        if self.peek().kind == "(":
            start, token, place = self.next().start, self.name(), len(self.marks)
            end = self.fields().end
        else:
            token, place = self.name(), len(self.marks)
            start, end = token.start, token.end
        name = f"{owner.text}.{token.text}"
        self.marks.insert(place, Mark(TERM, name, token.start, token.end, True, owner=owner.text, whole=(start, end)))

    def fields(self):
        """The fields of a variant or a struct, all named or none, and the `)`."""
        if self.peek().kind == "(":
            return self.until_closed(lambda: self.in_list(lambda: (self.name(), self.uses(TYPE))))[1]
        return self.until_closed(lambda: self.uses(TYPE))[1]

    def extern(self):
        start = self.begun
        if self.eat("const"):
            token, place = self.next("symbol"), len(self.marks)
            if token.text[0] != "$" or not is_identifier(token.text):
                raise Refused
            self.uses(TYPE)
            end = self.next(")").end
            self.marks.insert(place, Mark(CONSTANT, token.text[1:], token.start, token.end, True, whole=(start, end)))
            return
        if self.eat("extractor"):
            self.eat("infallible")
        elif not self.eat("constructor"):
            raise Refused
        self.uses(TERM, implements=True)
        self.name()
        self.next(")")

    def convert(self):
        self.uses(TYPE)
        self.uses(TYPE)
        self.uses(TERM)
        self.next(")")

    def attr(self):
        if self.eat("rule"):
            self.name()
        else:
            self.uses(TERM)
        self.until_closed(self.attribute)

    def attribute(self):
        self.next("(")
        if self.eat("tag"):
            self.name()
        elif not self.eat("veri") or not (self.eat("chain") or self.eat("priority")):
            raise Refused
        self.next(")")

    def spec(self):
        self.next("(")
        self.uses(TERM)
        self.until_closed(self.name)
        self.skip_list()

    def model(self):
        """`(model I (type M))`, which names a type, or `(model I (const E))`."""
        token = self.name()
        self.next("(")
        if self.eat("type"):
            self.mark(TYPE, token)
        elif not self.eat("const"):
            raise Refused
        self.skip_list()
        self.next(")")

    def form(self):
        self.name()
        self.until_closed(self.signature)

    def instantiate(self):
        self.uses(TERM)
        if self.peek().kind == "(":
            self.until_closed(self.signature)
        else:
            self.name()
            self.skip_list()

    def signature(self):
        """`((args M..) (ret M))`: what else a list of it has is not read."""
        self.next("(")
        for word in ("args", "ret"):
            self.next("(")
            if not self.eat(word):
                raise Refused
            self.skip_list()
        self.next(")")

    def other(self):
        self.skip_list()

    def definition(self):
        self.begun = self.next("(").start
        word = self.next("symbol").text
        if word not in DEFINITIONS:
            raise Refused
        self.bound = []
        getattr(self, DEFINITIONS[word])()


class Reading:
    """What is known of a text: the names of the definitions that parse."""

    def __init__(self, text):
        self.text, self.lines = text, Lines(text)
        self.marks, self.left, self.definitions, self.broken = [], set(), [], 0
        start = 0
        while start is not None and self.broken < MOST_BROKEN:
            start = self.read_piece(" " * start + text[start:])
        # Definitions are told in the order of the text, and those of a type before its variants.
        self.symbols = [it for it in self.marks if it.defines and it.kind != VARIABLE]
        self.marks.sort(key=lambda it: it.start)
        self.declared = {it.name for it in self.symbols if it.kind == TERM and it.owner is None}

    def read_piece(self, piece):
        """Reads definitions up to one that is broken, and returns the next line behind its start that begins with `(`, if there is one."""
        tokens, is_faulty = tokens_of(piece)
        reader, known, behind = Reader(tokens), 0, 0
        while reader.at < len(tokens):
            try:
                reader.definition()
            except Refused:
                break
            if is_faulty and reader.at == len(tokens):
                break  # nobody knows whether the definition before a lexical error ends there
            known, behind = len(reader.marks), reader.at
            self.definitions.append((reader.begun, tokens[behind - 1].end))
        self.marks += reader.marks[:known]
        self.left |= reader.left
        if behind == len(tokens) and not is_faulty:
            return None
        self.broken += 1
        line = piece.find("\n(", tokens[behind].start if behind < len(tokens) else 0)
        return None if line < 0 else line + 1

    @property
    def is_broken(self):
        return self.broken > 0

    def is_plain(self, mark):
        """Whether the tokens of the whole text tell that a mark is in its definition: a line begins with that, and nothing hides either."""
        begun = next(start for start, end in self.definitions if start <= mark.start < end)
        return BEGINS.match(self.text, begun) is not None and {begun, mark.start} <= self.starts

    @functools.cached_property
    def callers(self):
        """The names that definitions implement, each with where its definition begins and ends."""
        return [(it, next(whole for whole in self.definitions if whole[0] <= it.start < whole[1])) for it in self.marks if it.implements]

    def called(self, callers):
        """The terms in these definitions besides the names that they implement, each with its places, in the order of the first symbols that are
        like their names."""
        roots = {root.start for root, _ in callers}
        found = {}
        for begin, end in sorted({whole for _, whole in callers}):
            inside = (bisect.bisect_left(self.parts, (it, math.inf)) for it in (begin, end - 1))
            for start, _, it in self.parts[slice(*inside)]:
                if start not in roots:
                    marks = found.setdefault(it if isinstance(it, str) else it.name, [])
                    marks += [it] if isinstance(it, Mark) else []
        return {name: marks for name, marks in found.items() if marks}

    @functools.cached_property
    def parts(self):
        """The terms, and the texts of symbols, each with where it begins and ends, in the order of their places."""
        parts = [(it.start, it.end, it) for it in self.marks if it.kind == TERM]
        parts += [(it.start, it.end, it.text) for it in tokens_of(self.text)[0] if it.kind == "symbol"]
        return sorted(parts, key=lambda it: it[:2])

    @functools.cached_property
    def starts(self):
        return {it.start for it in tokens_of(self.text)[0]}

    def at(self, offset):
        """The name at a place, or right before it."""
        return next((it for it in self.marks if it.start <= offset <= it.end), None)

    def range(self, mark):
        return self.lines.range(mark.start, mark.end)

    def list_around(self, offset):
        """From where to where the innermost list around a place is."""
        opened = []
        for it in tokens_of(self.text)[0]:
            if it.kind == "(":
                opened.append(it.start)
            elif it.kind == ")":
                start = opened.pop()
                if start < offset < it.end:
                    return start, it.end
        return None


class Tree(NamedTuple):
    """A list of a text, as far as it is written: tokens and lists."""

    start: int
    end: float
    items: list
    kind: str = "list"


def tree_from(tokens, number, starts):
    """The list that begins with a token, and the number of the token behind it. Where a definition starts, one without its `)` ends."""
    start, items, number = tokens[number].start, [], number + 1
    while number < len(tokens) and tokens[number].start not in starts:
        it, number = tokens[number], number + 1
        if it.kind == ")":
            return Tree(start, it.end, items), number
        if it.kind == "(":
            it, number = tree_from(tokens, number - 1, starts)
        items.append(it)
    return Tree(start, tokens[number].start + 1 if number < len(tokens) else math.inf, items), number


def arguments_in(items, offset):
    """The arguments among the items behind the head of a list that end before an offset: those that an `@` joins are one."""
    found = []
    for it in items[1:]:
        if it.end < offset or (it.kind == "@" and it.end == offset):
            if found and "@" in (it.kind, found[-1][-1].kind):
                found[-1].append(it)
            else:
                found.append([it])
    return found


def head_before(items, offset):
    """The symbol with which these begin, if it ends before an offset."""
    return next((it.text for it in items[:1] if it.kind == "symbol" and it.end < offset), None)


def call_in(definition, offset):
    """The call around a place in a definition: the innermost of the lists around it that stand where the grammar has a pattern or an
    expression, unless the place is directly in the bindings of a `let`, or in one of them."""
    if head_before(definition.items, offset) not in ("rule", "extractor"):
        return None
    around, role, call = definition, "definition", None
    while True:
        inner = next((it for it in around.items if it.kind == "list" and it.start < offset < it.end), None)
        if inner is None:
            return call
        if role == "value" and head_before(around.items, offset) == "let" and len(arguments_in(around.items, inner.start)) == 0:
            role, call = "bindings", None
        elif role == "bindings":
            role, call = "binding", None
        else:
            role, head, ended = "value", head_before(inner.items, offset), arguments_in(inner.items, offset)
            goes_on = ended and ended[-1][-1].kind == "@"
            call = (head, len(ended) - bool(goes_on)) if head else call
        around = inner


def call_around(text, offset):
    """The symbol that the innermost call around a place begins with, and how many arguments end before the place, or None."""
    tokens, starts, number = tokens_of(text)[0], {it.start() for it in BEGINS.finditer(text)}, 0
    while number < len(tokens):
        if tokens[number].kind != "(":
            number += 1
            continue
        tree, number = tree_from(tokens, number, starts)
        if tree.start < offset < tree.end:
            return call_in(tree, offset)
    return None


TYPES, TERMS, VALUES, NOTHING = {TYPE}, {TERM, "variant"}, {TERM, "variant", CONSTANT, VARIABLE}, set()
EVERYTHING = {TYPE, *VALUES}


class Open:
    """A list that is open at a place: its items before the place, where a symbol is its text and a list or a number None."""

    def __init__(self):
        self.items, self.goes_on = [], False

    def add(self, item):
        self.items[-1:] = [None] if self.goes_on else [*self.items[-1:], item]
        self.goes_on = False

    @property
    def number(self):
        """How many items are before the one at the place."""
        return len(self.items) - self.goes_on

    @property
    def head(self):
        return self.items[0] if self.items else None


def offered(text, offset):
    """The kinds of names and the keywords that may stand at a place, by the lists around it; None behind what is no token."""
    tokens, is_faulty = tokens_of(text)
    before = [it for it in tokens if it.end < offset or (it.end == offset and it.kind in "()@")]
    if is_faulty and len(before) == len(tokens):
        return None
    begins = [
        number
        for number, (one, other) in enumerate(zip(before, before[1:]))
        if one.kind == "(" and text[one.start - 1 : one.start] in ("", "\n", "\r") and one.end == other.start and other.text in DEFINITIONS
    ]
    lists = []
    for it in before[begins[-1] if begins else 0 :]:
        if it.kind == "(":
            lists.append(Open())
        elif it.kind == ")":
            lists[-1:] = []
            if lists:
                lists[-1].add(())
        elif lists and it.kind == "@":
            lists[-1].goes_on = True
        elif lists:
            lists[-1].add(it.text if it.kind == "symbol" else None)
    if not lists:
        return EVERYTHING, []
    if not lists[0].items:
        return (NOTHING, sorted(DEFINITIONS)) if len(lists) == 1 else (EVERYTHING, [])
    return OFFERED.get(lists[0].head, lambda *lists: (EVERYTHING, []))(*lists)


def offered_in_decl(outer, *inner):
    """In `(decl FLAG.. NAME (TYPE..) TYPE)`."""
    is_type = len(inner) == (() not in outer.items)
    return (TYPES if is_type else EVERYTHING), []


def offered_in_type(_, value=None, *inner):
    """In `(type NAME MODIFIER.. VALUE)`: the value begins with a keyword, and types are the fields, or the second items of fields."""
    if not value:
        return EVERYTHING, []
    if not value.items:
        return (NOTHING, ["enum", "primitive", "struct"]) if not inner else (EVERYTHING, [])
    fields = {"enum": inner, "struct": (value, *inner)}.get(value.head, ())
    are_types = (len(fields) == 1 and fields[0].number > 0) or (len(fields) == 2 and fields[0].number > 0 and fields[1].number > 0)
    return (TYPES if are_types else EVERYTHING), []


def offered_in_convert(outer, *inner):
    return (EVERYTHING if inner or outer.number > 3 else TERMS if outer.number == 3 else TYPES), []


def offered_in_extern(outer, *inner):
    """In `(extern constructor TERM NAME)`, `(extern extractor [infallible] TERM NAME)` and `(extern const CONSTANT TYPE)`."""
    if inner:
        return EVERYTHING, []
    if outer.number == 1:
        return NOTHING, ["const", "constructor", "extractor"]
    words = outer.items[1:]
    if words[0] == "const":
        return (TYPES if len(words) > 1 else EVERYTHING), []
    is_term = words in (["constructor"], ["extractor"], ["extractor", "infallible"])
    return (TERMS if is_term else EVERYTHING), (["infallible"] if words == ["extractor"] else [])


def offered_in_rule(outer, *inner):
    """In `(rule [NAME] [PRIORITY] PATTERN CONDITION.. EXPRESSION)`: the first list is the pattern."""
    if not inner:
        return VALUES, []
    if () not in outer.items:
        return offered_in_pattern(*inner)
    first, *rest = inner
    if not first.items:
        return (EVERYTHING, []) if rest else (TERMS, ["if", "if-let", "let"])
    if first.head == "if-let" and first.number == 1:
        return offered_in_pattern(*rest) if rest else (VALUES, [])
    return offered_in_expression(*rest) if rest and first.head != "let" else offered_in_expression(*inner)


def offered_in_extractor(outer, *inner):
    """In `(extractor (NAME VARIABLE..) PATTERN)`."""
    if not inner:
        return (VALUES if () in outer.items else EVERYTHING), []
    found, words = offered_in_pattern(*inner)
    return found, words if () in outer.items or len(inner) > 1 else []


def offered_in_pattern(*lists):
    if not all(it.items for it in lists[:-1]):
        return EVERYTHING, []
    return (VALUES, []) if lists[-1].items else (TERMS, ["and"])


def offered_in_expression(first, *rest):
    if not first.items:
        return (EVERYTHING, []) if rest else (TERMS, ["let"])
    if first.head != "let" or first.number > 1:
        return offered_in_expression(*rest) if rest else (VALUES, [])
    if len(rest) < 2 or rest[1].number == 0:  # where the definitions of a `let` are, or the name in one
        return EVERYTHING, []
    _, definition, *rest = rest
    if definition.number == 1:
        return (EVERYTHING if rest else TYPES), []
    return offered_in_expression(*rest) if rest else (VALUES, [])


OFFERED = {
    "decl": offered_in_decl, "type": offered_in_type, "convert": offered_in_convert, "extern": offered_in_extern, "rule": offered_in_rule,
    "extractor": offered_in_extractor,
}  # fmt: skip


def parameters(declaration, is_variant):
    """From where to where the parameters of a declaration are."""
    tokens, depth, found = tokens_of(declaration)[0], 0, []
    begin = 2 if is_variant else next((at for at, it in enumerate(tokens) if at and it.kind == "("), len(tokens)) + 1
    for it in tokens[begin:]:
        if depth == 0 and it.kind == ")":
            break
        if depth == 0:
            found.append([it.start, it.end])
        depth += (it.kind == "(") - (it.kind == ")")
        found[-1][1] = it.end
    return found


@functools.lru_cache(maxsize=512)
def reading(text):
    return Reading(text)


class Renaming:
    """What renaming makes of texts. The name is that of a mark in the text of a number; the texts are readings."""

    def __init__(self, texts, number, mark, new):
        self.texts, self.number, self.mark, self.new = texts, number, mark, new
        self.name, self.kind = mark.name, mark.kind
        self.all = [it for text in texts for it in text.marks] if self.kind != VARIABLE else texts[number].marks
        self.variants = {it.name for it in self.all if it.owner == self.name} if self.kind == TYPE else set()
        self.owners = {it.owner for it in self.all if it.owner and it.name == self.name} if self.kind == TERM else set()
        self.front = f"{min(self.owners)}." if self.owners else ""  # what stays of a variant's name

    def is_same(self, mark):
        if self.kind == VARIABLE:
            return mark.kind == VARIABLE and mark.binder is not None and mark.binder == self.mark.binder
        return mark.kind == self.kind and mark.name == self.name

    def has(self, kind, name):
        return any(it.kind == kind and it.name == name for it in self.all)

    def refusal(self):
        """Why the name can't be renamed, or None."""
        if any(it.is_broken for it in self.texts):
            return "a text is broken"
        if not self.new or not is_identifier(self.new) or self.new.startswith("$") or self.new in RESERVED:
            return "no name"
        defined = [it for it in self.all if self.is_same(it) and it.defines]
        if not defined:
            return "undefined"
        if len(self.owners) > 1:
            return "a variant of several types"
        if self.is_taken():
            return "taken"
        return "captured" if self.kind == VARIABLE and self.is_captured() else None

    def is_taken(self):
        if self.kind == VARIABLE:
            return False
        if self.has(self.kind, self.front + self.new):
            return True
        moved = {self.new + it.removeprefix(self.name) for it in self.variants}
        shared = any(it.owner not in (None, self.name) and it.name in self.variants for it in self.all)
        return shared or any(it.kind == TERM and it.name in moved for it in self.all)

    def is_captured(self):
        """Whether the variables of the text have other binders afterwards, or may have them once extractors are expanded."""
        if any({self.name, self.new} & it.left for it in self.texts):
            return True
        before, after = (self.binders(it) for it in (self.texts[self.number], Reading(self.after(self.texts[self.number]))))
        return before != after

    @staticmethod
    def binders(text):
        """For each variable which one binds it, by number."""
        variables = [it for it in text.marks if it.kind == VARIABLE]
        numbers = {it.start: number for number, it in enumerate(variables)}
        return [None if it.binder is None else numbers[it.binder] for it in variables]

    def places(self, text):
        """What is replaced in a text."""
        sign = 1 if self.kind == CONSTANT else 0
        for it in text.marks:
            if self.is_same(it):
                yield it.start + sign + (0 if it.owner else len(self.front)), it.end
            elif self.kind == TYPE and it.kind == TERM and it.name in self.variants and it.owner is None:
                yield it.start, it.start + len(self.name)

    def after(self, text):
        """The text after the renaming."""
        made, done = [], 0
        for start, end in self.places(text):
            made += [text.text[done:start], self.new]
            done = end
        return "".join([*made, text.text[done:]])

    def changed(self):
        """By number the texts that change, after the renaming."""
        numbers = [self.number] if self.kind == VARIABLE else range(len(self.texts))
        return {it: self.after(self.texts[it]) for it in numbers if any(True for _ in self.places(self.texts[it]))}
