"""An independent reading of the types of variables: what a rule's patterns bind, as upstream's compiler types them, and where it is mentioned."""

import functools
import sys
from typing import NamedTuple

from reading import reading, tokens_of

MOST_DEEP = 500  # so many patterns, or expressions, may lie in one another once templates are filled and conversions are written out
BUILT_IN = {"bool", *(f"{sign}{size}" for sign in "iu" for size in (8, 16, 32, 64, 128, "size"))}
sys.setrecursionlimit(20_000)


class Deep(Exception):
    """More lies in one another than is typed."""


class Term(NamedTuple):
    args: list
    ret: str
    is_variant: bool = False


class Node(NamedTuple):
    """A pattern or an expression: `kind` is `var`, `bind`, `bool`, `int`, `const`, `term`, `any`, `and`, `arg` or `let`."""

    kind: str
    name: object = None  # of a variable, a term or a constant; the number of an argument; the definitions of a `let`
    parts: tuple = ()
    end: int = 0  # where the name of a variable ends


def lists_of(tokens):
    """The lists of tokens that parse, as lists of tokens and lists."""
    open_lists = [[]]
    for it in tokens:
        if it.kind == "(":
            open_lists.append([])
        elif it.kind == ")":
            closed = open_lists.pop()
            open_lists[-1].append(closed)
        else:
            open_lists[-1].append(it)
    return open_lists[0]


def word(it):
    return it.text if not isinstance(it, list) else None


def atom(it):
    if it.kind == "literal":
        return Node("int")
    if it.text in ("true", "false"):
        return Node("bool")
    if it.text.startswith("$"):
        return Node("const", it.text[1:])
    return Node("var", it.text, (), it.end)


def patterns(items):
    """Patterns one after another, some of them with a name before an `@`."""
    found, at = [], 0
    while at < len(items):
        names = []
        while at + 1 < len(items) and word(items[at + 1]) == "@":
            names.append(items[at])
            at += 2
        made = pattern(items[at])
        for name in reversed(names):
            made = Node("bind", name.text, (made,), name.end)
        found.append(made)
        at += 1
    return tuple(found)


def pattern(it):
    if not isinstance(it, list):
        return Node("any") if it.text == "_" else atom(it)
    head, *rest = it
    return Node("and", None, patterns(rest)) if head.text == "and" else Node("term", head.text, patterns(rest))


def expression(it):
    if not isinstance(it, list):
        return atom(it)
    head, *rest = it
    if head.text != "let":
        return Node("term", head.text, tuple(map(expression, rest)))
    defined = [(name.text, ty.text, expression(value)) for name, ty, value in rest[0]]
    return Node("let", defined, (expression(rest[1]),))


def filled(it, args):
    """A template with arguments in the places of its parameters; None if one of these has none."""
    if it.kind == "arg":
        return args[it.name] if it.name < len(args) else None
    parts = tuple(filled(part, args) for part in it.parts)
    return None if None in parts else it._replace(parts=parts)


def template(it, names):
    """A pattern with a place for each parameter: `x`, or `x @ _`."""
    is_place = it.kind == "var" or (it.kind == "bind" and it.parts[0].kind == "any")
    if is_place and it.name in names:
        return Node("arg", names.index(it.name))
    return it._replace(parts=tuple(template(part, names) for part in it.parts))


class Rule(NamedTuple):
    left: Node
    conditions: list  # pairs of a pattern and an expression
    right: Node

    def patterns(self):
        return [self.left, *(left for left, _ in self.conditions)]

    def expressions(self):
        return [*(value for _, value in self.conditions), self.right]


def rule_of(items):
    """A rule, behind its keyword: it may begin with a name and a priority."""
    for kind in ("symbol", "literal"):
        if not isinstance(items[0], list) and items[0].kind == kind:
            items = items[1:]
    count = 1
    while len(items) > count and word(items[count]) == "@":
        count += 2
    [left], rest, conditions = patterns(items[:count]), items[count:], []
    while isinstance(rest[0], list) and word(rest[0][0]) in ("if", "if-let"):
        (head, *words), *rest = rest
        found = (Node("any"), expression(words[0])) if head.text == "if" else (patterns(words[:-1])[0], expression(words[-1]))
        conditions.append(found)
    return Rule(left, conditions, expression(rest[0]))


class Typing:
    """Types the rules of a program. A text that does not parse must be empty."""

    def __init__(self, texts):
        self.types, self.constants, self.terms, self.declared, self.templates, self.converters = set(BUILT_IN), {}, {}, {}, {}, {}
        self.constructed, self.extracted, self.rules, self.number = set(), set(), [], 0
        for self.number, text in enumerate(texts):
            for begin, end in reading(text).definitions:
                [(head, *items)] = lists_of(tokens_between(text, begin, end))
                getattr(self, f"define_{head.text}", lambda _: None)(items)
        self.terms.update(self.declared)  # a declaration counts before a variant

    def define_type(self, items):
        name, value = items[0].text, next(it for it in items if isinstance(it, list))
        self.types.add(name)
        for variant in value[1:] if value[0].text == "enum" else ():
            short, *fields = variant if isinstance(variant, list) else [variant]
            full = f"{name}.{short.text}"
            self.terms[full] = Term([it[1].text if isinstance(it, list) else it.text for it in fields], name, True)
            self.constructed.add(full)
            self.extracted.add(full)

    def define_decl(self, items):
        while word(items[0]) in ("pure", "multi", "partial", "rec"):
            items = items[1:]
        self.declared[items[0].text] = Term([it.text for it in items[1]], items[2].text)

    def define_extern(self, items):
        words = [it.text for it in items]
        if words[0] == "const":
            self.constants[words[1][1:]] = words[2]
        elif words[0] == "constructor":
            self.constructed.add(words[1])
        else:
            self.extracted.add(words[-2])

    def define_extractor(self, items):
        term, *names = items[0]
        self.templates[term.text] = template(patterns(items[1:])[0], [it.text for it in names])
        self.extracted.add(term.text)

    def define_convert(self, items):
        inner, outer, term = (it.text for it in items)
        self.converters.setdefault((inner, outer), term)

    def define_rule(self, items):
        rule = rule_of(items)
        if rule.left.kind == "term":
            self.constructed.add(rule.left.name)
        self.rules.append((self.number, rule))

    # ---- extractors that have no end

    def is_endless(self):
        """Whether an extractor is one of a variant, or reaches one that uses itself."""
        return any(it in self.terms and (self.terms[it].is_variant or self.reaches_itself(it)) for it in self.templates)

    def reaches_itself(self, name):
        seen, left = set(), [name]
        while left:
            used = [it for it in heads(self.templates[left.pop()]) if it in self.terms and it in self.templates]
            if name in used:
                return True
            left += [it for it in used if it not in seen]
            seen.update(used)
        return False

    # ---- patterns

    def pattern(self, it, ty, depth):
        """The type of a pattern where a value of a type is; None if it has none. Binds its variables."""
        if depth == 0:
            raise Deep
        if it.kind == "var":
            known = self.find(it.name)
            if known is None:
                self.bound.append((it.name, ty))
            return known or ty
        if it.kind == "bind":
            found = self.pattern(it.parts[0], ty, depth - 1)
            if found:
                self.bound.append((it.name, found))
            return found
        if it.kind == "const":
            return self.constants.get(it.name)
        if it.kind == "and":
            for part in it.parts:
                self.pattern(part, ty, depth - 1)
            return ty
        if it.kind == "term":
            return self.term_pattern(it, ty, depth)
        return {"bool": "bool", "arg": None}.get(it.kind, ty)

    def term_pattern(self, it, ty, depth):
        term = self.terms.get(it.name)
        if term is None:
            return None
        converter = self.converters.get((term.ret, ty)) if term.ret != ty else None
        if converter in self.extracted:
            return self.pattern(Node("term", converter, (it,)), ty, depth - 1)
        if it.name in self.templates:
            made = filled(self.templates[it.name], it.parts)
            return self.pattern(made, ty, depth - 1) if made else None
        self.arguments(it.parts, term.args, depth)
        return term.ret

    def arguments(self, parts, types, depth):
        for part, ty in zip(parts, types):
            self.pattern(part, ty, depth - 1)

    def find(self, name):
        """The type of the last variable of this name."""
        return next((ty for known, ty in reversed(self.bound) if known == name), None)

    # ---- expressions

    def expression(self, it, wanted, depth):
        """The type of an expression where one of a type is wanted, or any; None if it has none."""
        if depth == 0:
            raise Deep
        if it.kind == "int":
            return wanted
        if it.kind == "bool":
            return "bool"
        if it.kind == "const":
            known = self.constants.get(it.name)
            return known if wanted in (None, known) else None
        if it.kind == "let":
            count = len(self.bound)
            for name, ty, value in it.name:
                if ty in self.types and self.expression(value, ty, depth - 1):
                    self.bound.append((name, ty))
            found = self.expression(it.parts[0], wanted, depth - 1)
            del self.bound[count:]
            return found
        term = self.terms.get(it.name)
        found = self.find(it.name) if it.kind == "var" else term and term.ret
        if found is None:
            return None
        converter = self.converters.get((found, wanted)) if wanted not in (None, found) else None
        if converter in self.constructed:
            return self.expression(Node("term", converter, (it,)), wanted, depth - 1)
        if it.kind == "term":
            for part, ty in zip(it.parts, term.args):
                self.expression(part, ty, depth - 1)
        return found

    # ---- rules

    def variables(self, rule):
        """The types of the variables of a rule, by their names."""
        self.bound = []
        term = self.terms.get(rule.left.name) if rule.left.kind == "term" else None
        if term is None:
            return {}
        try:
            self.arguments(rule.left.parts, term.args, MOST_DEEP + 1)
            for left, value in rule.conditions:
                found = self.expression(value, None, MOST_DEEP)
                if found:
                    self.pattern(left, found, MOST_DEEP)
            self.expression(rule.right, term.ret, MOST_DEEP)
        except Deep:
            return {}
        return dict(self.bound)

    @functools.lru_cache(maxsize=None)
    def hints(self, number):
        """The types of the variables in the text of a number, each with the end of its first mention."""
        if self.is_endless():
            return []
        found = []
        for rule in [rule for at, rule in self.rules if at == number]:
            types, seen = self.variables(rule), set()
            for it in [it for part in rule.patterns() for it in mentions(part)]:
                if it.name not in seen and it.name in types:
                    found.append((it.end, types[it.name]))
                seen.add(it.name)
        return found

    def typed_at(self, number, end):
        """The variable of a rule in the text of a number that is mentioned up to an offset, with its type, as `x : T`; None if it has none."""
        if self.is_endless():
            return None
        for rule in [rule for at, rule in self.rules if at == number]:
            found = [it for part in rule.patterns() for it in mentions(part)] + [it for part in rule.expressions() for it in uses(part)]
            for it in [it for it in found if it.end == end]:
                ty = self.variables(rule).get(it.name)
                return f"{it.name} : {ty}" if ty else None
        return None


def tokens_between(text, begin, end):
    """The tokens of a definition."""
    return [it._replace(start=it.start + begin, end=it.end + begin) for it in tokens_of(text[begin:end])[0]]


def heads(it):
    """The terms of a pattern."""
    return [*([it.name] if it.kind == "term" else []), *(head for part in it.parts for head in heads(part))]


def mentions(it):
    """The variables of a pattern, in the order of the text."""
    return [*([it] if it.kind in ("var", "bind") else []), *(found for part in it.parts for found in mentions(part))]


def uses(it, hidden=()):
    """The variables that an expression uses and does not bind itself."""
    if it.kind == "var":
        return [it] if it.name not in hidden else []
    found = []
    for name, _, value in it.name if it.kind == "let" else ():
        found += uses(value, hidden)
        hidden = (*hidden, name)
    return found + [one for part in it.parts for one in uses(part, hidden)]


@functools.lru_cache(maxsize=16)
def typing(texts):
    return Typing(texts)
