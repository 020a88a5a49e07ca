"""The lists of texts: definitions, and what they hold."""

from reading import BEGINS, tokens_of, tree_from


def lists_of(text):
    """The outermost lists of a text."""
    tokens, starts, number, found = tokens_of(text)[0], {it.start() for it in BEGINS.finditer(text)}, 0, []
    while number < len(tokens):
        if tokens[number].kind == "(":
            tree, number = tree_from(tokens, number, starts)
            found.append(tree)
        else:
            number += 1
    return found


def word(it):
    """The symbol that an item is, or that a list begins with."""
    first = it.items[0] if it.kind == "list" and it.items else it
    return first.text if first.kind == "symbol" else None


def lists_in(items):
    """The lists among items and in them."""
    for it in items:
        if it.kind == "list":
            yield it
            yield from lists_in(it.items)


def pattern_at(items):
    """How many items the pattern has with which these begin: `x @ P` is one."""
    count = 1
    while items[count : count + 1] and items[count].kind == "@":
        count += 2
    return count


def patterns_of(definition):
    """The items of a definition that are patterns, or hold them, without the root of a rule."""
    if word(definition) == "extractor":
        return definition.items[2:]
    rest = [it for number, it in enumerate(definition.items[1:]) if number > 1 or it.kind == "list" or not is_front(definition, number)]
    count = pattern_at(rest) if rest else 0
    root = [it for it in rest[:count] if it.kind == "list"]
    found = [part for it in root for part in it.items]
    for it in rest[count:]:
        if it.kind == "list" and word(it) == "if-let":
            found += it.items[1 : 1 + pattern_at(it.items[1:])]
    return found


def is_front(definition, number):
    """Whether an item behind `rule` is its name or its priority."""
    items = definition.items[1:]
    behind = items[number + 1 : number + 2]
    if items[number].kind == "literal":
        return True
    return number == 0 and items[number].kind == "symbol" and behind != [] and behind[0].kind != "@"
