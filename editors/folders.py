"""Folders with programs: copies of them, and the texts and the programs that a moment has."""

import functools
import os
import re

from client import path_of, read_text, uri_of
from reading import reading

CANON = re.compile(r" \(canon (?:\([^()]*\)|\w+)\)")  # a part of forms in older sources of Cranelift, left out of a copy
FLAGS = ("pure", "multi", "partial", "rec")
PROGRAMS = {
    "one": ["prelude.isle", "types.isle", "inst.isle", "lower", "made/absent.isle"],
    "two": ["prelude.isle", "extract*.isle", "opts", "types.isle"],
}
TOML = "".join(f'[[program]]\nname = "{name}"\nfiles = [{", ".join(map(repr, files))}]\n'.replace("'", '"') for name, files in PROGRAMS.items())


class Text:
    """A text of the moment: an open document, or a file that is not open."""

    def __init__(self, uri, path, text, is_open):
        self.uri, self.path, self.text, self.is_open = uri, path, text, is_open

    @functools.cached_property
    def reading(self):
        return reading(self.text)

    def location(self, mark):
        return {"uri": self.uri, "range": self.reading.range(mark)}


def folders_above(path, root):
    """The folder of a path and those around it, up to the root."""
    folder = os.path.dirname(path)
    while folder.startswith(root):
        yield folder
        folder = os.path.dirname(folder)


@functools.lru_cache(maxsize=64)
def declared_in_lines(text):
    """The names that the lines declare which begin with `(decl `."""
    lines = ([it for it in rest.split() if it not in FLAGS] for rest in re.findall(r"^\(decl ([^\n]*)", text, re.M))
    return [re.split(r"[();]", words[0])[0] for words in lines if words]


def are_apart(one, other):
    """Whether neither of two folders is the other, or above it."""
    return not f"{other}/".startswith(f"{one}/") and not f"{one}/".startswith(f"{other}/")


def closed_files(folder):
    """The ISLE files below a folder, in order. Hidden folders and links are left out."""
    for path in sorted(f"{folder}/{it}" for it in os.listdir(folder)):
        if os.path.islink(path):
            continue
        if os.path.isdir(path):
            if not os.path.basename(path).startswith("."):
                yield from closed_files(path)
        elif path.endswith(".isle"):
            yield path


class Truth:
    """The texts of a moment: the files on the disk, as they are open or there, then the other open documents, the last changed one last."""

    def __init__(self, root, documents, has_toml):
        self.root, self.has_toml = root, has_toml
        opened = {path_of(it.uri): Text(it.uri, path_of(it.uri), it.text, True) for it in documents}
        files = [(path, read_text(path)) for path in closed_files(root)]
        files = [opened.pop(path, None) or Text(uri_of(path), path, text, False) for path, text in files if text is not None]
        self.texts = [*files, *opened.values()]

    def is_inside(self, text):
        return text.path.startswith(self.root + "/")

    @functools.cached_property
    def programs(self):
        """The programs, each as the set of its texts' paths. A text that is in none stands alone."""
        inside = [it for it in self.texts if self.is_inside(it)]
        if self.has_toml:
            return [{it.path for it in inside if self.is_listed(it, files)} for files in PROGRAMS.values()]
        folders = {}
        for it in inside:
            for name in declared_in_lines(it.text):
                folders.setdefault(name, set()).add(os.path.dirname(it.path))
        if not any(are_apart(one, other) for found in folders.values() for one in found for other in found):
            return [{it.path for it in inside}]
        above = {it.path: set(folders_above(it.path, self.root)) for it in inside}
        return [{it.path for it in inside if os.path.dirname(it.path) in above[path]} for path in above]

    def is_known(self, text):
        """Whether a text is one of a program. A client asks about others only while they are open."""
        return any(text.path in it for it in self.programs)

    def is_listed(self, text, files):
        path = os.path.relpath(text.path, self.root)
        return any(path == it or path.startswith(it + "/") or ("*" in it and path.startswith(it.split("*")[0])) for it in files)

    def whole_programs(self, text):
        """The programs that have a text and lack no file, each as its texts in their order."""
        ordered = sorted((it for it in self.texts if self.is_inside(it)), key=lambda it: os.fsencode(it.path))
        if not self.has_toml:
            return [[it for it in ordered if it.path in paths] for paths in self.programs if text.path in paths]
        listed = [{file: [it for it in ordered if self.is_listed(it, [file])] for file in files} for files in PROGRAMS.values()]
        whole = [it for it in listed if all(found or "*" in file or not file.endswith(".isle") for file, found in it.items())]
        programs = [list(dict.fromkeys(it for found in program.values() for it in found)) for program in whole]
        return [it for it in programs if text in it]

    def around(self, text):
        """The texts among which a name of a text is looked up: those of all programs that have the text."""
        near = {text.path}.union(*(it for it in self.programs if text.path in it))
        return [it for it in self.texts if it.path in near]

    def are_shared(self, text, paths):
        """Whether a program has one of the paths that lacks the text."""
        return any(it & set(paths) for it in self.programs if text.path not in it)


def copied(folder):
    """What a copy of the ISLE files below a folder holds: texts by their paths in it."""
    folder = os.path.realpath(folder)
    texts = {os.path.relpath(path, folder): read_text(path) for path in closed_files(folder)}
    return {path: CANON.sub("", text) for path, text in texts.items() if text is not None}
