"""A client of isle-lsp over real folders, which holds documents as an editor does and makes the edits of an answer."""

import bisect
import json
import os
import queue
import re
import resource
import subprocess
import threading
import time
import urllib.parse

from frames import frame, messages

# Bytes that a program has for its stack where nobody sets a limit. Programs with AddressSanitizer need several times as many.
STACK = int(os.environ.get("ISLE_STACK", 8 << 20))
PATIENCE = 20  # seconds of processor time for one answer
SILENCE = 120  # seconds for one answer, on a machine that is busy with other things
ESCAPED = {*range(0x20), *range(0x7F, 0x100), *b' "#<>?`{}%\\^'}
LINE_END = re.compile(r"\r\n|\r|\n")
CREATED, CHANGED, DELETED = 1, 2, 3


class Wrong(Exception):
    """Why an answer is not what it must be."""


def uri_of(path):
    """The URI of a path, as Rust's crate `url` spells it."""
    return "file://" + "".join("%%%02X" % it if it in ESCAPED else chr(it) for it in os.fsencode(path))


def path_of(uri):
    """The real path in the URI of a file, however it is spelt."""
    parts = urllib.parse.urlsplit(uri)
    if parts.scheme != "file" or parts.netloc not in ("", "localhost"):
        raise Wrong(f"{uri} is no URI of a file")
    return os.path.realpath(urllib.parse.unquote(uri.split("://", 1)[1].removeprefix(parts.netloc)))


def read_text(path):
    """The text of a file, or None if there is none in UTF-8."""
    try:
        with open(path, "rb") as file:
            return file.read().decode()
    except (OSError, UnicodeDecodeError):
        return None


def write_text(path, text):
    """Writes a file, and the folders that it needs."""
    os.makedirs(os.path.dirname(path), exist_ok=True)
    with open(path, "wb") as file:
        file.write(text if isinstance(text, bytes) else text.encode())


def units_of(text, encoding):
    """How many units of an encoding a text has."""
    return len(text.encode()) if encoding == "utf-8" else len(text) + sum(it > "\uffff" for it in text)


class Lines:
    """Positions in a text: lines and units of an encoding."""

    # The encoding where none is given.
    usual = "utf-16"

    def __init__(self, text, encoding=None):
        self.text, self.encoding = text, encoding or Lines.usual
        self.starts = [0, *(it.end() for it in LINE_END.finditer(text))]
        self.is_ascii = text.isascii()

    def position(self, offset):
        """The position of a place."""
        line = bisect.bisect_right(self.starts, offset) - 1
        if self.is_ascii:
            return {"line": line, "character": offset - self.starts[line]}
        before = self.text[self.starts[line] : offset]
        return {"line": line, "character": units_of(before, self.encoding)}

    def range(self, start, end):
        return {"start": self.position(start), "end": self.position(end)}

    def offset(self, position):
        """The place of a position, which must be one of the text."""
        line, units = position["line"], position["character"]
        if line >= len(self.starts):
            raise Wrong(f"an edit is in line {line + 1} of {len(self.starts)}")
        offset = self.starts[line]
        if self.is_ascii:
            end = self.starts[line + 1] - 1 if line + 1 < len(self.starts) else len(self.text)
            end -= self.text[end - 1 : end + 1] == "\r\n"
            ahead = min(units, end - offset)
            offset, units = offset + ahead, units - ahead
        while units > 0 and offset < len(self.text) and self.text[offset] not in "\r\n":
            units -= units_of(self.text[offset], self.encoding)
            offset += 1
        if units != 0:
            raise Wrong(f"an edit is at line {line + 1}, character {position['character']}, where the text has none")
        return offset


def edited(text, edits, encoding=None):
    """A text after edits, which must not overlap."""
    lines = Lines(text, encoding)
    places = sorted((lines.offset(it["range"]["start"]), lines.offset(it["range"]["end"]), it["newText"]) for it in edits)
    made, done = [], 0
    for start, end, new in places:
        if start < done or end < start:
            raise Wrong(f"edits overlap at {lines.position(start)}")
        made += [text[done:start], new]
        done = end
    return "".join([*made, text[done:]])


class Document:
    """An open document, under the URI by which the client named it."""

    def __init__(self, uri, text):
        self.uri, self.text, self.version = uri, text, 1


class Client:
    """A running server, and the documents that are open in it."""

    def __init__(self, binary, begin, stack=STACK):
        """`begin` are the parameters of `initialize`."""

        def limit():
            resource.setrlimit(resource.RLIMIT_STACK, (stack, stack))

        self.process = subprocess.Popen(
            [binary], stdin=subprocess.PIPE, stdout=subprocess.PIPE, stderr=subprocess.PIPE, preexec_fn=limit
        )
        self.documents, self.published, self.asked, self.count = {}, {}, [], 0
        self.versions_matter = True
        self.arrived, self.faults = queue.Queue(), []
        self.threads = [threading.Thread(target=it, daemon=True) for it in (self.receive, self.hear)]
        for thread in self.threads:
            thread.start()
        self.versions = begin.get("capabilities", {}).get("workspace", {}).get("workspaceEdit", {}).get("documentChanges", False)
        self.answered = self.request("initialize", begin)
        self.encoding = self.answered.get("result", {}).get("capabilities", {}).get("positionEncoding", "utf-16")
        self.notify("initialized", {})

    def receive(self):
        """Reads messages until there are no more."""
        try:
            for message in messages(self.process.stdout):
                self.arrived.put(message)
        except (ValueError, OSError):
            pass
        self.arrived.put(None)

    def hear(self):
        """Reads what the server complains of."""
        for line in self.process.stderr:
            self.faults.append(line.decode(errors="replace").rstrip())

    def send(self, data):
        try:
            self.process.stdin.write(data)
            self.process.stdin.flush()
        except (BrokenPipeError, OSError):
            raise self.ended() from None

    def ended(self):
        """What to say where the server is gone."""
        try:
            status = self.process.wait(10)
        except subprocess.TimeoutExpired:
            return Wrong("the server closes its output, and runs on")
        self.threads[1].join(1)
        said = "; ".join(self.faults[-2:])
        return Wrong(f"the server ends with {status}" + (f" ({said[:200]})" if said else ""))

    def notify(self, method, parameters):
        self.send(frame(method, parameters))

    def request(self, method, parameters):
        """The answer to a request: its message, with `result` or `error`."""
        self.count += 1
        number = self.count
        self.send(frame(method, parameters, id=number))
        return self.wait(method, lambda it: it.get("id") == number and "method" not in it)

    def wait(self, what, is_it):
        """The next message that is wanted. What the server asks is answered, and what it publishes is kept."""
        begun, worked = time.monotonic(), self.processor_time()
        while True:
            try:
                message = self.arrived.get(timeout=1)
            except queue.Empty:
                took, waited = self.processor_time() - worked, time.monotonic() - begun
                if took < PATIENCE and waited < SILENCE:
                    continue
                self.process.kill()
                raise Wrong(f"no answer to {what} in {took:.0f} seconds of processor time, {waited:.0f} in all") from None
            if message is None:
                raise self.ended()
            if "method" in message and "id" in message:
                self.asked.append(message)
                self.send(frame_of_answer(message["id"]))
            elif message.get("method") == "textDocument/publishDiagnostics":
                self.published[message["params"]["uri"]] = message["params"]
            if is_it(message):
                return message

    def result(self, method, parameters):
        """The result of a request that must have one."""
        answer = self.request(method, parameters)
        if "error" in answer:
            raise Wrong(f"{method} is refused: {answer['error'].get('message')}")
        return answer["result"]

    def reported(self, uri):
        """What is published of a document as it is, if anything is. The server answers in order, so a request waits for it."""
        self.result("workspace/symbol", {"query": "no such name"})
        return self.published.get(uri)

    # ---- documents

    def open(self, uri, text):
        self.documents[uri] = Document(uri, text)
        words = {"uri": uri, "languageId": "isle", "version": 1, "text": text}
        self.notify("textDocument/didOpen", {"textDocument": words})

    def change(self, uri, start, end, new):
        """Replaces a part of a document."""
        document = self.documents[uri]
        change = {"range": Lines(document.text, self.encoding).range(start, end), "text": new}
        self.send_changes(document, [change], document.text[:start] + new + document.text[end:])

    def replace(self, uri, text):
        """Gives a document another text as a whole."""
        self.send_changes(self.documents[uri], [{"text": text}], text)

    def send_changes(self, document, changes, text):
        document.text, document.version = text, document.version + 1
        self.documents[document.uri] = self.documents.pop(document.uri)  # it is the last that was changed
        words = {"uri": document.uri, "version": document.version}
        self.notify("textDocument/didChange", {"textDocument": words, "contentChanges": changes})

    def save(self, uri):
        write_text(path_of(uri), self.documents[uri].text)
        self.notify("textDocument/didSave", {"textDocument": {"uri": uri}})

    def close(self, uri):
        del self.documents[uri]
        self.notify("textDocument/didClose", {"textDocument": {"uri": uri}})

    def told(self, changes):
        """Tells of files that have changed: paths with what became of each."""
        told = [{"uri": uri_of(path), "type": kind} for path, kind in changes]
        self.notify("workspace/didChangeWatchedFiles", {"changes": told})

    # ---- edits

    def renamed(self, uri, position, new):
        """What a renaming makes of the texts: by real path the text after it, and the URI by which it is named. Nothing is written yet."""
        words = {"textDocument": {"uri": uri}, "position": position, "newName": new}
        return self.after(self.result("textDocument/rename", words))

    def after(self, edit):
        """What an edit of the workspace makes of the texts. Each file may be named once, and versions must be right."""
        texts = {}
        for uri, edits in self.parts(edit or {"changes": {}}):
            path = path_of(uri)
            if path in texts:
                raise Wrong(f"one file is edited twice, as {texts[path][1]} and as {uri}")
            document = self.documents.get(uri)
            if document is None and path in [path_of(it) for it in self.documents if it.startswith("file:")]:
                raise Wrong(f"{uri} is not how the client spells that document")
            text = document.text if document else read_text(path)
            if text is None:
                raise Wrong(f"{uri} is edited, and there is no such text")
            try:
                texts[path] = (edited(text, edits, self.encoding), uri)
            except Wrong as wrong:
                raise Wrong(f"{os.path.basename(path)}: {wrong}") from None
        return texts

    def parts(self, edit):
        """The edits of each document, whose version is looked at if there is one."""
        if self.versions_matter and self.versions != ("documentChanges" in edit):
            raise Wrong(f"the edit has {', '.join(edit)}, and the client announces documentChanges: {self.versions}")
        if "documentChanges" not in edit:
            return list(edit["changes"].items())
        for of in [it["textDocument"] for it in edit["documentChanges"]]:
            document = self.documents.get(of["uri"])
            wanted = document.version if document else None
            if self.versions_matter and of.get("version", "nothing") != wanted:
                raise Wrong(f"{of['uri']} has version {of.get('version', 'nothing')} in the edit, wanted {wanted}")
        return [(it["textDocument"]["uri"], it["edits"]) for it in edit["documentChanges"]]

    def make(self, texts):
        """Makes what `after` gave, in documents and on the disk. The paths are given that are written on the disk."""
        written = []
        for path, (text, uri) in texts.items():
            if uri in self.documents:
                self.replace(uri, text)
            else:
                write_text(path, text)
                written.append(path)
        return written

    def processor_time(self):
        """The seconds of processor time that the server has used."""
        try:
            with open(f"/proc/{self.process.pid}/schedstat") as file:
                return int(file.read().split()[0]) / 1e9
        except (OSError, IndexError):  # it is gone
            return 0.0

    def end(self):
        """Ends the session, and gives the status."""
        self.request("shutdown", None)
        self.notify("exit", None)
        self.process.stdin.close()
        status = self.process.wait(SILENCE)
        if status != 0:
            raise self.ended()

    def stop(self):
        """Sees to it that nothing runs on."""
        self.process.kill()
        self.process.wait()
        for thread in self.threads:
            thread.join(5)
        for stream in (self.process.stdin, self.process.stdout, self.process.stderr):
            try:
                stream.close()
            except OSError:
                pass


def frame_of_answer(number):
    """The answer to what a server asks: nothing."""
    body = json.dumps({"jsonrpc": "2.0", "id": number, "result": None}).encode()
    return b"Content-Length: %d\r\n\r\n%s" % (len(body), body)
