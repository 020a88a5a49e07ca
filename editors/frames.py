"""Messages of the Language Server Protocol, as they go over a pipe."""

import json


def frame(method, parameters, **more):
    """A message as bytes; with `id` it is a request."""
    body = json.dumps({"jsonrpc": "2.0", "method": method, "params": parameters, **more}).encode()
    return b"Content-Length: %d\r\n\r\n%s" % (len(body), body)


def messages(stream):
    """The messages that a stream of bytes holds."""
    while header := stream.readline():
        stream.readline()
        yield json.loads(stream.read(int(header.removeprefix(b"Content-Length: "))))


def opening(uri, text):
    """The message that opens a text."""
    return frame("textDocument/didOpen", {"textDocument": {"uri": uri, "languageId": "isle", "version": 1, "text": text}})


def changing(uri, changes):
    """The message that changes a text."""
    return frame("textDocument/didChange", {"textDocument": {"uri": uri, "version": 2}, "contentChanges": changes})


BEGIN = frame("initialize", {"capabilities": {}}, id="begin") + frame("initialized", {})
END = frame("shutdown", None, id="end") + frame("exit", None)
