"""Plays a client of tools/language-server: for its tests and for what measures it."""
import json
import os
import queue
import subprocess
import threading
import time

HERE = os.path.dirname(os.path.realpath(__file__))
# What a client may say that takes all that the server has.
CAPABILITIES = {
    "general": {"positionEncodings": ["utf-16"]},
    "textDocument": {
        "hover": {"contentFormat": ["markdown", "plaintext"]},
        "completion": {"completionItem": {"snippetSupport": True}},
        "publishDiagnostics": {
            "relatedInformation": True,
            "tagSupport": {"valueSet": [1, 2]},
            "codeDescriptionSupport": True,
        },
    },
}


class Failed(Exception):
    """The answer to a request is an error: a code and a text."""


class Client:
    """A client and its server, which is started for it. Raises TimeoutError where nothing comes."""

    def __init__(self, environment=None, **more):
        self.server = subprocess.Popen(
            [f"{HERE}/language-server"],
            stdin=subprocess.PIPE,
            stdout=subprocess.PIPE,
            env={**os.environ, **(environment or {})},
            **more,
        )
        self.number, self.told, self.answers = 0, queue.Queue(), queue.Queue()
        self.is_whole = True
        threading.Thread(target=self.read, daemon=True).start()

    def begin(self, capabilities=None, **params):
        """Initializes the server; what it answers."""
        given = CAPABILITIES if capabilities is None else capabilities
        found = self.ask("initialize", capabilities=given, processId=None, **params)
        self.tell("initialized")
        return found

    def read(self):
        """Reads what the server writes; anything but frames isn't whole."""
        source = self.server.stdout
        while line := source.readline():
            name, _, length = line.partition(b": ")
            if name != b"Content-Length" or source.readline() != b"\r\n":
                self.is_whole = False
                break
            body = source.read(int(length))
            message = json.loads(body) if len(body) == int(length) else None
            if message is None:
                self.is_whole = False
            elif "method" in message:
                self.told.put(message)
            else:
                self.answers.put(message)
        self.answers.put(None)

    def write(self, data):
        """Writes bytes, whatever they are."""
        self.server.stdin.write(data)
        self.server.stdin.flush()

    def send(self, message):
        body = json.dumps({"jsonrpc": "2.0", **message}).encode()
        self.write(b"Content-Length: %d\r\n\r\n%s" % (len(body), body))

    def tell(self, method, **params):
        self.send({"method": method, "params": params})

    def request(self, method, **params):
        """Sends a request, and gives its number."""
        self.number += 1
        self.send({"id": self.number, "method": method, "params": params})
        return self.number

    def answer(self, seconds=60):
        """The next answer, as a message; None where the server has ended."""
        try:
            return self.answers.get(timeout=seconds)
        except queue.Empty:
            raise TimeoutError("no answer comes") from None

    def ask(self, method, **params):
        """The answer to a request. Raises Failed where that is an error."""
        number, found = self.request(method, **params), self.answer()
        if found is None or found["id"] != number:
            raise Failed(0, f"{found} answers {method}")
        if "error" in found:
            raise Failed(found["error"]["code"], found["error"]["message"])
        return found["result"]

    def open(self, uri, text, version=1):
        given = {"uri": uri, "languageId": "xduce", "version": version, "text": text}
        self.tell("textDocument/didOpen", textDocument=given)

    def change(self, uri, version, *changes):
        given = {"uri": uri, "version": version}
        self.tell("textDocument/didChange", textDocument=given, contentChanges=list(changes))

    def close(self, uri):
        self.tell("textDocument/didClose", textDocument={"uri": uri})

    def diagnostics(self, uri, version=None, seconds=60):
        """The next diagnostics of a text, of a version if one is named."""
        until = time.monotonic() + seconds
        while True:
            try:
                message = self.told.get(timeout=max(until - time.monotonic(), 0))
            except queue.Empty:
                raise TimeoutError(f"no diagnostics of {uri} come") from None
            params = message["params"]
            if message["method"] == "textDocument/publishDiagnostics" and params["uri"] == uri:
                if version is None or params.get("version") == version:
                    return params["diagnostics"]

    def settled(self, uri, version=None, quiet=0.5):
        """The last diagnostics of a text, behind which none come for some time."""
        found = self.diagnostics(uri, version)
        while True:
            try:
                found = self.diagnostics(uri, version, quiet)
            except TimeoutError:
                return found

    def end(self):
        """Ends the server as the protocol says; its status."""
        self.ask("shutdown")
        self.tell("exit")
        return self.server.wait(60)
