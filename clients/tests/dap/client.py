"""A client of the adapter, for tests: it writes and reads messages, each within a time limit.

It speaks the Debug Adapter Protocol, and not Rewind's commands, so it is no session of `support.session`.
"""
from __future__ import annotations

import json
import os
import select
import subprocess
import sys
import time
from typing import Any, Optional

from support.places import CLIENTS, SESSIONS, TOP

from .schema import published

HERE = os.path.dirname(os.path.abspath(__file__))
REPOSITORY, DATA, ADAPTER = str(TOP), str(SESSIONS), str(CLIENTS / "rewind-dap")
REWIND = os.environ["REWIND"]
LIMIT = 120.0  # Seconds without a byte, on a machine that has much else to do.

Message = dict[str, Any]
SCHEMA = published()


class Hang(Exception):
    """The adapter said nothing in time."""


def framed(text: bytes) -> bytes:
    return b"Content-Length: %d\r\n\r\n%s" % (len(text), text)


class Client:
    """An adapter as an editor starts it."""

    def __init__(self, commands: str = os.devnull) -> None:
        self.begin([sys.executable, ADAPTER, "--rewind", REWIND, "--commands", commands])

    @classmethod
    def of(cls, words: list[str], environment: dict[str, str]) -> Client:
        """The client of an adapter that a command starts, outside the repository."""
        client = cls.__new__(cls)
        client.begin(words, cwd="/", env=environment)
        return client

    def begin(self, words: list[str], **how: Any) -> None:
        pipe = subprocess.PIPE
        self.process: subprocess.Popen[bytes] = subprocess.Popen(words, stdin=pipe, stdout=pipe, stderr=pipe, **how)
        assert self.process.stdin and self.process.stdout and self.process.stderr
        self.input, self.answers, self.error = self.process.stdin, self.process.stdout, self.process.stderr
        self.unread = b""
        self.seq = 0
        self.events: list[Message] = []
        self.passed: list[Message] = []

    def write(self, data: bytes) -> None:
        self.input.write(data)
        self.input.flush()

    def more(self) -> bool:
        """Reads some bytes more; False at the end."""
        if not select.select([self.answers], [], [], LIMIT)[0]:
            raise Hang(f"nothing in {LIMIT:g} seconds")
        part = os.read(self.answers.fileno(), 1 << 16)
        self.unread += part
        return bool(part)

    def take(self, length: int) -> bytes:
        """The next bytes that the adapter writes."""
        while len(self.unread) < length:
            if not self.more():
                raise EOFError(self.unread)
        taken, self.unread = self.unread[:length], self.unread[length:]
        return taken

    def read(self) -> Message:
        """The next message, which must be one of the published protocol."""
        while b"\r\n\r\n" not in self.unread:
            if not self.more():
                raise EOFError(self.unread)
        header, _, self.unread = self.unread.partition(b"\r\n\r\n")
        message: Message = json.loads(self.take(int(header.split(b":")[1])))
        faults = SCHEMA.faults_of_message(message) if SCHEMA else []
        assert not faults, (faults, message)
        return message

    def send(self, command: str, arguments: Any = None) -> int:
        self.seq += 1
        message = {"seq": self.seq, "type": "request", "command": command}
        if arguments is not None:
            message["arguments"] = arguments
        self.write(framed(json.dumps(message).encode()))
        return self.seq

    def response(self, seq: int) -> Message:
        """The response to a request; events before it are kept."""
        while True:
            message = self.read()
            if message["type"] == "response":
                assert message["request_seq"] == seq, message
                return message
            self.events.append(message)

    def ask(self, command: str, arguments: Any = None) -> Message:
        """The response to a request, whether it was done or not."""
        return self.response(self.send(command, arguments))

    def body(self, command: str, arguments: Any = None) -> Any:
        """The body of the response to a request that must succeed."""
        response = self.ask(command, arguments)
        assert response["success"], response
        return response.get("body")

    def event(self, *names: str) -> Message:
        """The next event of one of these names, which may have come in before; the events before it are in `passed`."""
        while True:
            for place, message in enumerate(self.events):
                if message["event"] in names:
                    self.passed, self.events = self.events[:place], self.events[place + 1 :]
                    return message
            message = self.read()
            assert message["type"] == "event", message
            self.events.append(message)

    def stop(self) -> Message:
        """What the next `stopped` event says."""
        body: Message = self.event("stopped")["body"]
        return body

    def launch(self, program: str, breakpoints: Optional[list[int]] = None, **arguments: Any) -> None:
        """Launches a program of the example sessions, or any other by its path, and waits until it stops."""
        path = os.path.join(DATA, program)
        self.body("initialize", {"adapterID": "rewind"})
        self.body("launch", {"program": path, **arguments})
        self.event("initialized")
        lines = [{"line": line} for line in breakpoints or []]
        self.body("setBreakpoints", {"source": {"path": path}, "breakpoints": lines})
        self.body("configurationDone")

    def move(self, command: str, arguments: Any = None) -> Message:
        """A request that moves the program: what the `stopped` event after it says."""
        self.body(command, arguments)
        return self.stop()

    def output(self) -> str:
        """What was written to the console of the editor, of the events that were kept."""
        return "".join(event["body"]["output"] for event in self.events if event["event"] == "output")

    def close(self) -> str:
        """Closes the client's end; what the adapter wrote on standard error. It may be called again."""
        if self.answers.closed:
            return ""
        until = time.monotonic() + LIMIT
        try:
            self.input.close()
        except OSError:
            pass
        while self.process.poll() is None:
            if time.monotonic() > until:
                self.process.kill()
                self.answers.close()
                raise Hang("the adapter did not end")
            time.sleep(0.01)
        said = self.error.read().decode()
        self.answers.close()
        self.error.close()
        return said
