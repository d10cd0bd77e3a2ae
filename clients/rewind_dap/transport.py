"""Messages of the Debug Adapter Protocol on two byte streams.

A message is a header with its length, an empty line, and a JSON object in UTF-8. One thread reads, so that a request comes in
while the program runs; all else is done by the thread that calls `next_message` and `send`.
"""
from __future__ import annotations

import json
import os
import re
import threading
from typing import Any, BinaryIO, NamedTuple, Optional, Union

from .inbox import Inbox

MAX_MESSAGE = 16 * 1024 * 1024
MAX_HEADER = 4096
# A length beyond this is not believed, and what follows is not skipped.
MOST_SKIPPED = 1 << 30

# A field of a header; the length, wherever in a line it stands, so that one finds it again behind bytes that are no message.
FIELD = re.compile(rb"[A-Za-z-]+:[^\r\n]*\r?\n\Z")
LENGTH_NAME = re.compile(rb"content-length:", re.IGNORECASE)
LENGTH = re.compile(rb"content-length:[ \t]*([0-9]{1,18})[ \t]*\r?\n\Z", re.IGNORECASE)

Message = dict[str, Any]


class Malformed(NamedTuple):
    """What came in and is no message, in words."""

    reason: str


class Closed(NamedTuple):
    """The client has closed its end."""


class Transport:
    """Reads messages in a thread of its own, and writes them."""

    def __init__(self, source: BinaryIO, target: BinaryIO) -> None:
        self.source = source
        self.target = target
        self.closed = threading.Event()
        self.inbox: Inbox[Union[Message, Malformed, Closed]] = Inbox()
        self.sent = 0
        self.reader = threading.Thread(target=self.read_all, daemon=True)
        self.reader.start()

    def next_message(self, wait: bool) -> Union[Message, Malformed, Closed, None]:
        """The next message; None where there is none yet and `wait` is false."""
        return self.inbox.get(wait)

    def send(self, message: Message) -> None:
        """Writes a message, with the next number as its `seq`."""
        self.sent += 1
        body = json.dumps({"seq": self.sent, **message}, separators=(",", ":")).encode()
        try:
            self.target.write(b"Content-Length: %d\r\n\r\n%s" % (len(body), body))
            self.target.flush()
        except (OSError, ValueError):
            self.closed.set()

    def read_all(self) -> None:
        """Puts what comes in into the inbox, up to the end."""
        try:
            while True:
                length = self.read_header()
                if length <= MAX_MESSAGE:
                    self.inbox.put(self.read_body(length), length)
                else:
                    self.refuse(length)
        except (EOFError, OSError):
            self.closed.set()
            self.inbox.put(Closed())

    def refuse(self, length: int) -> None:
        """A message that is too long is skipped; where that would never end, the next header is looked for."""
        told = f"a message of {length} bytes is refused: at most {MAX_MESSAGE} are read"
        if length <= MOST_SKIPPED:
            self.complain(told)
            self.skip(length)
        else:
            self.complain(told + f", and no more than {MOST_SKIPPED} are skipped: the next header is looked for")

    def complain(self, reason: str) -> None:
        self.inbox.put(Malformed(reason))

    def read_header(self) -> int:
        """The length that the next header tells; of what comes before it and is no header the inbox is told."""
        length: Optional[int] = None
        while True:
            line = self.source.readline(MAX_HEADER)
            if not line:
                raise EOFError
            if line in (b"\r\n", b"\n"):
                if length is not None:
                    return length
                self.complain("a header without Content-Length")
                continue
            told = LENGTH.search(line)
            if told is not None:
                length = int(told.group(1))
            if not FIELD.match(line) or (told is None and LENGTH_NAME.match(line)):
                self.complain(f"a malformed header: {shown(line)}")

    def read_body(self, length: int) -> Union[Message, Malformed]:
        body = self.source.read(length)
        if len(body) < length:
            raise EOFError
        try:
            message = json.loads(body.decode("utf-8"))
        except (ValueError, RecursionError) as fault:
            return Malformed(f"a message that is no JSON: {fault}")
        if not isinstance(message, dict):
            return Malformed("a message that is no JSON object")
        return message

    def skip(self, length: int) -> None:
        """Reads a number of bytes and keeps none."""
        while length > 0:
            part = self.source.read(min(length, 1 << 20))
            if not part:
                raise EOFError
            length -= len(part)


def shown(line: bytes) -> str:
    return repr(line[:80].decode("latin-1").rstrip())


def standard_streams() -> Transport:
    """The transport on standard input and output; whatever else is printed goes to standard error."""
    target = os.fdopen(os.dup(1), "wb")
    os.dup2(2, 1)
    return Transport(os.fdopen(os.dup(0), "rb"), target)
