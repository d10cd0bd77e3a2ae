"""What goes wrong is told in words, by a response or an event, and nothing hangs."""
from __future__ import annotations

import glob
import os
import subprocess
import sys
import time
from typing import Any

from .client import ADAPTER, DATA, REPOSITORY, REWIND, framed
from .desk import Desk

MAX = 16 * 1024 * 1024
PING = b'{"seq":1,"type":"request","command":"initialize"}'


class TestTransport(Desk):
    """Bytes that are no message are told, and the next message is answered."""

    def said_of(self, data: bytes, times: int = 1) -> str:
        """What the adapter says of some bytes, in so many events."""
        self.client.write(data + framed(PING))
        texts = [self.client.read()["body"]["output"] for _ in range(times)]
        assert self.client.read()["command"] == "initialize"
        return "".join(texts)

    def test_malformed_headers(self) -> None:
        said = self.said_of(b"hello\r\nContent-Length: many\r\n\r\n", 3)
        assert "a malformed header: 'hello'" in said
        assert "a malformed header: 'Content-Length: many'" in said
        assert "a header without Content-Length" in said

    def test_a_body_without_a_header_before_a_message(self) -> None:
        assert "a malformed header" in self.said_of(b'{"seq":1}')

    def test_other_fields_of_a_header(self) -> None:
        self.client.write(b"Content-Type: utf-8\r\nCONTENT-LENGTH: %d\r\n\r\n%s" % (len(PING), PING))
        assert self.client.read()["success"]

    def test_a_negative_length(self) -> None:
        self.said_of(b"Content-Length: -5\r\n\r\n", 2)

    def test_an_endless_header_line(self) -> None:
        self.said_of(b"x" * 9000 + b"\n", 3)

    def test_messages_that_are_no_objects(self) -> None:
        for body in (b"{", b"[1]", b"7", b"\xff\xfe", b"[" * 100_000, b'{"type":"event"}', b'{"type":"request","command":7}'):
            self.client.write(framed(body))
            assert "This message was dropped" in self.client.read()["body"]["output"]

    def test_a_message_that_is_too_long(self) -> None:
        said = self.said_of(framed(b" " * (MAX + 1)))
        assert "a message of 16777217 bytes is refused: at most 16777216 are read" in said

    def test_the_longest_message(self) -> None:
        self.client.launch("swapped_variables.go")
        self.client.stop()
        head, tail = b'{"seq":9,"type":"request","command":"evaluate","arguments":{"expression":"', b'"}}'
        self.client.write(framed(head + b"x" * (MAX - len(head) - len(tail)) + tail))
        assert self.client.read()["message"] == "a command has at most 1048576 bytes"
        assert self.client.body("evaluate", {"expression": "x" * (1 << 20)})["result"] == "? bad command"
        assert self.client.body("threads") == {"threads": [{"id": 1, "name": "g0 main, ready at line 3"}]}


class TestRequests(Desk):
    def refused(self, command: str, arguments: Any = None) -> str:
        response = self.client.ask(command, arguments)
        assert not response["success"], response
        assert response["body"]["error"]["format"] == response["message"]
        message: str = response["message"]
        return message

    def test_before_anything_is_launched(self) -> None:
        assert self.refused("threads") == "'initialize' comes first"
        assert self.refused("fly") == "there is no request 'fly' here"
        self.client.body("initialize")
        assert self.refused("initialize") == "'initialize' was sent before"
        assert self.refused("next", {"threadId": 1}) == "no program runs under the debugger"
        assert self.refused("launch") == "arguments: program must be a string"
        assert "cannot read" in self.refused("launch", {"program": "/nowhere.go"})
        assert "cannot be started" in self.refused("launch", {"program": "\0"})
        assert "use launch" in self.refused("attach")

    def test_wrong_types(self) -> None:
        self.client.launch("deadlock.go")
        self.client.stop()
        wrong = {
            "stackTrace": ({"threadId": "1"}, {"threadId": True}, {"threadId": 1.5}, {"threadId": -1}, {"threadId": 10**30}, {}),
            "setBreakpoints": ({"source": 5}, {"source": {"path": 1}}, {"breakpoints": {}}, {"breakpoints": [{"line": "3"}]}),
            "variables": ({"variablesReference": 0}, {"variablesReference": 999}, {"variablesReference": None}),
            "scopes": ({"frameId": 77}, {"frameId": []}),
            "next": ({"threadId": 99}, {"threadId": 0}),
            "evaluate": ({"expression": 1}, {"expression": "log", "context": 3}, {"expression": "log", "frameId": "x"}),
            "rewind/back": ({}, {"step": "g0#99"}, {"step": "g0#1 g0#2"}, {"step": 4}, {"target": "send\ng0"}),
            "rewind/causes": ({"step": ""}, {"threadId": 1}),
            "rewind/log": ({"start": "first"}, {"count": -1}),
            "breakpointLocations": ({}, {"line": 3, "endLine": "9"}),
            "launch": ({"program": "again.go"},),
        }
        for command, cases in wrong.items():
            for arguments in cases:
                self.refused(command, arguments)
            assert "must be an object" in self.refused(command, [1])

    def test_values_of_other_types_in_a_launch(self) -> None:
        self.client.body("initialize")
        path = os.path.join(DATA, "deadlock.go")
        cases: list[dict[str, Any]] = [{"workers": 65}, {"workers": "2"}, {"stopOnEntry": 1}, {"timeout": 0}, {"timeout": True}, {"rewind": 3}]
        for more in cases:
            self.refused("launch", {"program": path, **more})

    def test_text_that_is_no_unicode(self) -> None:
        self.client.launch("deadlock.go")
        self.client.stop()
        assert self.client.body("evaluate", {"expression": "\ud800"})["result"] == "? bad command"


class TestSources(Desk):
    def test_each_source_that_is_refused(self) -> None:
        client = self.another()
        client.body("initialize")
        number = 0
        for expected in sorted(glob.glob(os.path.join(DATA, "*.expect"))):
            with open(expected, encoding="utf-8") as file:
                text = file.read()
            if text.startswith("rewind: "):
                code, place = text.split()[1], text.split()[3]
                path = expected.replace(".expect", ".go")
                message = client.ask("launch", {"program": path})["message"]
                event = client.event("output")["body"]
                assert message.startswith(event["output"].split("\n")[0]), message
                assert message.startswith(path + ":") and message.endswith(f" ({code})"), message
                assert f"{event['line']}:{event['column']}" == place
                number += 1
        assert number > 20


class TestFailures(Desk):
    """A `rewind` that can't be started, dies, hangs or talks nonsense; and a client that goes away."""

    def script(self, text: str) -> str:
        path = os.path.join(self.folder, "fake")
        with open(path, "w", encoding="utf-8") as file:
            file.write("#!/bin/sh\n" + text)
        os.chmod(path, 0o755)
        return path

    def launch(self, rewind: str, **more: Any) -> dict[str, Any]:
        self.client.body("initialize")
        return self.client.ask("launch", {"program": os.path.join(DATA, "deadlock.go"), "rewind": rewind, **more})

    def refused(self, text: str, **more: Any) -> str:
        response = self.launch(self.script(text), **more)
        assert not response["success"]
        message: str = response["message"]
        return message

    def test_it_cannot_be_started(self) -> None:
        assert "cannot be started" in self.launch("/nowhere/rewind")["message"]

    def test_it_ends_at_once(self) -> None:
        assert "has ended: exit status 3: reading or writing failed" in self.refused("exit 3")

    def test_it_is_killed_at_once(self) -> None:
        assert "has ended: signal 9 ended it" in self.refused("kill -9 $$")

    def test_what_it_says_is_told(self) -> None:
        assert "has ended: rewind: memory" in self.refused("echo 'rewind: memory' >&2; exit 3")

    def test_it_gives_no_answer(self) -> None:
        assert "gave no answer within 0.3 seconds" in self.refused("sleep 60", timeout=0.3)

    def test_it_closes_its_output(self) -> None:
        assert "has ended" in self.refused("exec >&-; read line; sleep 60")

    def test_it_talks_nonsense(self) -> None:
        assert "means nothing: Hello" in self.refused("echo Hello; read line; sleep 60")

    def test_it_answers_another_command(self) -> None:
        assert "means nothing: ok" in self.refused("read line; echo ok; sleep 60")

    def test_an_answer_without_an_end(self) -> None:
        assert "gave no answer" in self.refused("yes | tr -d '\\n'", timeout=0.3)

    def test_it_dies_later(self) -> None:
        fake = self.script(f"sed -u 2q | {REWIND} \"$@\"\nexit 7")
        assert self.launch(fake)["success"]
        self.client.event("initialized")
        self.client.body("configurationDone")
        self.client.stop()
        assert "has ended" in self.client.ask("evaluate", {"expression": "log", "context": "repl"})["message"]
        self.client.event("terminated")
        assert not self.client.ask("threads")["success"]

    def test_it_dies_in_a_run(self) -> None:
        fake = self.script(f"sed -u '/^run/q' | sed -u 's/^run.*/quit/' | {REWIND} \"$@\"\nexit 7")
        assert self.launch(fake, stopOnEntry=False)["success"]
        self.client.body("configurationDone")
        assert "stderr" in self.client.event("output")["body"]["category"]
        self.client.event("terminated")
        assert self.client.ask("disconnect")["success"]

    def child_ends(self, leave: Any) -> None:
        """Whether the process under the adapter ends when the client leaves."""
        fake = self.script(f"echo $$ > {self.folder}/pid\nexec {REWIND} \"$@\"")
        assert self.launch(fake)["success"]
        with open(os.path.join(self.folder, "pid"), encoding="utf-8") as file:
            pid = int(file.read())
        leave()
        until = time.monotonic() + 20
        while os.path.exists(f"/proc/{pid}"):
            assert time.monotonic() < until, "it goes on"
            time.sleep(0.01)

    def close_in_silence(self) -> None:
        assert self.client.close() == ""

    def test_a_client_that_goes_away(self) -> None:
        self.child_ends(self.close_in_silence)

    def test_a_client_that_goes_away_in_the_middle_of_a_message(self) -> None:
        self.client.write(b"Content-Length: 100\r\n\r\n{")
        assert self.client.close() == ""

    def test_a_client_that_goes_away_while_nothing_answers(self) -> None:
        self.client.body("initialize")
        self.client.send("launch", {"program": os.path.join(DATA, "deadlock.go"), "rewind": self.script("exec sleep 600")})
        assert self.client.close() == ""

    def test_disconnect(self) -> None:
        self.child_ends(lambda: self.client.body("disconnect"))

    def test_terminate(self) -> None:
        def leave() -> None:
            self.client.body("terminate")
            self.client.event("terminated")

        self.child_ends(leave)

    def test_workers_that_a_rewind_does_not_know(self) -> None:
        fake = 'if [ "$1" = --workers ]; then echo "unknown option --workers" >&2; exit 2; fi'
        assert "unknown option --workers" in self.refused(fake, workers=2)


class TestCommandLine:
    def run_adapter(self, *words: str) -> Any:
        return subprocess.run([sys.executable, ADAPTER, *words], input=b"", capture_output=True, timeout=60)

    def test_the_paths_that_configurations_name_start_it(self) -> None:
        for folder in ("clients", "editors/vscode"):
            words = [os.path.join(REPOSITORY, folder, "rewind-dap"), "--help"]
            done = subprocess.run(words, stdout=subprocess.PIPE, timeout=60, check=True)
            assert b"Debug Adapter" in done.stdout

    def test_options(self) -> None:
        assert self.run_adapter("--help").returncode == 0
        assert self.run_adapter("--fly").returncode == 2
        done = self.run_adapter("--commands", "/nowhere/file")
        assert (done.returncode, done.stderr.split(b":")[0]) == (1, b"rewind-dap")
