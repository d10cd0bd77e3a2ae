"""Each message that a test reads is checked against the published definitions of the protocol, where they are installed.

Here it is checked that this would find what is wrong.
"""
from typing import Any

import pytest

from .schema import Schema, published

SCHEMA = published()


@pytest.mark.skipif(SCHEMA is None, reason="node-vscode-debugprotocol is not installed")
class TestDefinitions:
    def faults(self, **message: Any) -> list[str]:
        assert isinstance(SCHEMA, Schema)
        return SCHEMA.faults_of_message({"seq": 1, **message})

    def test_what_is_right(self) -> None:
        assert self.faults(type="event", event="stopped", body={"reason": "goto", "threadId": 1}) == []
        answer = {"type": "response", "request_seq": 1, "success": True}
        assert self.faults(**answer, command="threads", body={"threads": [{"id": 1, "name": "g0"}]}) == []
        assert self.faults(**answer, command="rewind/log", body={}) == []

    def test_what_is_wrong(self) -> None:
        wrong: list[tuple[dict[str, Any], str]] = [
            ({"event": "stopped", "body": {"threadId": 1}}, "StoppedEvent.body.reason is missing"),
            ({"event": "stopped", "body": {"reason": 1}}, "StoppedEvent.body.reason is not 'step': 1"),
            ({"event": "thread", "body": {"reason": "started", "threadId": "1"}}, "ThreadEvent.body.threadId is no number: '1'"),
            ({"event": "exited", "body": {"exitCode": 0, "why": 1}}, "ExitedEvent.body.why is not in the protocol"),
            ({"event": "flown"}, "there is no FlownEvent"),
        ]
        for message, fault in wrong:
            assert fault in self.faults(type="event", **message)[0]
