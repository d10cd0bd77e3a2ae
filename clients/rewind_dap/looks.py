"""Requests that only look, and those that set breakpoints."""
from __future__ import annotations

import re
from typing import TypeVar

from rewind_client.explanations import explain
from rewind_client.names import is_channel, is_goroutine
from rewind_client.sentences import Sentences
from rewind_client.watched import ChannelWatch, Watch, Watched, Way

from .arguments import Arguments, BadRequest
from .capabilities import Filter
from .debuggee import Debuggee
from .handlers import Body, Handler, Handlers

Part = TypeVar("Part")

MAX_COMMAND = 1_048_576
CONTROL = re.compile("[\x00-\x08\x0a-\x1f]")


class Looks(Handlers):
    """What an editor asks of a program that stands still, and its breakpoints."""

    def handlers(self) -> dict[str, Handler]:
        return {
            "setBreakpoints": self.set_breakpoints,
            "setFunctionBreakpoints": self.set_function_breakpoints,
            "setExceptionBreakpoints": self.set_exception_breakpoints,
            "setDataBreakpoints": self.set_data_breakpoints,
            "breakpointLocations": self.breakpoint_locations,
            "threads": self.threads,
            "stackTrace": self.stack_trace,
            "scopes": self.scopes,
            "variables": self.variables,
            "exceptionInfo": self.exception_info,
            "rewind/causes": lambda arguments: self.related("causes", arguments),
            "rewind/dependents": lambda arguments: self.related("deps", arguments),
            "rewind/log": self.log,
        }

    def set_breakpoints(self, arguments: Arguments) -> Body:
        """Sets the breakpoints of a source; it may come while the program runs."""
        debuggee = self.adapter.any_debuggee()
        path = arguments.object("source").text("path", "")
        return {"breakpoints": debuggee.breakpoints.replace(path, arguments.objects("breakpoints"))}

    def set_function_breakpoints(self, arguments: Arguments) -> Body:
        """Sets the breakpoints at functions."""
        return {"breakpoints": self.adapter.any_debuggee().breakpoints.replace_functions(arguments.objects("breakpoints"))}

    def set_exception_breakpoints(self, arguments: Arguments) -> Body:
        """Sets which ends of a program are shown as exceptions; it may come before the launch."""
        wanted = arguments.texts("filters")
        self.adapter.filters = frozenset(it for it in Filter if it.value in wanted)
        known = [it.value for it in Filter]
        return {"breakpoints": [{"verified": name in known} for name in wanted]}

    def set_data_breakpoints(self, arguments: Arguments) -> Body:
        """Watches variables and channels, in place of those before."""
        debuggee, bodies = self.adapter.any_debuggee(), []
        debuggee.watches = {}
        for wanted in arguments.objects("breakpoints"):
            watches = watched(wanted.text("dataId"), wanted.text("accessType", "write"))
            number = debuggee.breakpoints.next_number()
            debuggee.watches.update({watch: number for watch in watches})
            bodies.append({"id": number, "verified": bool(watches)})
        return {"breakpoints": bodies}

    def breakpoint_locations(self, arguments: Arguments) -> Body:
        debuggee = self.adapter.any_debuggee()
        first = arguments.number("line")
        last = arguments.number("endLine", first)
        path = arguments.object("source").text("path", "")
        return {"breakpoints": debuggee.breakpoints.between(path, first, last)}

    def threads(self, _arguments: Arguments) -> Body:
        debuggee = self.adapter.any_debuggee()
        debuggee.look_anew()
        return {"threads": debuggee.view.threads(debuggee.focus)}

    def stack_trace(self, arguments: Arguments) -> Body:
        debuggee = self.adapter.stopped_debuggee()
        debuggee.look_anew()
        view = debuggee.view
        places = view.places(view.goroutine_of(arguments.number("threadId")))
        return {"stackFrames": view.stack(portion(places, arguments, "startFrame", "levels")), "totalFrames": len(places)}

    def scopes(self, arguments: Arguments) -> Body:
        return {"scopes": self.adapter.stopped_debuggee().view.scopes(arguments.number("frameId"))}

    def variables(self, arguments: Arguments) -> Body:
        """The members of a list, or a part of them: the indexed ones, those with names, or all."""
        wanted, values = arguments.text("filter", ""), self.adapter.stopped_debuggee().view.current()
        if wanted not in ("", "indexed", "named"):
            raise BadRequest("arguments: filter must be 'indexed' or 'named'")
        start, count = arguments.number("start", 0), arguments.number("count", 0)
        return {"variables": values.part_of(arguments.number("variablesReference"), wanted, start, count)}

    def exception_info(self, _arguments: Arguments) -> Body:
        """The fault that stopped the program, in Go's words, with where and why in sentences."""
        debuggee = self.adapter.stopped_debuggee()
        stop = debuggee.fault
        if stop is None:
            raise BadRequest("no fault stopped the program")
        name, session = stop.name, debuggee.session
        told = "\n".join(Sentences(session).all(explain(session)))
        details = {"message": stop.text, "typeName": name, "stackTrace": told}
        return {"exceptionId": name, "description": stop.text, "breakMode": "always", "details": details}

    def related(self, word: str, arguments: Arguments) -> Body:
        """The steps that a step depends on, or that depend on it."""
        debuggee = self.adapter.stopped_debuggee()
        core = debuggee.session.core
        ask = core.causes if word == "causes" else core.dependents
        return {"steps": ask(step_name(debuggee, arguments))}

    def log(self, arguments: Arguments) -> Body:
        """The kept steps, or a part of them."""
        entries = self.adapter.stopped_debuggee().session.log()
        bodies = [{"step": entry.step, "kind": str(entry.kind)} for entry in entries]
        return {"steps": portion(bodies, arguments, "start", "count"), "total": len(entries)}


def watched(data: str, access: str) -> list[Watched]:
    """What a data breakpoint is about, by the name that `dataBreakpointInfo` gave it; nothing where it is no such name."""
    words = data.split(" ")
    if len(words) == 2 and is_goroutine(words[0]) and words[1].isidentifier():
        return [Watch(words[0], words[1])]
    ways = {"write": [Way.SEND], "read": [Way.RECEIVE], "readWrite": [Way.SEND, Way.RECEIVE]}
    return [ChannelWatch(data, way) for way in ways.get(access, [])] if is_channel(data) else []


def portion(members: list[Part], arguments: Arguments, start: str, count: str) -> list[Part]:
    """The part of a list that a request wants: all where the count is 0 or left out."""
    first = arguments.number(start, 0)
    number = arguments.number(count, 0)
    return members[first : first + number] if number else members[first:]


def step_name(debuggee: Debuggee, arguments: Arguments) -> str:
    """The name of a step that a request is about: `step`, or the last one of the goroutine of `threadId`."""
    if arguments.has("step"):
        return one_word(arguments.text("step"))
    goroutine = debuggee.view.goroutine_of(arguments.number("threadId"))
    if goroutine.steps == 0:
        raise BadRequest(f"{goroutine.name} has taken no step")
    return goroutine.last_step


def one_word(text: str) -> str:
    """A word of a command; more than one is refused."""
    if not text or any(character <= " " for character in text):
        raise BadRequest(f"'{text[:80]}' is no name of a step")
    return text


def one_line(text: str) -> str:
    """A command as it is sent: a newline or another control character would make more, or none, of it."""
    line = text.strip(" \t\r\n")
    if len(line) > MAX_COMMAND:
        raise BadRequest(f"a command has at most {MAX_COMMAND} bytes")
    if CONTROL.search(line):
        raise BadRequest("a command is one line, without control characters")
    return line
