"""What the adapter can do, in the words of the protocol."""
from __future__ import annotations

from enum import Enum


class Filter(Enum):
    """The ends of a program that an editor can have shown as exceptions."""

    PANICS = "panics"
    DEADLOCKS = "deadlocks"
    LEAKS = "leaks"


# Those that are wanted until the editor says otherwise.
DEFAULT = frozenset((Filter.PANICS, Filter.DEADLOCKS))
LABELS = {
    Filter.PANICS: ("Panics", "Shows a panic as an exception, with what led to it."),
    Filter.DEADLOCKS: ("Deadlocks", "Shows a deadlock as one, with who waits for what."),
    Filter.LEAKS: ("Leaks", "Shows as an exception that goroutines are blocked for ever when main has returned."),
}

CAPABILITIES = {
    "supportsConfigurationDoneRequest": True,
    "supportsConditionalBreakpoints": True,
    "supportsHitConditionalBreakpoints": True,
    "supportsLogPoints": True,
    "supportsFunctionBreakpoints": True,
    "supportsDataBreakpoints": True,
    "supportsStepBack": True,
    "supportsSteppingGranularity": True,
    "supportsStepInTargetsRequest": True,
    "supportsGotoTargetsRequest": True,
    "supportsRestartFrame": True,
    "supportsRestartRequest": True,
    "supportsTerminateRequest": True,
    "supportsEvaluateForHovers": True,
    "supportsCompletionsRequest": True,
    "supportsExceptionInfoRequest": True,
    "supportsBreakpointLocationsRequest": True,
    "supportsDelayedStackTraceLoading": True,
    "exceptionBreakpointFilters": [
        {"filter": it.value, "label": label, "description": description, "default": it in DEFAULT}
        for it, (label, description) in LABELS.items()
    ],
}
