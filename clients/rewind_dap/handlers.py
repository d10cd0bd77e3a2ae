"""What the parts of the adapter share that answer requests."""
from __future__ import annotations

from abc import ABC, abstractmethod
from collections.abc import Callable
from typing import TYPE_CHECKING, Any, Optional

from .arguments import Arguments

if TYPE_CHECKING:
    from .adapter import Adapter

# An object of the protocol, as the body of an event or of a response.
Body = dict[str, Any]
Handler = Callable[[Arguments], Optional[Body]]


class Handlers(ABC):
    """Answers some requests for an adapter."""

    def __init__(self, adapter: Adapter) -> None:
        self.adapter = adapter

    @abstractmethod
    def handlers(self) -> dict[str, Handler]:
        """What answers each request, by the request's name."""
