"""Messages that wait to be answered, of a bounded number and size: who reads them waits where there are too many."""
from __future__ import annotations

from collections import deque
from threading import Condition
from typing import Generic, Optional, TypeVar

MOST_MESSAGES = 64
MOST_BYTES = 32 * 1024 * 1024

Item = TypeVar("Item")


class Inbox(Generic[Item]):
    """A queue between the thread that reads and the one that answers."""

    def __init__(self) -> None:
        self.items: deque[tuple[Item, int]] = deque()
        self.bytes = 0
        self.changed = Condition()

    def put(self, item: Item, size: int = 0) -> None:
        """Waits until there is room. One item always has room."""
        with self.changed:
            self.changed.wait_for(lambda: not self.items or (len(self.items) < MOST_MESSAGES and self.bytes + size <= MOST_BYTES))
            self.items.append((item, size))
            self.bytes += size
            self.changed.notify_all()

    def get(self, wait: bool) -> Optional[Item]:
        """The first item; None where there is none and it is not waited for."""
        with self.changed:
            if wait:
                self.changed.wait_for(lambda: self.items)
            if not self.items:
                return None
            item, size = self.items.popleft()
            self.bytes -= size
            self.changed.notify_all()
            return item
