"""What a run says, in order: the events that `--json` prints, and that the page is made of."""

import dataclasses
from collections.abc import Iterator
from typing import Any

Event = dict[str, Any]


@dataclasses.dataclass
class Record:
    """The events of a run. Each is an object with the key `event`, and `text`, what was said for people."""

    events: list[Event] = dataclasses.field(default_factory=list)

    def add(self, event: str, text: str, fields: dict[str, Any]) -> None:
        """Keeps an event."""
        self.events.append({"event": event, "text": text, **fields})

    def of(self, *kinds: str) -> Iterator[Event]:
        """Yield the events of these kinds, in order."""
        return (it for it in self.events if it["event"] in kinds)

    def last(self, kind: str) -> Event:
        """Return the last event of a kind; an empty one where there is none."""
        found: Event = {}
        for it in self.of(kind):
            found = it
        return found

    def images(self) -> list[Event]:
        """Return the images, each as it was said last, by their numbers."""
        found = {it["number"]: it for it in self.of("image") if "number" in it}
        return [found[number] for number in sorted(found)]
