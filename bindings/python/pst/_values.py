"""Values, and what has them."""

from __future__ import annotations

from collections.abc import Iterator
from dataclasses import dataclass, field
from datetime import datetime, timedelta, timezone
from typing import Any, Callable

# A slice of the store's bytes.
Lender = Callable[[int, int], memoryview]

_EPOCH = datetime(1601, 1, 1, tzinfo=timezone.utc)


def time_of(value: int) -> datetime:
    """The time of a value of type 0040, which counts units of 100 ns from the year 1601. The last digit is lost."""
    return _EPOCH + timedelta(microseconds=value // 10)


@dataclass(frozen=True)
class Value:
    """A value, and where in the file it lies.

    type is its type in four hexadecimal digits, value what docs/JSON.md says of it, and places are pairs of place and length:
    the bytes there, one after another, are the value.
    """

    type: str
    value: Any
    places: tuple[tuple[int, int], ...]
    _lend: Lender = field(repr=False, compare=False)

    @property
    def views(self) -> list[memoryview]:
        """The pieces of the value, where they lie: no byte is copied. They end with the store."""
        return [self._lend(at, length) for at, length in self.places]

    @property
    def view(self) -> memoryview:
        """The value where it lies, in one piece. ValueError where it lies in several: then views has them, and read joins them."""
        if len(self.places) > 1:
            raise ValueError(f"the value lies in {len(self.places)} pieces")
        return self._lend(*self.places[0]) if self.places else self._lend(0, 0)

    @property
    def size(self) -> int:
        """How many bytes the value has."""
        return sum(length for _, length in self.places)

    def read(self) -> bytes:
        """The value's bytes, copied."""
        return b"".join(self.views)


@dataclass(frozen=True)
class Property(Value):
    """A property. name and set are those of the store's name map, where that names it."""

    id: str = ""
    name: str | int | None = None
    set: str | None = None


@dataclass(frozen=True)
class Cell(Value):
    """The cell of a recipient's row in the column with a tag."""

    tag: str = ""


@dataclass(frozen=True)
class Properties:
    """Properties, in the order of their identifiers."""

    props: tuple[Property, ...]

    def __iter__(self) -> Iterator[Property]:
        return iter(self.props)

    def __len__(self) -> int:
        return len(self.props)

    def get(self, id: str) -> Property | None:
        """The property with an identifier of four upper-case hexadecimal digits, if there is one."""
        return next((prop for prop in self.props if prop.id == id), None)

    def named(self, name: str | int, set: str | None) -> Property | None:
        """The property with a name of a set, if there is one."""
        return next(
            (prop for prop in self.props if prop.name == name and prop.set == set), None
        )

    def text(self, id: str) -> str | None:
        """The text of a property of type 001F, if there is one."""
        prop = self.get(id)
        return prop.value if prop is not None and prop.type == "001F" else None


@dataclass(frozen=True)
class Recipient:
    """A row of a message's recipients."""

    row: str
    cells: tuple[Cell, ...]

    def get(self, tag: str) -> Cell | None:
        """The cell in the column with a tag of eight upper-case hexadecimal digits, if there is one."""
        return next((cell for cell in self.cells if cell.tag == tag), None)

    def text(self, tag: str) -> str | None:
        """The text of a cell of type 001F, if there is one."""
        cell = self.get(tag)
        return cell.value if cell is not None and cell.type == "001F" else None


@dataclass(frozen=True)
class Attachment:
    """An attachment of a message: path leads to it, and embedded to the message that it embeds, if it does."""

    path: str
    nid: str
    props: Properties
    embedded: str | None

    @property
    def name(self) -> str | None:
        """Its long name, else its short one."""
        return self.props.text("3707") or self.props.text("3704")

    @property
    def data(self) -> Property | None:
        """The property with its bytes, if it has some; an attachment that embeds a message has none."""
        prop = self.props.get("3701")
        return prop if prop is not None and prop.type == "0102" else None


@dataclass(frozen=True)
class Node:
    """The properties of what a path leads to; of a message its recipients and attachments too."""

    path: str
    nid: str
    props: Properties
    recipients: tuple[Recipient, ...]
    attachments: tuple[Attachment, ...]
    embedded: str | None


def _places(told: dict[str, Any]) -> tuple[tuple[int, int], ...]:
    return tuple((at, length) for at, length in told["places"])


def _properties(told: list[dict[str, Any]], lend: Lender) -> Properties:
    return Properties(
        tuple(
            Property(
                type=it["type"],
                value=it["value"],
                places=_places(it),
                _lend=lend,
                id=it["id"],
                name=it.get("name"),
                set=it.get("set"),
            )
            for it in told
        )
    )


def _recipient(told: dict[str, Any], lend: Lender) -> Recipient:
    cells = tuple(
        Cell(
            type=it["tag"][4:],
            value=it["value"],
            places=_places(it),
            _lend=lend,
            tag=it["tag"],
        )
        for it in told["cells"]
    )
    return Recipient(told["row"], cells)


def _within(path: str, nid: str | None) -> str | None:
    return None if nid is None else f"{path}/{nid}"


def _attachment(path: str, told: dict[str, Any], lend: Lender) -> Attachment:
    own = f"{path}/{told['nid']}"
    return Attachment(
        path=own,
        nid=told["nid"],
        props=_properties(told["props"], lend),
        embedded=_within(own, told.get("embedded")),
    )


def node_of(path: str, told: dict[str, Any], lend: Lender) -> Node:
    """What a line of props --places tells of a path."""
    return Node(
        path=path,
        nid=told["nid"],
        props=_properties(told["props"], lend),
        recipients=tuple(_recipient(it, lend) for it in told.get("recipients", ())),
        attachments=tuple(
            _attachment(path, it, lend) for it in told.get("attachments", ())
        ),
        embedded=_within(path, told.get("embedded")),
    )
