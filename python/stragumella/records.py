"""Single records: their kinds, their values, read and written."""

from __future__ import annotations

import ctypes
from dataclasses import dataclass, replace
from enum import IntEnum
from typing import Optional, Union

from . import _library
from ._facts import FIELDS
from .refused import Refused

Buffer = Union[bytes, bytearray, memoryview]

_DOES_NOT_FIT = 20


class Kind(IntEnum):
    """The kinds of record, by the library's numbers."""

    MESH = 1
    LAYER = 2
    NODE = 3
    LINE = 4
    COORDINATES = 5
    AREA = 6
    LOOP = 7


_NUMBERS = {kind: tuple(name for name, _, _, what in FIELDS[kind.name] if what in ("NUMBER", "CODE")) for kind in Kind}
_CODES = {kind: tuple(name for name, _, _, what in FIELDS[kind.name] if what == "CODE") for kind in Kind}
_NAME_BYTES = {kind: sum(width for _, _, width, what in FIELDS[kind.name] if what == "NAME") for kind in Kind}


def as_bytes(data: Buffer) -> bytes:
    """The bytes of a buffer; they are copied only where somebody could change them."""
    return data if isinstance(data, bytes) else bytes(memoryview(data))


def fits_32_bits(number: int) -> bool:
    """Whether C's int32_t holds it."""
    return -(2**31) <= number < 2**31


def _fits_unsigned(number: int) -> bool:
    """Whether C's uint32_t holds it."""
    return 0 <= number < 2**32


def text_of(name: bytes) -> Optional[str]:
    """A name as text, by CP932, as it stands, full-width spaces behind it and all; None where it has none.

    That is no part of the rules: they ask for pairs of bytes, and some pairs are no character.
    """
    try:
        return name.decode("cp932")
    except UnicodeDecodeError:
        return None


@dataclass(frozen=True)
class Record:
    """A record's value: its kind, its numbers in column order, its name bytes (M and A have a name), the marks of its codes and the letters of an H.

    `record["left_area"]` is a number by its field's name; the names are those of `stragumella record`. A mark is 1 where a code is spelled
    " 0000", land in layer 5: an L has two, of its left and right code, an A one. Marks that are left out are 0. The letters of an H are 1 for
    H1, an unstructured layer, and 2 for H2, a structured one; every other kind has 0.
    """

    kind: Kind
    numbers: tuple[int, ...]
    name: bytes = b""
    marks: tuple[int, ...] = ()
    letters: int = 0

    @classmethod
    def read(cls, kind: int, data: Buffer) -> Record:
        """Reads 74 bytes as a record of that kind. Only the form of the fields is judged: refused with 1, 2, 3 or 5."""
        known = kind if kind in _NUMBERS else 0  # 0 is none of the kinds, as every other number, and fits C's
        lent = as_bytes(data)
        reading = _library.read_record(known, lent, len(lent))
        if reading.number != 0:
            raise Refused(reading.number, reading.record, reading.column)
        value = reading.value
        found = Kind(value.kind)
        numbers = tuple(value.numbers[: len(_NUMBERS[found])])
        return cls(found, numbers, bytes(value.name)[: _NAME_BYTES[found]], tuple(value.marks[: len(_CODES[found])]), value.letters)

    def write(self) -> bytes:
        """The record's 74 bytes. Refused with 20 where a number, the name, a mark or the letters don't fit."""
        if len(self.numbers) > _library.NUMBERS or len(self.name) > _library.NAME_BYTES or len(self.marks) > _library.MARKS:
            raise Refused(_DOES_NOT_FIT)
        if self.kind not in _NUMBERS or not all(map(fits_32_bits, self.numbers)) or not all(map(_fits_unsigned, (*self.marks, self.letters))):
            raise Refused(_DOES_NOT_FIT)
        value = _library.Record(kind=self.kind, letters=self.letters)
        value.numbers[: len(self.numbers)] = self.numbers
        value.name[: len(self.name)] = list(self.name)
        value.marks[: len(self.marks)] = self.marks
        buffer = ctypes.create_string_buffer(_library.RECORD_BYTES)
        number = _library.write_record(value, buffer, _library.RECORD_BYTES)
        if number != 0:
            raise Refused(number)
        return buffer.raw

    def __getitem__(self, field: str) -> int:
        return self.fields[field]

    @property
    def fields(self) -> dict[str, int]:
        """The numbers by their fields' names, in column order."""
        return dict(zip(_NUMBERS[self.kind], self.numbers))

    def mark(self, code: str) -> int:
        """The mark of a code by its field's name: 1 where it is spelled " 0000"."""
        place = _CODES[self.kind].index(code) if code in _CODES[self.kind] else None
        if place is None:
            raise KeyError(f"{self.kind.name} has no code {code}")
        return self.marks[place] if place < len(self.marks) else 0

    @property
    def name_text(self) -> Optional[str]:
        """The name as text (CP932), or None where it has none."""
        return text_of(self.name)

    def replace(
        self, name: Optional[bytes] = None, marks: Optional[tuple[int, ...]] = None, letters: Optional[int] = None, **fields: int
    ) -> Record:
        """The same record with another name, other marks, other letters, or other numbers in these fields."""
        numbers = {**self.fields, **fields}
        if len(numbers) > len(self.numbers):
            raise KeyError(f"{self.kind.name} has no field {list(numbers)[-1]}")
        return replace(
            self,
            numbers=tuple(numbers.values()),
            name=self.name if name is None else name,
            marks=self.marks if marks is None else marks,
            letters=self.letters if letters is None else letters,
        )
