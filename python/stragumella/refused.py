"""The one exception."""

from __future__ import annotations

from ._facts import REFUSALS


class Refused(Exception):
    """A file, a record or a point that the library refuses: the first broken rule, and where.

    number          which rule (docs/REFUSALS.md explains each)
    record, column  the place, both counted from 1; 0 and 0 where the refusal has none
    text            what is wrong, in a few words
    rule            when the number is given exactly
    section         where docs/RULES.md says it
    mend            what the supplier should mend, or the caller where no file is at fault
    """

    def __init__(self, number: int, record: int = 0, column: int = 0) -> None:
        super().__init__(number, record, column)
        self.number = number
        self.record = record
        self.column = column
        self.text, self.rule, self.section, self.mend = REFUSALS.get(number, ("an unknown refusal", "", "", ""))

    def __str__(self) -> str:
        return f"{self.number} at {self.record},{self.column}: {self.text}"
