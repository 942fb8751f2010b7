"""What a file came to, as one line of JSON: the hashes that say whether it must be done again, its outputs, and its
rows of the report. Workers send such lines, the journal and the manifest keep them.
"""

from __future__ import annotations

import json
from typing import NamedTuple

PARTS = ", "  # between the shapes of a curve's parts
ENCODER = json.JSONEncoder(separators=(",", ":"))


class Row(NamedTuple):
    """A series in the report.

    Attributes
    ----------
    name : str
    rings : int
    n : int or None
        How many coefficients its curve has.
    refusal : str
        Empty where all went well.
    first : int or None
        The year of its first ring.
    shape : str
        What its fitted coefficients do; empty where a sheet was given.
    deviation, explained : float or None
        Root of the mean square of width less curve, in millimetres, and the share of the variance explained.
    number : int or None
        The engine's, of a refusal that is its own.
    seconds : float or None
        None where a finished run did it before. The last field, as `Record.without_seconds` has it.
    """

    name: str
    rings: int
    n: int | None
    refusal: str
    first: int | None = None
    shape: str = ""
    deviation: float | None = None
    explained: float | None = None
    number: int | None = None
    seconds: float | None = None

    @property
    def last(self) -> int | None:
        """The year of its last ring."""
        return None if self.first is None else self.first + self.rings - 1


class Record(NamedTuple):
    """What a file came to. What it says stands in the output folder: its outputs, and no others of its name.

    Attributes
    ----------
    path : str
        As `walzhik.bank.inputs.Input` has it.
    digest : str
        Of the file's bytes; empty where these couldn't be had, so that it is tried again.
    options, version : str
        Hashes of what was asked, and of what worked it out.
    outputs : dict
        The hash of each output by its path below the output folder.
    refusal : str
        Why nothing of the file was worked out.
    number : int or None
        The engine's, of a refusal that is its own.
    changes : list of str
        What was noted or changed when it was read.
    rows : list of Row
        In order of the series' names.
    seconds : float or None
    """

    path: str
    digest: str = ""
    options: str = ""
    version: str = ""
    outputs: dict[str, str] = {}
    refusal: str = ""
    number: int | None = None
    changes: list[str] = []
    rows: list[Row] = []
    seconds: float | None = None

    def line(self) -> bytes:
        """One line of JSON in ASCII.

        Examples
        --------
        >>> record = Record("oak.rwl", rows=[Row("A", 3, 2, "")])
        >>> Record.read(record.line()) == record
        True
        """
        return ENCODER.encode(self._asdict()).encode("ascii") + b"\n"

    def without_seconds(self) -> Record:
        """The record as every run gives it, whatever it runs on."""
        return self._replace(rows=[Row(*row[:-1]) for row in self.rows], seconds=None)

    @classmethod
    def read(cls, line: bytes) -> Record:
        """The record of a line.

        Raises
        ------
        ValueError
            If it is none: half a line, or another program's.
        """
        try:
            record = cls(**json.loads(line))
            return record._replace(rows=[Row(*row) for row in record.rows])
        except (TypeError, UnicodeDecodeError) as error:
            raise ValueError(f"no record: {error}") from error
