"""Refusals as an exception. The engine decides that something is refused, with a number and a place; here it only gets its
words, from the table that all share.
"""

from __future__ import annotations

from .words.table import Facts, chosen, say, table


class Refused(Exception):
    """The engine has refused: a number, a place, and both in words.

    Attributes
    ----------
    number : int
        The reason, as include/walzhik.h lists them.
    place : int
        The breakpoint, stretch, join, entry or line at fault; what it counts depends on the number.
    words : str
        One or two sentences that name the entry and the rule.
    remedy : str
        What to do, or an empty text.

    Examples
    --------
    >>> from walzhik import Space
    >>> Space([0, 1, 3], [1, 2], [1])
    Traceback (most recent call last):
    ...
    walzhik.errors.Refused: no=5,0: Join 0, at ring 1, has order 1, but the stretch before it has degree 1: at most 0.
    """

    def __init__(self, number: int, place: int, words: str, remedy: str = "") -> None:
        super().__init__(number, place, words, remedy)
        self.number = number
        self.place = place
        self.words = words
        self.remedy = remedy

    def __str__(self) -> str:
        return f"no={self.number},{self.place}: {self.words}"

    @classmethod
    def because(cls, number: int, place: int, case: str, /, **told: object) -> Refused:
        """The refusal with the words of a case that is known.

        Examples
        --------
        >>> print(Refused.because(1, 0, "buffer"))
        no=1,0: Buffer 0 is too short for what the call writes.
        """
        return cls(number, place, say(number, case, place=place, **told), table()[number, case].remedy)

    @classmethod
    def by_facts(cls, number: int, place: int, given: str, facts: Facts | None) -> Refused:
        """The refusal with the words of the first row whose conditions hold for the facts of what was given, and of a
        further row where there is one; without words where there are no facts or no row fits.

        Examples
        --------
        >>> print(Refused.by_facts(4, 0, "lists", {"start": 0, "end": 1, "degree": 6}))
        no=4,0: Stretch 0, from ring 0 to ring 1, has degree 6: each degree is from 1 to 5.
        """
        told: Facts = {"place": place, **(facts or {})}
        row = chosen(number, given, told) if facts is not None else None
        if row is None:
            return cls.without_words(number, place)
        then = chosen(number, f"{given}-then", told)
        words = row.told(told)
        return cls(number, place, f"{words} {then.told(told)}" if then else words, (then or row).remedy)

    @classmethod
    def without_words(cls, number: int, place: int) -> Refused:
        """The refusal where no case of the table fits, so that number and place are never lost."""
        return cls(number, place, f"There are no words for it here; docs/MANUAL.md lists number {number}.")
