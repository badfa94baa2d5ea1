"""The datatype whose form a text has: the times of docs/RULES.md."""

from __future__ import annotations

import re

__all__ = ["time_datatype"]

_YEAR = r"-?(?!0000(?![0-9]))(?:[0-9]{4}|[1-9][0-9]{4,})"
_DATE = rf"{_YEAR}-(?:0[1-9]|1[0-2])-(?:0[1-9]|[12][0-9]|3[01])"
_CLOCK = r"(?:(?:[01][0-9]|2[0-3]):[0-5][0-9]:[0-5][0-9](?:\.[0-9]+)?|24:00:00(?:\.0+)?)"
_ZONE = r"(?:Z|[+-](?:(?:0[0-9]|1[0-3]):[0-5][0-9]|14:00))?"
_DURATION = r"-?P(?!\Z)(?:[0-9]+Y)?(?:[0-9]+M)?(?:[0-9]+D)?(?:T(?!\Z)(?:[0-9]+H)?(?:[0-9]+M)?(?:[0-9]+(?:\.[0-9]+)?S)?)?"
_FORMS = {
    "gYear": _YEAR + _ZONE,
    "gYearMonth": rf"{_YEAR}-(?:0[1-9]|1[0-2]){_ZONE}",
    "date": _DATE + _ZONE,
    "time": _CLOCK + _ZONE,
    "dateTime": f"{_DATE}T{_CLOCK}{_ZONE}",
    "duration": _DURATION,
}
_PATTERNS = {name: re.compile(form) for name, form in _FORMS.items()}


def time_datatype(text: str) -> str | None:
    """The IRI of the datatype, if there is one.

    >>> time_datatype("2026-11-28"), time_datatype("P1DT2H"), time_datatype("today")
    ('http://www.w3.org/2001/XMLSchema#date', 'http://www.w3.org/2001/XMLSchema#duration', None)
    """
    return next((f"http://www.w3.org/2001/XMLSchema#{name}" for name, pattern in _PATTERNS.items() if pattern.fullmatch(text)), None)
