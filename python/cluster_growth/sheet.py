"""Decimals of a calibration sheet as whole ten-thousandths, which is what the library takes."""
from __future__ import annotations

import re

from .sizes import MOST_VALUE

PLACES = 4
DECIMAL = re.compile(r'(-?)([0-9]+)(?:\.([0-9]+))?')


def ten_thousandths(word: str) -> int:
    """The whole ten-thousandths of a decimal from 0 to 99999.9999; ValueError where it is none, or has more than four
    places.
    """
    found = DECIMAL.fullmatch(word)
    if found is None:
        raise ValueError(f"'{word[:60]}' is no decimal")
    sign, whole, places = found[1], found[2].lstrip('0'), found[3] or ''
    if len(places) > PLACES:
        raise ValueError(f'{word[:60]} has {len(places)} decimal places: at most four can be')
    value = int(whole[:6] + places.ljust(PLACES, '0'))
    if value > MOST_VALUE or sign and value:
        raise ValueError(f'{word[:60]} is out of range: 0 to {decimal(MOST_VALUE)} can be')
    return value


def decimal(value: int) -> str:
    """Ten-thousandths as a decimal without needless zeros."""
    whole, places = divmod(value, 10**PLACES)
    return f'{whole}.{places:04}'.rstrip('0').rstrip('.')
