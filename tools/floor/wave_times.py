"""The hour at which a wave goes out, where its name tells a time."""

import re

# 08.30, 08:30 or 08h30, which is no part of a date such as 2026.12.01.
PARTED = re.compile(r'(?<![0-9])(?<![0-9]\.)([01][0-9]|2[0-3])[.:h][0-5][0-9](?!\.?[0-9])')
DIGITS = re.compile(r'(?<![0-9])[0-9]{4}$')
TIME = re.compile(r'([01][0-9]|2[0-3])[0-5][0-9]')


def hours_of(names):
    """The hour of each name that tells a time. Four digits at the end of names are times where all of them are."""
    hours, digits = {}, {}
    for name in names:
        parted, last = PARTED.findall(name), DIGITS.search(name)
        if parted:
            hours[name] = int(parted[-1])
        elif last:
            digits[name] = TIME.fullmatch(last[0])
    if all(digits.values()):
        hours.update((name, int(time[1])) for name, time in digits.items())
    return hours
