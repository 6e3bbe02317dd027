"""Moments in the zone of a provider. A zone is a POSIX rule, which the standard library reads at the end of a zone's file."""

import datetime
import functools
import io
import re
import struct
import zoneinfo

END = 4_102_444_800
DAY = re.compile(r"([0-9]{4})-([0-9]{2})-([0-9]{2})")
# The shape of a rule; the standard library knows which numbers are of a calendar.
NAME, MINUTES = "(?:[A-Za-z]{3,15}|<[A-Za-z0-9+-]{3,15}>)", "(?::[0-5][0-9](?::[0-5][0-9])?)?"
CHANGE = rf",(?:J?[0-9]{{1,3}}|M[0-9]{{1,2}}\.[0-9]\.[0-9])(?:/[+-]?[0-9]{{1,3}}{MINUTES})?"
RULE = re.compile(rf"{NAME}[+-]?[0-9]{{1,2}}{MINUTES}(?:{NAME}(?:[+-]?[0-9]{{1,2}}{MINUTES})?{CHANGE}{CHANGE})?")
MONTHS = "January February March April May June July August September October November December".split()


@functools.cache
def zone(rule):
    """The zone of a rule. ValueError where it is none."""
    if not RULE.fullmatch(rule):
        raise ValueError("it hasn't the shape of a rule")
    front = b"TZif2" + bytes(15) + struct.pack(">6l", 0, 0, 0, 0, 1, 4) + struct.pack(">lbb", 0, 0, 0) + b"UTC\0"
    return zoneinfo.ZoneInfo.from_file(io.BytesIO(front + front + b"\n" + rule.encode("ascii") + b"\n"), rule)


def at(moment, rule):
    """The moment on a clock of the zone; on one of UTC where the library has no clock so far from it."""
    try:
        return datetime.datetime.fromtimestamp(int(moment), zone(rule))
    except ValueError:
        return datetime.datetime.fromtimestamp(int(moment), datetime.UTC)


def stamp(moment, rule):
    """As a log has it: 2024-01-02 10:00:00 +0100."""
    return at(moment, rule).strftime("%Y-%m-%d %H:%M:%S %z")


def words(moment, rule):
    """As a text has it: 2 January 2024, 10:00:00 +0100."""
    when = at(moment, rule)
    return f"{when.day} {MONTHS[when.month - 1]} {when.year}, {when.strftime('%H:%M:%S %z')}"


def day(text, rule):
    """The first and the last moment of a day in a zone, or None where it is no day of the years from 1970 to 2099."""
    found = DAY.fullmatch(text)
    try:
        begin = datetime.datetime(*map(int, found.groups()), tzinfo=zone(rule)) if found else None
        ends = [int(one.timestamp()) for one in (begin, begin + datetime.timedelta(days=1))] if begin else None
    except (ValueError, OverflowError):
        return None
    return (max(0, ends[0]), min(ends[1], END) - 1) if ends and ends[1] > 0 and ends[0] < END else None


def moment(text, rule=None):
    """The moment that a word says: `now`, seconds since 1970, or a date and time with its offset, or in the zone of a rule.
    None where it says none."""
    if text == "now":
        return int(datetime.datetime.now(datetime.UTC).timestamp())
    if re.fullmatch("0|[1-9][0-9]{0,9}", text):
        return int(text) if int(text) < END else None
    try:
        when = datetime.datetime.fromisoformat(text)
        if when.tzinfo is None:
            when = when.replace(tzinfo=zone(rule)) if rule and "T" in text.replace(" ", "T") else None
        seconds = int(when.timestamp()) if when else -1
    except (ValueError, OverflowError):
        return None
    return seconds if 0 <= seconds < END else None
