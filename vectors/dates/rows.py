"""The rows of dates of the program format_cases, for formats/make.py: texts and day numbers, and what they are.

The answers are those of Python's `datetime`, which has the years 1 to 9999 of the same calendar. A row that begins with
# is printed again. The rows are always the same."""
import datetime
import random
import re

FORM = re.compile(r"[0-9]{4}-[0-9]{2}-[0-9]{2}")
EPOCH = datetime.date(1970, 1, 1).toordinal()
FIRST, LAST = (day.toordinal() - EPOCH for day in (datetime.date.min, datetime.date.max))
YEARS = (1, 4, 100, 400, 1582, 1600, 1900, 1969, 1970, 1972, 1999, 2000, 2023, 2024, 2100, 9999)
LENGTHS = (31, 28, 31, 30, 31, 30, 31, 31, 30, 31, 30, 31)
LINES, ANSWERS = [], []


def day_in(text):
    """The day number of a date's text, or None."""
    if not FORM.fullmatch(text):
        return None
    year, month, day = (int(part) for part in text.split("-"))
    try:
        return datetime.date(year, month, day).toordinal() - EPOCH
    except ValueError:
        return None


def shown(day):
    """What is printed of a day."""
    if not FIRST <= day <= LAST:
        return f"DATE({day})"
    return f"DATE '{datetime.date.fromordinal(day + EPOCH).isoformat()}'"


def note(text):
    LINES.append(f"# {text}")
    ANSWERS.append(LINES[-1])


def read(text):
    day = day_in(text)
    LINES.append(f"day {text}")
    ANSWERS.append("none" if day is None else str(day))


def printed(day):
    LINES.append(f"shown {day}")
    ANSWERS.append(shown(day))


def worked():
    """Rows by hand, against which `datetime` is held too."""
    note("by hand")
    days = {"1994-01-01": 8766, "2000-02-29": 11016, "0001-01-01": -719162, "9999-12-31": 2932896, "1970-01-01": 0}
    for text, day in days.items():
        assert day_in(text) == day and shown(day) == f"DATE '{text}'"
        read(text)
        printed(day)
    none = ("1994-02-29", "1900-02-29", "1994-1-1", "0000-01-01", "1994-13-01", "1994-01-32", " 1994-01-01", "1994-01-01 ", "")
    for text in none:
        assert day_in(text) is None
        read(text)
    for day in (-719163, 2932897):
        assert shown(day) == f"DATE({day})"
        printed(day)


def months():
    note("the ends of months, and the days around them")
    for year in YEARS:
        for month, length in enumerate(LENGTHS, 1):
            for day in sorted({1, length, length + 1}):
                read(f"{year:04}-{month:02}-{day:02}")
        read(f"{year:04}-02-30")


def outside():
    note("parts that no calendar has")
    for text in ("0000-12-31", "1994-00-01", "1994-01-00", "1994-00-00", "1994-12-32", "1994-99-01", "1994-01-99", "0000-00-00"):
        read(text)


def other_texts():
    note("texts of another form")
    text = "1994-01-01"
    for place in range(len(text)):
        for other in " -/0:+aé":
            read(text[:place] + other + text[place + 1:])
        read(text[:place])
        read(text[:place] + text[place + 1:])
        read(text[:place] + "0" + text[place:])
    for other in ("1994-01-01-", "01994-01-01", "-1994-01-01", "+1994-01-01", "19940101", "1994/01/01", "01-01-1994", "1994-W01-1",
                  "1994-001", "1994-01-01T00:00:00", "1994-01-01Z", "'1994-01-01'", "today", "١٩٩٤-01-01", "１９９４-０１-０１"):
        read(other)


def numbers():
    note("day numbers")
    ends = (FIRST, LAST, -4371587, 2932896, -2 ** 31, 2 ** 31 - 1, 0)
    for day in sorted({end + step for end in ends for step in (-1, 0, 1) if -2 ** 31 <= end + step < 2 ** 31}):
        printed(day)
    for year in YEARS:
        first = datetime.date(year, 1, 1).toordinal() - EPOCH
        for day in (first - 1, first, first + 58, first + 59, first + 60):
            printed(day)


def drawn():
    note("drawn at random")
    draw = random.Random(8766)
    for _ in range(100):
        day = draw.randint(FIRST, LAST)
        printed(day)
        read(shown(day)[6:16])


def rows():
    """Each row and its answer."""
    for part in (worked, months, outside, other_texts, numbers, drawn):
        part()
    return list(zip(LINES, ANSWERS))
