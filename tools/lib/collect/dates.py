"""Whether dates of rules hold at a moment, in seconds since 1970. A date without a time zone is UTC."""
import calendar
import re
from datetime import datetime, timedelta, timezone

from .unsaid import Unknown

DATE = re.compile(r"(\d{4})-(\d\d)-(\d\d)(?:[T ]+(\d\d):(\d\d)(?::(\d\d))?)? *(?:Z|([-+])(\d\d):?(\d\d))?$")
RANGE = re.compile(r"(\d+)?(-)?(\d+)?$")
FIELDS = ("years", "months", "monthdays", "hours", "minutes", "seconds", "yeardays", "weekyears", "weeks", "weekdays")


def holds(element, moment):
    """Whether a `date_expression` holds."""
    operation, start, end = element.get("operation", "in_range"), element.get("start"), element.get("end")
    if operation == "date_spec":
        return all(fits(moment, part) for part in element.findall("date_spec"))
    if operation == "gt":
        return start is not None and moment > seconds(start)
    if operation == "lt":
        return end is not None and moment < seconds(end)
    if operation != "in_range" or start is end is None:
        return False
    if start is not None and end is None and element.find("duration") is not None:
        last = later(seconds(start), element.find("duration"))
    else:
        last = None if end is None else seconds(end)
    return (start is None or moment >= seconds(start)) and (last is None or moment <= last)


def seconds(text):
    match = DATE.match(text)
    if not match:
        raise Unknown(f"the date {text}")
    year, month, day, hour, minute, second, sign, hours, minutes = match.groups()
    try:
        moment = datetime(*(int(part or 0) for part in (year, month, day, hour, minute, second)), tzinfo=timezone.utc)
    except ValueError as error:
        raise Unknown(f"the date {text}") from error
    ahead = (int(hours) * 3600 + int(minutes) * 60) * (-1 if sign == "-" else 1) if sign else 0
    return int(moment.timestamp()) - ahead


def later(start, duration):
    """The end of a duration; months are those of the calendar."""
    try:
        lengths = {key: int(value) for key, value in duration.attrib.items() if key != "id"}
        moment = datetime.fromtimestamp(start, timezone.utc)
        months = moment.year * 12 + moment.month - 1 + lengths.pop("years", 0) * 12 + lengths.pop("months", 0)
        year, month = months // 12, months % 12 + 1
        begun = moment.replace(year=year, month=month, day=min(moment.day, calendar.monthrange(year, month)[1]))
        return int((begun + timedelta(**lengths)).timestamp())
    except (TypeError, ValueError, OverflowError) as error:
        raise Unknown("a duration") from error


def fits(moment, spec):
    """Whether a moment lies in all ranges of a `date_spec`."""
    now = datetime.fromtimestamp(moment, timezone.utc)
    week_year, week, week_day = now.isocalendar()
    values = dict(zip(FIELDS, (now.year, now.month, now.day, now.hour, now.minute, now.second, now.timetuple().tm_yday,
                               week_year, week, week_day)))
    for key, text in spec.attrib.items():
        match = RANGE.match(text.strip()) if key in values else None
        if key != "id" and (match is None or match[1] is match[3] is None):
            raise Unknown(f"{key}={text}")
        if key != "id" and not within(values[key], match):
            return False
    return True


def within(value, match):
    least, dash, most = match.groups()
    if not dash:
        return value == int(least)
    return (least is None or value >= int(least)) and (most is None or value <= int(most))
