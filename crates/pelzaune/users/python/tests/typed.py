"""Each call with the types of its arguments and its result, for a type checker."""
import array
import datetime
from typing import List, Optional, Tuple

import pelzaune
import pelzaune.pandas

day = pelzaune.Description("[day].[month].[year]")
form: pelzaune.Format = pelzaune.Format.ISO8601
text: str = "1985-04-12T23:20:50.52Z"

moment: datetime.datetime = pelzaune.parse(text)
date: datetime.date = pelzaune.parse_date(b"12.04.1985", day)
time: datetime.time = pelzaune.parse_time("23:20", "%H:%M")
parts: Tuple[Optional[datetime.date], Optional[datetime.time], Optional[datetime.timezone]] = pelzaune.parse_parts(text, pelzaune.ISO8601)
nanoseconds: int = pelzaune.unix_ns(text, format=pelzaune.RFC3339)
entries: "array.array[int]" = pelzaune.column(text + "\n", pelzaune.RFC3339)
by_name: "array.array[int]" = pelzaune.column(text, "rfc3339", offset=datetime.timezone.utc)
many: "array.array[int]" = pelzaune.parse_many([text, b""], pelzaune.RFC3339, errors="raise")
lenient: Tuple["array.array[int]", "array.array[int]"] = pelzaune.parse_many((it for it in [text]), errors="none")
coerced: Tuple["array.array[int]", "array.array[int]"] = pelzaune.parse_many([text], form, "coerce", "+01:00")
by_day: Tuple["array.array[int]", "array.array[int]"] = pelzaune.parse_many([text], day, "none")
to_datetime = pelzaune.pandas.to_datetime
counts: Tuple[int, int] = pelzaune.column_into(b"", entries)
written: str = pelzaune.format_datetime(moment, pelzaune.RFC2822)
shown: str = pelzaune.format_datetime(moment, "rfc2822", zone="Europe/Berlin")
by_description: str = pelzaune.format_datetime(moment, day, zone=datetime.timezone.utc)
by_its_text: str = pelzaune.format_datetime(moment, format=b"%Y-%m-%d")
texts: List[str] = pelzaune.format_many([moment, moment])
others: List[str] = pelzaune.format_many((it for it in [moment]), day, "+01:00")
version: str = pelzaune.__version__

try:
    pelzaune.parse("", day)
except pelzaune.DescriptionError as fault:
    index: Optional[int] = fault.index
except pelzaune.ParseError as refusal:
    component: Optional[str] = refusal.component
    index = refusal.text_index
except pelzaune.FormatError as unwritten:
    component = unwritten.component
    index = unwritten.text_index
