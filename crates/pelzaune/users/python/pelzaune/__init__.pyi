import array
import datetime
import enum
from typing import Any, Final, Iterable, List, Literal, Optional, Tuple, Union, final, overload

class Format(enum.IntEnum):
    RFC3339: int
    RFC2822: int
    ISO8601: int

RFC3339: Final = Format.RFC3339
RFC2822: Final = Format.RFC2822
ISO8601: Final = Format.ISO8601
NO_COUNT: Final[int]
__version__: str

class ParseError(ValueError):
    component: Optional[str]
    index: Optional[int]
    text_index: Optional[int]

class DescriptionError(ParseError): ...

class FormatError(ValueError):
    component: Optional[str]
    text_index: Optional[int]

@final
class Description:
    def __init__(self, text: Union[str, bytes]) -> None: ...
    @property
    def text(self) -> Union[str, bytes]: ...

_Text = Union[str, bytes]
_Format = Union[int, str, bytes, Description]

def parse(text: _Text, format: _Format = ...) -> datetime.datetime: ...
def parse_date(text: _Text, format: _Format = ...) -> datetime.date: ...
def parse_time(text: _Text, format: _Format = ...) -> datetime.time: ...
def parse_parts(
    text: _Text, format: _Format = ...
) -> Tuple[Optional[datetime.date], Optional[datetime.time], Optional[datetime.timezone]]: ...
def unix_ns(text: _Text, format: _Format = ...) -> int: ...

_Zone = Union[str, datetime.tzinfo]

# `texts` are those of a list, of any other iterable, of an array of numpy or of a Series of pandas.
@overload
def parse_many(
    texts: Iterable[_Text], format: _Format = ..., errors: Literal["raise"] = ..., offset: Optional[_Zone] = ...
) -> "array.array[int]": ...
@overload
def parse_many(
    texts: Iterable[_Text], format: _Format = ..., *, errors: Literal["none", "coerce"], offset: Optional[_Zone] = ...
) -> Tuple["array.array[int]", "array.array[int]"]: ...
@overload
def parse_many(
    texts: Iterable[_Text], format: _Format, errors: Literal["none", "coerce"], offset: Optional[_Zone] = ...
) -> Tuple["array.array[int]", "array.array[int]"]: ...

# `text` and `out` are any contiguous buffers, of bytes and of signed numbers of 64 bits.
def column(text: Any, format: _Format = ..., offset: Optional[_Zone] = ...) -> "array.array[int]": ...
def column_into(text: Any, out: Any, format: _Format = ..., offset: Optional[_Zone] = ...) -> Tuple[int, int]: ...
def format_datetime(value: datetime.datetime, format: _Format = ..., zone: Optional[_Zone] = ...) -> str: ...

# `values` are those of any iterable, such as a list or a Series of pandas.
def format_many(values: Iterable[datetime.datetime], format: _Format = ..., zone: Optional[_Zone] = ...) -> List[str]: ...
