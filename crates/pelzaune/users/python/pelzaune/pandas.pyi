import datetime
from typing import Any, Literal, Optional, Union

from pelzaune import Description

__all__ = ["to_datetime"]

# A Series of a Series, and a DatetimeIndex of an Index, a list, a tuple or an array.
def to_datetime(
    series: Any,
    format: Union[int, str, bytes, Description] = ...,
    errors: Literal["raise", "none", "coerce"] = ...,
    offset: Optional[Union[str, datetime.tzinfo]] = ...,
) -> Any: ...
