"""Texts of pandas as times in UTC. Import it by hand; it needs pandas.

>>> import pandas
>>> import pelzaune.pandas
>>> texts = pandas.Series(["1985-04-12T23:20:50.52-08:30", None, "1985-04-31T00:00:00Z"], name="seen")
>>> pelzaune.pandas.to_datetime(texts, errors="coerce")
0   1985-04-13 07:50:50.520000+00:00
1                                NaT
2                                NaT
Name: seen, dtype: datetime64[ns, UTC]
>>> pelzaune.pandas.to_datetime(texts)
Traceback (most recent call last):
    ...
pelzaune.ParseError: text 2: day is out of range for the other components
>>> pelzaune.pandas.to_datetime(["02.01.2021 03:04"], "%d.%m.%Y %H:%M", offset="Europe/Berlin")
DatetimeIndex(['2021-01-02 02:04:00+00:00'], dtype='datetime64[ns, UTC]', freq=None)
"""
import numpy
import pandas

from pelzaune import RFC3339
from pelzaune._pelzaune import _parse_present

__all__ = ["to_datetime"]

MISSING = (None, pandas.NaT, pandas.NA)
IN_UTC = pandas.DatetimeTZDtype("ns", "UTC")


def to_datetime(series, format=RFC3339, errors="raise", offset=None):
    """The times of texts, in UTC: a Series of datetime64[ns, UTC] with the index and name of a Series, and a DatetimeIndex
    for an Index, which keeps its name, a list, a tuple or an array, as pandas.to_datetime returns.

    The texts are str or bytes, in any dtype of these: object, string or category. The format is a Format or its name, a
    Description or the text of one. A text needs an offset, or another component that determines the instant; one without
    has the `offset` of the argument: a tzinfo, an offset such as "+05:30", or the name of a time zone.

    A missing value (None, NaN, NaT or pandas.NA) becomes NaT. A rejected text raises ParseError, whose `text_index` is
    its index, from 0; with errors="coerce" or "none" it becomes NaT. A text whose instant datetime64[ns] can't represent
    is rejected, too. Anything else than a text raises TypeError.
    """
    counts = _parse_present(texts_of(series), format, errors, offset, MISSING)
    if isinstance(counts, tuple):
        counts, _ = counts
    times = pandas.array(numpy.asarray(counts), dtype=IN_UTC, copy=False)
    if isinstance(series, pandas.Series):
        return pandas.Series(times, index=series.index, name=series.name, copy=False)
    return pandas.DatetimeIndex(times, name=getattr(series, "name", None))


def texts_of(series):
    """The texts in a list, a tuple or an array of one dimension."""
    if isinstance(series, (list, tuple)):
        return series
    if isinstance(series, (pandas.Series, pandas.Index, pandas.api.extensions.ExtensionArray)):
        return series.to_numpy(dtype=object)
    if isinstance(series, numpy.ndarray) and series.ndim == 1:
        return series
    raise TypeError(f"series must be a Series, an Index, a list or an array of one dimension, not {type(series).__name__}")
