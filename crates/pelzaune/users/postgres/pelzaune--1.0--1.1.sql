-- complain if the script is sourced in psql, rather than by ALTER EXTENSION
\echo Use "ALTER EXTENSION pelzaune UPDATE TO '1.1'" to load this file. \quit

-- The functions are those of 1.0: the library of 1.1 has their new behaviour.

COMMENT ON FUNCTION pelzaune_timestamptz(text, text) IS
    'parse text as timestamptz by rfc3339, rfc2822, iso8601 or a description';
COMMENT ON FUNCTION pelzaune_try_timestamptz(text, text) IS
    'parse text as timestamptz, or return NULL if it does not parse';
COMMENT ON FUNCTION pelzaune_timestamp(text, text) IS
    'parse local date and time of text as timestamp, without its offset';
COMMENT ON FUNCTION pelzaune_try_timestamp(text, text) IS
    'parse local date and time of text as timestamp, or return NULL if it does not parse';
COMMENT ON FUNCTION pelzaune_date(text, text) IS
    'parse text as date by rfc3339, rfc2822, iso8601 or a description';
COMMENT ON FUNCTION pelzaune_try_date(text, text) IS
    'parse text as date, or return NULL if it does not parse';
COMMENT ON FUNCTION pelzaune_time(text, text) IS
    'parse text as time by rfc3339, rfc2822, iso8601 or a description';
COMMENT ON FUNCTION pelzaune_try_time(text, text) IS
    'parse text as time, or return NULL if it does not parse';
COMMENT ON FUNCTION pelzaune_unix_ns(text, text) IS
    'parse text as nanoseconds since 1970-01-01 00:00:00 UTC';
COMMENT ON FUNCTION pelzaune_try_unix_ns(text, text) IS
    'parse text as nanoseconds since 1970-01-01 00:00:00 UTC, or return NULL if it does not parse';
COMMENT ON FUNCTION pelzaune_place(text, text) IS
    'location and reason of the error of text, or NULL if it parses';
COMMENT ON FUNCTION pelzaune_text(timestamptz, text, text) IS
    'format timestamptz at an offset or in a time zone';
