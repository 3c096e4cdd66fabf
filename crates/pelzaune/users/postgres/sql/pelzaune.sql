CREATE EXTENSION pelzaune;

SET timezone = 'UTC';
SET datestyle = 'ISO';

-- examples of RFC 3339 and RFC 2822
SELECT pelzaune_timestamptz('1985-04-12T23:20:50.52Z');
SELECT pelzaune_timestamptz('Fri, 21 Nov 1997 09:55:06 -0600', 'RFC2822');

-- ISO 8601, also before our era: the year 0 is 1 BC
SELECT pelzaune_date('2020-W53-6', 'iso8601');
SELECT pelzaune_timestamp('-000043-03-15T12:00:00', 'iso8601');

-- a description of each syntax
SELECT pelzaune_date('12.04.1985', '%d.%m.%Y');
SELECT pelzaune_time('1:05 PM', '[hour repr:12 padding:none]:[minute] [period]');

-- nanoseconds
SELECT pelzaune_unix_ns('1970-01-02T00:00:00.000000001Z');

-- errors
SELECT pelzaune_try_date('31.04.1985', '%d.%m.%Y') IS NULL AS is_null;
SELECT * FROM pelzaune_place('1985-13-12T23:20:50Z');
SELECT pelzaune_date('31.04.1985', '%d.%m.%Y');
SELECT pelzaune_try_date('31.04.1985', '[dya]');
SELECT pelzaune_try_date('31.04.1985', 'iso-8601');
SELECT pelzaune_timestamptz('1985-04-12_23:20:50Z');
SELECT pelzaune_time(repeat('0', 1048577));

-- formatting at an offset and in a time zone
SELECT pelzaune_text('1985-04-12 23:20:50.52+00', 'rfc3339', '-08:30');
SELECT pelzaune_text('1985-04-12 23:20:50.52+00', 'rfc2822', 'Europe/Berlin');
SELECT pelzaune_text('1985-04-12 23:20:50.52+00', '%T.%3f %:z', '-08:30');
SELECT pelzaune_text('1985-04-12 23:20:50.52+00', 'rfc2822', 'Europe/Atlantis');

DROP EXTENSION pelzaune;
