-- complain if the script is sourced in psql, rather than by CREATE EXTENSION
\echo Use "CREATE EXTENSION pelzaune" to load this file. \quit

-- A cost of 5 is what a parse takes beside a comparison of numbers, which costs 1.

CREATE FUNCTION pelzaune_timestamptz(text text, format text DEFAULT 'rfc3339') RETURNS timestamptz
    AS 'MODULE_PATHNAME', 'call_timestamptz' LANGUAGE C IMMUTABLE STRICT PARALLEL SAFE COST 5;

CREATE FUNCTION pelzaune_try_timestamptz(text text, format text DEFAULT 'rfc3339') RETURNS timestamptz
    AS 'MODULE_PATHNAME', 'call_try_timestamptz' LANGUAGE C IMMUTABLE STRICT PARALLEL SAFE COST 5;

CREATE FUNCTION pelzaune_timestamp(text text, format text DEFAULT 'rfc3339') RETURNS timestamp
    AS 'MODULE_PATHNAME', 'call_timestamp' LANGUAGE C IMMUTABLE STRICT PARALLEL SAFE COST 5;

CREATE FUNCTION pelzaune_try_timestamp(text text, format text DEFAULT 'rfc3339') RETURNS timestamp
    AS 'MODULE_PATHNAME', 'call_try_timestamp' LANGUAGE C IMMUTABLE STRICT PARALLEL SAFE COST 5;

CREATE FUNCTION pelzaune_date(text text, format text DEFAULT 'rfc3339') RETURNS date
    AS 'MODULE_PATHNAME', 'call_date' LANGUAGE C IMMUTABLE STRICT PARALLEL SAFE COST 5;

CREATE FUNCTION pelzaune_try_date(text text, format text DEFAULT 'rfc3339') RETURNS date
    AS 'MODULE_PATHNAME', 'call_try_date' LANGUAGE C IMMUTABLE STRICT PARALLEL SAFE COST 5;

CREATE FUNCTION pelzaune_time(text text, format text DEFAULT 'rfc3339') RETURNS time
    AS 'MODULE_PATHNAME', 'call_time' LANGUAGE C IMMUTABLE STRICT PARALLEL SAFE COST 5;

CREATE FUNCTION pelzaune_try_time(text text, format text DEFAULT 'rfc3339') RETURNS time
    AS 'MODULE_PATHNAME', 'call_try_time' LANGUAGE C IMMUTABLE STRICT PARALLEL SAFE COST 5;

CREATE FUNCTION pelzaune_unix_ns(text text, format text DEFAULT 'rfc3339') RETURNS numeric
    AS 'MODULE_PATHNAME', 'call_unix_ns' LANGUAGE C IMMUTABLE STRICT PARALLEL SAFE COST 5;

CREATE FUNCTION pelzaune_try_unix_ns(text text, format text DEFAULT 'rfc3339') RETURNS numeric
    AS 'MODULE_PATHNAME', 'call_try_unix_ns' LANGUAGE C IMMUTABLE STRICT PARALLEL SAFE COST 5;

CREATE FUNCTION pelzaune_place(text text, format text DEFAULT 'rfc3339',
    OUT index bigint, OUT expectation text, OUT reason text)
    AS 'MODULE_PATHNAME', 'call_place' LANGUAGE C IMMUTABLE STRICT PARALLEL SAFE COST 20;

CREATE FUNCTION pelzaune_text(moment timestamptz, format text DEFAULT 'rfc3339', "offset" text DEFAULT 'Z') RETURNS text
    AS 'MODULE_PATHNAME', 'call_text' LANGUAGE C IMMUTABLE STRICT PARALLEL SAFE COST 5;
