\echo Use "CREATE EXTENSION talmuiga" to load this file. \quit

-- A number in the form of a locale, as a number skeleton asks for it. It isn't immutable, since tables may change.
CREATE FUNCTION number_format(number numeric, locale text, skeleton text) RETURNS text
    AS 'MODULE_PATHNAME', 'talmuiga_number_format'
    LANGUAGE C STABLE STRICT PARALLEL SAFE COST 10;
