-- The objects of the extension hechroung: see docs/SQL.md.
\echo Use "CREATE EXTENSION hechroung" to load this file. \quit

CREATE TYPE hechroung_answer AS (
    refusal integer, place integer, sentence text, radius bigint, range_low bigint, range_high bigint,
    integral_low bigint, integral_high bigint, q bigint, r bigint
);

CREATE TYPE hechroung_totals AS (
    accepted bigint, refused bigint, nulls bigint, without_exact bigint, q numeric, r bigint,
    integral_low numeric, integral_high numeric
);

-- The cost of a run: it takes as long as some thousand simple operators, so that the planner shares it out.
CREATE FUNCTION hechroung_run(sheet bytea) RETURNS hechroung_answer
    AS 'MODULE_PATHNAME', 'hechroung_pg_run' LANGUAGE C IMMUTABLE STRICT PARALLEL SAFE COST 1000;

-- The parts of the aggregate. Its state is a bytea and not `internal`, so that a distributed PostgreSQL may send it
-- from machine to machine as it is.
CREATE FUNCTION hechroung_total_add(state bytea, sheet bytea) RETURNS bytea
    AS 'MODULE_PATHNAME', 'hechroung_pg_total_add' LANGUAGE C IMMUTABLE CALLED ON NULL INPUT PARALLEL SAFE COST 1000;

CREATE FUNCTION hechroung_total_combine(state bytea, other bytea) RETURNS bytea
    AS 'MODULE_PATHNAME', 'hechroung_pg_total_combine' LANGUAGE C IMMUTABLE STRICT PARALLEL SAFE;

CREATE FUNCTION hechroung_total_row(state bytea) RETURNS hechroung_totals
    AS 'MODULE_PATHNAME', 'hechroung_pg_total_row' LANGUAGE C IMMUTABLE CALLED ON NULL INPUT PARALLEL SAFE;

CREATE AGGREGATE hechroung_total(sheet bytea) (
    SFUNC = hechroung_total_add, STYPE = bytea, SSPACE = 96,
    COMBINEFUNC = hechroung_total_combine, FINALFUNC = hechroung_total_row, PARALLEL = SAFE
);
