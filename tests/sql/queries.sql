-- What both databases are asked, in the same words. JSON(t) stands for the totals t as JSON, which they are in SQLite.
-- part answers
SELECT id, refusal, place, radius, range_low, range_high, integral_low, integral_high, q, r
    FROM log, hechroung_run(sheet) ORDER BY id;
-- part sentences
SELECT DISTINCT refusal, sentence FROM log, hechroung_run(sheet) WHERE sentence IS NOT NULL ORDER BY refusal;
-- part totals
SELECT JSON(t) ->> 'accepted', JSON(t) ->> 'refused', JSON(t) ->> 'nulls', JSON(t) ->> 'without_exact',
        JSON(t) ->> 'q', JSON(t) ->> 'r', JSON(t) ->> 'integral_low', JSON(t) ->> 'integral_high'
    FROM (SELECT hechroung_total(sheet) AS t FROM log) AS whole;
-- part none
SELECT JSON(t) ->> 'accepted', JSON(t) ->> 'refused', JSON(t) ->> 'nulls', JSON(t) ->> 'without_exact',
        JSON(t) ->> 'q', JSON(t) ->> 'r', JSON(t) ->> 'integral_low', JSON(t) ->> 'integral_high'
    FROM (SELECT hechroung_total(sheet) AS t FROM log WHERE id < 0) AS whole;
-- part groups
SELECT part, JSON(t) ->> 'accepted', JSON(t) ->> 'refused', JSON(t) ->> 'nulls', JSON(t) ->> 'without_exact',
        JSON(t) ->> 'q', JSON(t) ->> 'r', JSON(t) ->> 'integral_low', JSON(t) ->> 'integral_high'
    FROM (SELECT id % 97 AS part, hechroung_total(sheet) AS t FROM log GROUP BY id % 97) AS groups ORDER BY part;
-- part windows
SELECT id, JSON(t) ->> 'accepted', JSON(t) ->> 'refused', JSON(t) ->> 'nulls', JSON(t) ->> 'without_exact',
        JSON(t) ->> 'q', JSON(t) ->> 'r', JSON(t) ->> 'integral_low', JSON(t) ->> 'integral_high'
    FROM (SELECT id, hechroung_total(sheet) OVER (ORDER BY id ROWS BETWEEN 20 PRECEDING AND 3 FOLLOWING) AS t
          FROM log WHERE id % 10 = 0 OR sheet IS NULL) AS windows ORDER BY id;
