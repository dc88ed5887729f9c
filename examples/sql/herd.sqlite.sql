SELECT t ->> 'accepted' AS accepted, t ->> 'refused' AS refused, t ->> 'nulls' AS nulls,
       t ->> 'without_exact' AS without_exact, t ->> 'q' AS q, t ->> 'r' AS r,
       t ->> 'integral_low' AS integral_low, t ->> 'integral_high' AS integral_high
FROM (SELECT hechroung_total(sheet) AS t FROM herd);
