SELECT (hechroung_total(sheet)).* FROM herd;
