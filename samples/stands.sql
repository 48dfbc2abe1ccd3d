/* the widest free gap of each finishing stand; run with -n */
SELECT stand, MAX(minutes)
FROM free_gaps
WHERE zone = :zone AND stand >= {first stand} AND stand <= @'last stand'
GROUP BY stand
HAVING MAX(minutes) >= $minutes;
