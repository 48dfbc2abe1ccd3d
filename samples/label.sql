SELECT starts_at FROM free_gaps
WHERE label = 'zone 4\' AND minutes >= ? -- the backslash keeps the string open, so that this ? is no placeholder
AND coiler = 'C1' AND furnace = ?
