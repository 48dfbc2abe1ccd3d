-- free gaps on one line that are long enough for a slab
SELECT   gap.stand, gap.starts_at, gap.minutes
FROM     free_gaps gap
         LEFT JOIN stands ON stands.id = gap.stand
WHERE    stands.line = ?
  AND    stands.name IN ('furnace', 'descaler', 'roughing stand', 'coiler')
  AND    gap.minutes >= ? -- the slab's own minutes
  AND    gap.starts_at BETWEEN ? AND ?
ORDER BY gap.starts_at
LIMIT    $5
