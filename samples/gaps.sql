SELECT stand, starts_at, ends_at -- free gaps between furnace and coiler
FROM gaps
LEFT JOIN stands ON stands.id = gaps.stand_id
WHERE furnace = :furnace AND label = N'descaler\'s' AND starts_at BETWEEN ?1 AND ?2
ORDER BY starts_at LIMIT $3
