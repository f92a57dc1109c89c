-- The defects in each of the captures that count, but for what is explained there. A key is given as its bytes: making a
-- text of each takes longer than all else.
SELECT CAST(f.defect AS BLOB), f.capture, f.n, f.verdict = 'real' AS is_real
FROM capture c CROSS JOIN found f ON f.capture = c.id
WHERE (c.build = :new OR c.build IN (SELECT value FROM json_each(:old))) AND c.malformed IS NULL AND c.failed IS NULL
  AND f.verdict <> 'explained'
