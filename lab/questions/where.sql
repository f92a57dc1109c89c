-- Which captures have a defect, the strongest and those with most findings first: where the first finding is, by the
-- capture's own numbers. :defect
SELECT c.build, c.device, c.file, f.verdict, f.n, f.place, f.path, c.digest
FROM found f JOIN capture c ON c.id = f.capture JOIN build b ON b.name = c.build
WHERE f.defect = :defect AND c.malformed IS NULL
ORDER BY b.number DESC, f.verdict = 'real' DESC, f.verdict = 'maybe' DESC, f.n DESC, c.device, c.file
