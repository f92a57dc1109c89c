-- Of the captures in which the call of a defect was made, how many have the defect, by build? :defect
SELECT c.build, count(*) AS called, count(f.defect) AS found
FROM capture c JOIN (SELECT DISTINCT t.capture FROM talk t JOIN defect d ON d.call = t.call
    AND d.who IN (t.caller, t.server) WHERE d.id = :defect) t ON t.capture = c.id
  JOIN build b ON b.name = c.build
  LEFT JOIN found f ON f.capture = c.id AND f.defect = :defect AND f.verdict IN ('real', 'maybe')
WHERE c.malformed IS NULL GROUP BY c.build ORDER BY b.number
