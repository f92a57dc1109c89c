"""The maker of wrong forms, on statements of which all forms are known."""

from typing import Iterator

from checks.viewer.wrong_rules.forms import forms_of
from viewer.rules.sql import norm

THRESHOLDS = {"OFTEN": 3, "LONG": 100_000_000, "MOST": 0.5}

# Statements, each with its forms: what they do, and what they are.
KNOWN: dict[str, dict[str, str]] = {
    # AND in a text, in a comment, in BETWEEN and in parentheses; terms of OR.
    """UPDATE f SET rule = 'A AND B' -- AND this
       WHERE n BETWEEN 1 AND 3 AND (a OR b AND c) AND NOT d""": {
        "the whole statement": "SELECT 1",
        "without n BETWEEN 1 AND 3": "UPDATE f SET rule = 'A AND B' WHERE 1 AND (a OR b AND c) AND NOT d",
        "without (a OR b AND c)": "UPDATE f SET rule = 'A AND B' WHERE n BETWEEN 1 AND 3 AND 1 AND NOT d",
        "without OR a": "UPDATE f SET rule = 'A AND B' WHERE n BETWEEN 1 AND 3 AND (0 OR b AND c) AND NOT d",
        "without OR b AND c": "UPDATE f SET rule = 'A AND B' WHERE n BETWEEN 1 AND 3 AND (a OR 0) AND NOT d",
        "without b": "UPDATE f SET rule = 'A AND B' WHERE n BETWEEN 1 AND 3 AND (a OR 1 AND c) AND NOT d",
        "without c": "UPDATE f SET rule = 'A AND B' WHERE n BETWEEN 1 AND 3 AND (a OR b AND 1) AND NOT d",
        "without NOT d": "UPDATE f SET rule = 'A AND B' WHERE n BETWEEN 1 AND 3 AND (a OR b AND c) AND 1",
        "turned: n BETWEEN 1":
            "UPDATE f SET rule = 'A AND B' WHERE n NOT BETWEEN 1 AND 3 AND (a OR b AND c) AND NOT d"},
    # Two assignments, whose `=` is none to turn; thresholds; CASE; rows that are compared.
    "UPDATE f SET a = 1, b = CASE WHEN x > :OFTEN THEN 'END' ELSE y END WHERE (c, d) = (e, :LONG)": {
        "the whole statement": "SELECT 1",
        "without a = 1": "UPDATE f SET b = CASE WHEN x > :OFTEN THEN 'END' ELSE y END WHERE (c, d) = (e, :LONG)",
        "without b = CASE WHEN x > :OFTEN THEN 'END' ELSE y END": "UPDATE f SET a = 1 WHERE (c, d) = (e, :LONG)",
        "without (c, d) = (e, :LONG)": "UPDATE f SET a = 1, b = CASE WHEN x > :OFTEN THEN 'END' ELSE y END WHERE 1",
        "without x > :OFTEN": "UPDATE f SET a = 1, b = CASE WHEN 1 THEN 'END' ELSE y END WHERE (c, d) = (e, :LONG)",
        "never x > :OFTEN": "UPDATE f SET a = 1, b = CASE WHEN 0 THEN 'END' ELSE y END WHERE (c, d) = (e, :LONG)",
        "turned: x > :OFTEN":
            "UPDATE f SET a = 1, b = CASE WHEN x < :OFTEN THEN 'END' ELSE y END WHERE (c, d) = (e, :LONG)",
        ":OFTEN - 1 in x > :OFTEN":
            "UPDATE f SET a = 1, b = CASE WHEN x > (:OFTEN - 1) THEN 'END' ELSE y END WHERE (c, d) = (e, :LONG)",
        ":OFTEN + 1 in x > :OFTEN":
            "UPDATE f SET a = 1, b = CASE WHEN x > (:OFTEN + 1) THEN 'END' ELSE y END WHERE (c, d) = (e, :LONG)",
        "rows without c e": "UPDATE f SET a = 1, b = CASE WHEN x > :OFTEN THEN 'END' ELSE y END WHERE (d) = (:LONG)",
        "rows without d :LONG": "UPDATE f SET a = 1, b = CASE WHEN x > :OFTEN THEN 'END' ELSE y END WHERE (c) = (e)",
        ":LONG / 2 in :LONG":
            "UPDATE f SET a = 1, b = CASE WHEN x > :OFTEN THEN 'END' ELSE y END WHERE (c, d) = (e, (:LONG / 2))",
        ":LONG * 2 in :LONG":
            "UPDATE f SET a = 1, b = CASE WHEN x > :OFTEN THEN 'END' ELSE y END WHERE (c, d) = (e, (:LONG * 2))",
        "turned: (c, d) = (e, :LONG)":
            "UPDATE f SET a = 1, b = CASE WHEN x > :OFTEN THEN 'END' ELSE y END WHERE (c, d) <> (e, :LONG)"},
    # A table of a query: joins, groups, orders, functions.
    "CREATE TEMP TABLE t AS SELECT min(a), coalesce(b, c), iif(d, 1, 2) FROM x LEFT JOIN y USING (e, g)"
    " WHERE h IN ('i', 'j') GROUP BY 1, 2 ORDER BY k DESC, l": {
        "all rows": "CREATE TEMP TABLE t AS SELECT * FROM (SELECT min(a), coalesce(b, c), iif(d, 1, 2) FROM x LEFT JOIN"
                    " y USING (e, g) WHERE h IN ('i', 'j') GROUP BY 1, 2 ORDER BY k DESC, l) LIMIT 0",
        **{what: f"CREATE TEMP TABLE t AS SELECT {query}" for what, query in {
            "exchanged: min(a) and coalesce(b, c)":
                "coalesce(b, c), min(a), iif(d, 1, 2) FROM x LEFT JOIN y USING (e, g) WHERE h IN ('i', 'j')"
                " GROUP BY 1, 2 ORDER BY k DESC, l",
            "exchanged: coalesce(b, c) and iif(d, 1, 2)":
                "min(a), iif(d, 1, 2), coalesce(b, c) FROM x LEFT JOIN y USING (e, g) WHERE h IN ('i', 'j')"
                " GROUP BY 1, 2 ORDER BY k DESC, l",
            "LEFT JOIN is JOIN": "min(a), coalesce(b, c), iif(d, 1, 2) FROM x JOIN y USING (e, g) WHERE h IN ('i', 'j')"
                                 " GROUP BY 1, 2 ORDER BY k DESC, l",
            "not joined by e": "min(a), coalesce(b, c), iif(d, 1, 2) FROM x LEFT JOIN y USING (g) WHERE h IN ('i', 'j')"
                               " GROUP BY 1, 2 ORDER BY k DESC, l",
            "not joined by g": "min(a), coalesce(b, c), iif(d, 1, 2) FROM x LEFT JOIN y USING (e) WHERE h IN ('i', 'j')"
                               " GROUP BY 1, 2 ORDER BY k DESC, l",
            "without h IN ('i', 'j')": "min(a), coalesce(b, c), iif(d, 1, 2) FROM x LEFT JOIN y USING (e, g) WHERE 1"
                                       " GROUP BY 1, 2 ORDER BY k DESC, l",
            "not grouped by 1": "min(a), coalesce(b, c), iif(d, 1, 2) FROM x LEFT JOIN y USING (e, g)"
                                " WHERE h IN ('i', 'j') GROUP BY 2 ORDER BY k DESC, l",
            "not grouped by 2": "min(a), coalesce(b, c), iif(d, 1, 2) FROM x LEFT JOIN y USING (e, g)"
                                " WHERE h IN ('i', 'j') GROUP BY 1 ORDER BY k DESC, l",
            "order turned: k DESC": "min(a), coalesce(b, c), iif(d, 1, 2) FROM x LEFT JOIN y USING (e, g)"
                                    " WHERE h IN ('i', 'j') GROUP BY 1, 2 ORDER BY k ASC, l",
            "order turned: l": "min(a), coalesce(b, c), iif(d, 1, 2) FROM x LEFT JOIN y USING (e, g)"
                               " WHERE h IN ('i', 'j') GROUP BY 1, 2 ORDER BY k DESC, l DESC",
            "not in the order of k DESC": "min(a), coalesce(b, c), iif(d, 1, 2) FROM x LEFT JOIN y USING (e, g)"
                                          " WHERE h IN ('i', 'j') GROUP BY 1, 2 ORDER BY l",
            "not in the order of l": "min(a), coalesce(b, c), iif(d, 1, 2) FROM x LEFT JOIN y USING (e, g)"
                                     " WHERE h IN ('i', 'j') GROUP BY 1, 2 ORDER BY k DESC",
            "max of (a)": "max(a), coalesce(b, c), iif(d, 1, 2) FROM x LEFT JOIN y USING (e, g) WHERE h IN ('i', 'j')"
                          " GROUP BY 1, 2 ORDER BY k DESC, l",
            "coalesce without b": "min(a), (c), iif(d, 1, 2) FROM x LEFT JOIN y USING (e, g) WHERE h IN ('i', 'j')"
                                  " GROUP BY 1, 2 ORDER BY k DESC, l",
            "coalesce without c": "min(a), (b), iif(d, 1, 2) FROM x LEFT JOIN y USING (e, g) WHERE h IN ('i', 'j')"
                                  " GROUP BY 1, 2 ORDER BY k DESC, l",
            "without d": "min(a), coalesce(b, c), iif(1, 1, 2) FROM x LEFT JOIN y USING (e, g) WHERE h IN ('i', 'j')"
                         " GROUP BY 1, 2 ORDER BY k DESC, l",
            "iif without 2": "min(a), coalesce(b, c), (1) FROM x LEFT JOIN y USING (e, g) WHERE h IN ('i', 'j')"
                             " GROUP BY 1, 2 ORDER BY k DESC, l",
            "iif without 1": "min(a), coalesce(b, c), (2) FROM x LEFT JOIN y USING (e, g) WHERE h IN ('i', 'j')"
                             " GROUP BY 1, 2 ORDER BY k DESC, l",
            "without, of IN ('i', 'j'), 'i'": "min(a), coalesce(b, c), iif(d, 1, 2) FROM x LEFT JOIN y USING (e, g)"
                                              " WHERE h IN ('j') GROUP BY 1, 2 ORDER BY k DESC, l",
            "without, of IN ('i', 'j'), 'j'": "min(a), coalesce(b, c), iif(d, 1, 2) FROM x LEFT JOIN y USING (e, g)"
                                              " WHERE h IN ('i') GROUP BY 1, 2 ORDER BY k DESC, l",
            "turned: h IN ('i', 'j')": "min(a), coalesce(b, c), iif(d, 1, 2) FROM x LEFT JOIN y USING (e, g)"
                                       " WHERE h NOT IN ('i', 'j') GROUP BY 1, 2 ORDER BY k DESC, l"}.items()}},
    # Parts of a UNION, DISTINCT, and conditions of a join, which end at a comma.
    "INSERT INTO t SELECT DISTINCT a FROM x JOIN y ON x.b = y.b, z UNION ALL SELECT c FROM w HAVING d > :MOST"
    " ORDER BY 1": {
        "the whole statement": "SELECT 1",
        **{what: f"INSERT INTO t {query}" for what, query in {
            "without the part SELECT DISTINCT a FROM x JOIN y ON x.b = y.b, z":
                "SELECT c FROM w HAVING d > :MOST ORDER BY 1",
            "without the part SELECT c FROM w HAVING d > :MOST":
                "SELECT DISTINCT a FROM x JOIN y ON x.b = y.b, z ORDER BY 1",
            "without DISTINCT":
                "SELECT a FROM x JOIN y ON x.b = y.b, z UNION ALL SELECT c FROM w HAVING d > :MOST ORDER BY 1",
            "without x.b = y.b":
                "SELECT DISTINCT a FROM x JOIN y ON 1, z UNION ALL SELECT c FROM w HAVING d > :MOST ORDER BY 1",
            "turned: x.b = y.b":
                "SELECT DISTINCT a FROM x JOIN y ON x.b <> y.b, z UNION ALL SELECT c FROM w HAVING d > :MOST"
                " ORDER BY 1",
            "without d > :MOST":
                "SELECT DISTINCT a FROM x JOIN y ON x.b = y.b, z UNION ALL SELECT c FROM w HAVING 1 ORDER BY 1",
            "turned: d > :MOST":
                "SELECT DISTINCT a FROM x JOIN y ON x.b = y.b, z UNION ALL SELECT c FROM w HAVING d < :MOST ORDER BY 1",
            ":MOST - 0.1 in d > :MOST": "SELECT DISTINCT a FROM x JOIN y ON x.b = y.b, z UNION ALL SELECT c FROM w"
                                        " HAVING d > (:MOST - 0.1) ORDER BY 1",
            ":MOST + 0.1 in d > :MOST": "SELECT DISTINCT a FROM x JOIN y ON x.b = y.b, z UNION ALL SELECT c FROM w"
                                        " HAVING d > (:MOST + 0.1) ORDER BY 1",
            "order turned: 1": "SELECT DISTINCT a FROM x JOIN y ON x.b = y.b, z UNION ALL SELECT c FROM w"
                               " HAVING d > :MOST ORDER BY 1 DESC"}.items()}},
    # IS, EXISTS and NOTNULL; rows of VALUES; an index.
    "DELETE FROM t WHERE a IS NULL OR b IS NOT c OR NOT EXISTS (SELECT d FROM e) OR f NOTNULL": {
        "the whole statement": "SELECT 1",
        **{what: f"DELETE FROM t WHERE {terms}" for what, terms in {
            "without OR a IS NULL": "0 OR b IS NOT c OR NOT EXISTS (SELECT d FROM e) OR f NOTNULL",
            "without OR b IS NOT c": "a IS NULL OR 0 OR NOT EXISTS (SELECT d FROM e) OR f NOTNULL",
            "without OR NOT EXISTS (SELECT d FROM e)": "a IS NULL OR b IS NOT c OR 0 OR f NOTNULL",
            "without OR f NOTNULL": "a IS NULL OR b IS NOT c OR NOT EXISTS (SELECT d FROM e) OR 0",
            "turned: a IS NULL": "a IS NOT NULL OR b IS NOT c OR NOT EXISTS (SELECT d FROM e) OR f NOTNULL",
            "turned: b IS NOT c": "a IS NULL OR b IS c OR NOT EXISTS (SELECT d FROM e) OR f NOTNULL",
            "turned: NOT EXISTS (SELECT d FROM e)": "a IS NULL OR b IS NOT c OR EXISTS (SELECT d FROM e) OR f NOTNULL",
            "turned: f NOTNULL": "a IS NULL OR b IS NOT c OR NOT EXISTS (SELECT d FROM e) OR f ISNULL"}.items()}},
    "INSERT INTO t VALUES (1, 'a'), (2, 'b')": {
        "the whole statement": "SELECT 1",
        "without the row (1, 'a')": "INSERT INTO t VALUES (2, 'b')",
        "without the row (2, 'b')": "INSERT INTO t VALUES (1, 'a')"},
    # Sums, numbers that are compared by their order, conditions that are columns, windows.
    "INSERT INTO t SELECT a - b + c, nullif(d, 0), e AND f AS g, sum(h) OVER (PARTITION BY i) FROM x WHERE -k > 1": {
        "the whole statement": "SELECT 1",
        **{what: f"INSERT INTO t SELECT {query}" for what, query in {
            "exchanged: a - b + c and nullif(d, 0)":
                "nullif(d, 0), a - b + c, e AND f AS g, sum(h) OVER (PARTITION BY i) FROM x WHERE -k > 1",
            "exchanged: nullif(d, 0) and e AND f":
                "a - b + c, e AND f, nullif(d, 0) AS g, sum(h) OVER (PARTITION BY i) FROM x WHERE -k > 1",
            "exchanged: e AND f and sum(h) OVER (PARTITION BY i)":
                "a - b + c, nullif(d, 0), sum(h) OVER (PARTITION BY i) AS g, e AND f FROM x WHERE -k > 1",
            "sum without a":
                "0 - b + c, nullif(d, 0), e AND f AS g, sum(h) OVER (PARTITION BY i) FROM x WHERE -k > 1",
            "sum without - b":
                "a + c, nullif(d, 0), e AND f AS g, sum(h) OVER (PARTITION BY i) FROM x WHERE -k > 1",
            "sum without + c":
                "a - b, nullif(d, 0), e AND f AS g, sum(h) OVER (PARTITION BY i) FROM x WHERE -k > 1",
            "nullif without 0":
                "a - b + c, (d), e AND f AS g, sum(h) OVER (PARTITION BY i) FROM x WHERE -k > 1",
            "without e":
                "a - b + c, nullif(d, 0), 1 AND f AS g, sum(h) OVER (PARTITION BY i) FROM x WHERE -k > 1",
            "without f":
                "a - b + c, nullif(d, 0), e AND 1 AS g, sum(h) OVER (PARTITION BY i) FROM x WHERE -k > 1",
            "max of (h)":
                "a - b + c, nullif(d, 0), e AND f AS g, max(h) OVER (PARTITION BY i) FROM x WHERE -k > 1",
            "not grouped by i":
                "a - b + c, nullif(d, 0), e AND f AS g, sum(h) OVER () FROM x WHERE -k > 1",
            "without -k > 1":
                "a - b + c, nullif(d, 0), e AND f AS g, sum(h) OVER (PARTITION BY i) FROM x WHERE 1",
            "turned: -k > 1":
                "a - b + c, nullif(d, 0), e AND f AS g, sum(h) OVER (PARTITION BY i) FROM x WHERE -k < 1",
            "1 - 1 in -k > 1":
                "a - b + c, nullif(d, 0), e AND f AS g, sum(h) OVER (PARTITION BY i) FROM x WHERE -k > (1 - 1)",
            "1 + 1 in -k > 1":
                "a - b + c, nullif(d, 0), e AND f AS g, sum(h) OVER (PARTITION BY i) FROM x WHERE -k > (1 + 1)",
        }.items()}},
    # Parts of texts, also within a function, and names of columns, which stay.
    "UPDATE f SET a = b || ' of ' || c, d = (SELECT DISTINCT g AS h, j, k, * FROM f)"
    " WHERE coalesce('x' || l, m) = 'y' || n": {
        "the whole statement": "SELECT 1",
        **{what: f"UPDATE f SET {made}" for what, made in {
            "without a = b || ' of ' || c": "d = (SELECT DISTINCT g AS h, j, k, * FROM f)"
                                            " WHERE coalesce('x' || l, m) = 'y' || n",
            "without d = (SELECT DISTINCT g AS h, j, k, * FROM f)":
                "a = b || ' of ' || c WHERE coalesce('x' || l, m) = 'y' || n",
            **{f"text without {what}": f"a = {text}, d = (SELECT DISTINCT g AS h, j, k, * FROM f)"
                                       " WHERE coalesce('x' || l, m) = 'y' || n"
               for what, text in {"b": "' of ' || c", "' of '": "b || c", "c": "b || ' of '"}.items()},
            **{what: f"a = b || ' of ' || c, d = (SELECT {columns} FROM f) WHERE coalesce('x' || l, m) = 'y' || n"
               for what, columns in {"without DISTINCT": "g AS h, j, k, *",
                                     "exchanged: g and j": "DISTINCT j AS h, g AS j, k, *",
                                     "exchanged: j and k": "DISTINCT g AS h, k AS j, j AS k, *"}.items()},
            **{what: f"a = b || ' of ' || c, d = (SELECT DISTINCT g AS h, j, k, * FROM f) WHERE {term}"
               for what, term in {"without coalesce('x' || l, m) = 'y' || n": "1",
                                  "coalesce without 'x' || l": "(m) = 'y' || n",
                                  "coalesce without m": "('x' || l) = 'y' || n",
                                  "text without 'x'": "coalesce(l, m) = 'y' || n",
                                  "text without l": "coalesce('x', m) = 'y' || n",
                                  "turned: coalesce('x' || l, m) = 'y' || n":
                                      "coalesce('x' || l, m) <> 'y' || n"}.items()}}.items()}},
    "CREATE INDEX i ON t(a) WHERE b = 1": {}}


def faults_of_maker() -> Iterator[str]:
    """What is wrong with the forms of these statements."""
    for statement, due in KNOWN.items():
        came = {form.what: norm(form.statement) for form in forms_of(statement, THRESHOLDS)}
        for what in dict.fromkeys((*due, *came)):
            wanted = norm(due[what]) if what in due else "nothing"
            if came.get(what, "nothing") != wanted:
                yield f"the form {what!r} of {norm(statement)!r}: expected {wanted}, came {came.get(what, 'nothing')}"
