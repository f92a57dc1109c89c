"""The verdicts, the strongest one first."""

VERDICTS = ("real", "maybe", "explained", "normal")
RANKS = {verdict: rank for rank, verdict in enumerate(VERDICTS, 1)}
