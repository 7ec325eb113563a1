"""A second opinion on waveplan's answers, written from docs/FORMATS.md, docs/RULES.md, docs/TOURS.md, docs/BATCHES.md
and docs/CREWS.md alone.

Nothing here is proved, and nothing that the program promises rests on it. It shares no line with the program: who
doesn't trust the one can hold it against the other.
"""
