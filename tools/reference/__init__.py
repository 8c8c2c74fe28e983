"""A second program in Python that answers the engine's commands as the engine has to, and judges runs of many workers.

It was written from the description of the language alone (what docs/LANGUAGE.md, docs/FORMATS.md, docs/REFUSALS.md,
docs/USAGE.md and docs/DEFINITIONS.md say), before its writer had read a file of the engine, and shares no code with
the engine or with tools/grammar.py. So a place where either misreads a sentence shows as a different answer; a sentence
that both misread alike does not show.

    python3 tools/try_reference.py PROGRAM      compares the two, on cases made by hand and at random
    python3 tools/try_runs.py PROGRAM           judges runs of the examples, by one worker and by many
    cd tools && python3 -m reference check < MODEL      answers as the program would

The answers: engine.py (the commands), words.py, tokens.py, grammar.py, syntax.py (trees as plain values), values.py,
expressions.py, statements.py, bigraphs.py, occurrences.py, listings.py, spelling.py, refusals.py.
Of `run` and `trial`: reactions.py (what a reaction does to a host), conditions.py (the pieces of a host, and conditions on
them), steps.py (which steps are legal), picks.py (the words that a worker draws), runs.py (the run that a seed draws, and the
text of a run), trials.py. Which run several workers make is not known before: judging.py tells whether a text is one.
The cases: draws.py (one of them at random), models.py, faults.py, hosts.py, run_models.py, rows.py, mutations.py,
word_lists.py, and by hand model_cases.py, run_cases.py and cases.py.
"""
