"""The inputs of tools/try_hostile.py: what a hostile author would give the program.

case.py says what a case is, texts.py has parts of models; limits.py, listings.py, shapes.py, rules.py and damaged.py have
the cases, each in a table at its end.
"""
