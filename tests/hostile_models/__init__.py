"""Models of what the programs answer, and what is drawn for them: of tests/hostile.py and tests/hostile_locnum.py.

numbers.py, running.py and counting.py are of both; decfmt_*.py and locnum_*.py of one of them.
"""
