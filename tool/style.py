"""Rules of style that pages state and tests of the gate compare."""

# The lines of a function's body, clauses and tables of rows excepted.
FUNCTION_LINES = 40
# How deep its blocks may stand in one another. No test measures that.
FUNCTION_LEVELS = 3
