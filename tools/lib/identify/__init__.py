"""Which knot a diagram is: identify.py.

call     its words, and what is done in which order
inputs   what its words name
answers  the rows that are written, and those that an earlier call left
rulings  what is said of the name that a row should have
"""
