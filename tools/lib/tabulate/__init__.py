"""A table of knots from nothing: tabulate.py.

call     its words, and what is done in which order
given    the rows that it is given or makes
shadows  diagrams without over and under
choices  over and under at the crossings of a shadow
page     the page of a table
"""
