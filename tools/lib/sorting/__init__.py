"""Diagrams sorted into classes of one knot each, for tabulate.py and census.py.

sorting  the steps: rows, keys, joins, and which classes are told apart
pool     how far the work is
worker   what a process knows, and its calls of the programs; worker_rows, worker_keys, worker_classes: what it is asked
searches the ways in which a pair of keys is tried
keys     the form of a diagram that stands for all of its shifts and turns
reduced  the least diagrams that simplifying finds, and the ways to them
joins    pairs of keys that may be one knot, and the moves that were found
tries    in which order pairs are tried
apart    by which quandles two classes can be distinguished, and what a certificate of it costs
linear   quandles of one linear kind, which the Alexander modules propose
lines    texts, grids and moves in one line each
"""
