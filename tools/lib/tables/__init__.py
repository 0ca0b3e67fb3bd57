"""Tables of knots and what is made of their rows, for from_table.py, to_table.py and knot_table.py; and what all scripts on many knots are given.

call      the words of from_table.py, and what is done in which order
items     the diagrams and problems of the rows of a table
files     what is read whole, and the files that are written for rows
given     diagrams that a script is given: single ones, folders and tables of them
programs  the programs that are called, and the options that name them
blocks    the quandles and cocycles of a list, each as its lines
further   what further lists of quandles show of knots of a table
"""
