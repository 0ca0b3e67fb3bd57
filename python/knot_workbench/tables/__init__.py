"""Tables of knots: their files, their entries, and how a knot is looked up.

rows     a file with rows: what separates its fields, its columns, their titles
entries  one entry: a braid word, an arc presentation, or a code
knots    a table of knots with its rows of numbers and kinds of symmetry, and how a row is looked up
numbers  rows of numbers: how many colourings a knot has by each block of a list
"""
