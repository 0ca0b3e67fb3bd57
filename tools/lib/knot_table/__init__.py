"""What belongs to a table of knots, made anew: knot_table.py.

work        many things made at once, certificates that are kept, and the text of a table
grids       the grid of each code
numbers     the rows of numbers
names       the word of each knot, joined to its grid
symmetries  each knot, joined to its mirror image and its reverses or distinguished from them
"""
