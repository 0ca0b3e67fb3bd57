"""A list of inputs cut into pieces that any number of machines answer: pieces.py.

call     its words, and what is done in which order
cut      the pieces, and what each of them needs
run      a folder of pieces, and what is known of each
answers  the answers to one piece
join     the answers of all pieces, checked and joined
"""
