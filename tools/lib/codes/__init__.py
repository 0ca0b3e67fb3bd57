"""Codes of other programs, and braid words.

codes_in        the three scripts that take links of other programs to knot and seek
crossing_codes  the three scripts that take what `./knot code` prints to other programs
entries         codes and braids in one entry, as tables have them
smaller         braid words made shorter by random changes
"""
