"""A folder of problems, stage by stage: batch.py, and what pieces.py and census.py call of it.

call      the words of batch.py, and what is done in which order
stages    the stages: their file, their words and the quandles that they add
problems  the problems of a folder, and a part of them
runs      what is run and kept of each problem
answers   what is kept of an answer, and which stage is next
programs  the programs that are called, and those that a launcher builds
summary   the summary, and what is said at the end
"""
