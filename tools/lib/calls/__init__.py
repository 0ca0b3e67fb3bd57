"""What all scripts stand on: how they are called, and files that are written whole.

calls        what a call reads and writes, and each fault reported in one line with a status
crashes      the end of a call that fails by itself
pools        threads and processes that answer questions, several at once
signals      signals that ask for an end, and waits during which they are noticed
store        files to which answers are added, so that an interrupt loses nothing
whole_files  files that are there whole or not at all
"""
