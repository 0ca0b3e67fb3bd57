"""2-cocycles of quandles, and the weights by which they distinguish diagrams: for cocycles.py, and for the makers in quandles/make.

linear      linear algebra mod a power of a prime
cohomology  all cocycles of a quandle up to coboundaries, and the coverings that they make
differing   the weights by which two diagrams differ
given       two diagrams, and the quandles of files, perhaps with cocycles
"""
