"""Classes of knots that were found: what is said of them, with a certificate, and how it is written.

standing     the classes, their turns, and what distinguishes each two
telling      names, codes, braids and certificates of the classes
certificate  the certificate of a whole table
written      the lines of the classes and of the rows
page         a page with a table of classes
"""
