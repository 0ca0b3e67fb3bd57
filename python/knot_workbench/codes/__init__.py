"""Codes of crossings: what knot writes of a diagram, and what other programs print.

of_knot   a Code, as the job `code` of knot writes it
reading   a CodeOf: the PD, DT or Gauss code of a text or of lists
kinds     which of these a text or a list is
brackets  lists of numbers in brackets
planar    PD codes of DT codes and of passages
gauss     PD codes of Gauss codes
"""
from ..faults import BadCode
from .of_knot import Code, all_over, kinked, read_code, signs

__all__ = ("BadCode", "Code", "all_over", "kinked", "read_code", "signs")
