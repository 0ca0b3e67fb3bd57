"""A folder of diagrams sorted into classes by the steps of a plan: census.py.

call     its words, and what is done in which order
plan     the steps, and the quandles and cocycles that they count by
steps    each step as sorting takes it
results  what is written at the end
page     the page of a census
"""
