"""Reads what an office writes: a job, its metadata, hierarchies, code lists and microdata, and what
argus writes beside them.

There is one reader of each, and every companion takes it. They are lenient: what can be made out of
a file is taken, and what can't is left out, so that a companion can speak of a file that argus
refuses. Text is bytes here, as argus reads it.
"""
