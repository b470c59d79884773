"""A checker of releases that uses no code of argus, nor of its companions: Python 3.9 and its
standard library alone."""
