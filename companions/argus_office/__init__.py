"""What stands around the program argus for an office: files from a CSV, explanations, pages, last
year's pattern, seals, and argus from Python. Nothing here is proved.
"""

__version__ = "0.1.0"
