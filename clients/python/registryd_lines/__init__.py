"""What is wrong with request lines, and what was probably meant, with the place of each value: `judging.py` has the way
from a line to its faults."""
