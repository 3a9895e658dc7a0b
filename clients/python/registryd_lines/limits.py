"""The limits of what a line alone is judged by. `test_limits.py` compares them with docs/REGISTRY.md."""

# bytes
MOST_NAME_BYTES = 64
MOST_VERSION_BYTES = 256
MOST_REQUIREMENT_BYTES = 256
MOST_LINE_BYTES = 1_048_576

MOST_NEEDS = 64  # of a version, and of a request
