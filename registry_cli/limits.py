"""The limits of docs/REGISTRY.md, once for all that is written in Python. `test_limits.py` compares them with that
page, with the program, and with what can't read them from here: the schema of lines and the clients."""

# bytes
MOST_NAME_BYTES = 64
MOST_VERSION_BYTES = 256
MOST_REQUIREMENT_BYTES = 256
MOST_LINE_BYTES = 1_048_576

# a registry
MOST_PACKAGES = 65_535
MOST_VERSIONS = 4_096  # of a package
MOST_NEEDS = 64  # of a version, and of a request
MOST_LOCK_LINES = 65_535  # of a request

# what is learnt
MOST_DERIVATION_LINES = 256  # of one
MOST_OFFERED_LINES = 1_024  # of all that one search offers
MOST_STORED = 4_096

# a session, and a race
MOST_COMMANDS = 49_152
MOST_LEARNT = 16_384
MOST_CELLS = 65_536
MOST_FILES = 63
MOST_WORKERS = 64
