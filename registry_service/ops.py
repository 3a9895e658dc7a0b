"""What a line asks, by its member `op`."""
import json
import re

READS = ("resolve", "check", "list")  # what readers answer; all else goes to the keeper, so no reader changes by itself
COMMANDS = ("publish", "yank", "unyank")
LONG = 2_048  # bytes; to read a longer line as JSON would hold up the other clients
BLANKS = b" \t\r"
MEMBER, VALUE = b'"op":', re.compile(rb'"(?:[a-z]|\\u00[0-9A-Fa-f]{2}){4,7}"')
ESCAPES = (b"\\u006f", b"o"), (b"\\u006F", b"o"), (b"\\u0070", b"p")


def op_of(line: bytes) -> str | None:
    """What a line asks; nothing where it can't be read or asks nothing that is known. Only the program says what is
    wrong then. None of a long line in which `op` seems to be named more than once."""
    try:
        op = json.loads(line.decode())["op"] if len(line) <= LONG else op_of_long(line)
    except (ValueError, TypeError, KeyError, RecursionError):
        return ""
    return op if op in (*READS, *COMMANDS, None) else ""


def op_of_long(line: bytes) -> str | None:
    """Where the one `op` of a long line stands within another value, or is none, it is at fault whoever reads it."""
    line = line.translate(None, BLANKS)
    for escape, letter in ESCAPES if b"\\" in line else ():
        line = line.replace(escape, letter)
    _, _, behind = line.partition(MEMBER)
    found = VALUE.match(behind)
    return None if MEMBER in behind else str(json.loads(found[0])) if found else ""
