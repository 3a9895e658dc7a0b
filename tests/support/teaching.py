"""How many steps a refusal has at most of which something is learnt, as docs/SOLVER.md says it."""
import re

from tests.support.program import read

TEACHING = int(re.findall(r"\*\*A refusal\*\* of at most (\d+) steps", read("docs", "SOLVER.md"))[0])
