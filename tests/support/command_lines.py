"""Reads tables of command lines: words of the program, and what becomes of a run with each of them. rows/README.md says
how they are written."""
from tests.support.preloaded import Break

PARTS = ("break", "room", "input", "output", "has", "status", "error", "says", "left", "none")


class Case:
    """Words that end in the same way, with the files that there are for them."""

    def __init__(self, title: str, files: dict[str, str], place: str) -> None:
        self.title, self.files, self.place = title, files, place
        self.words: list[list[str]] = []
        self.told: dict[str, list[str]] = {part: [] for part in PARTS}

    def text(self, part: str) -> str:
        return "".join(line + "\n" for line in self.told[part])

    def left(self) -> dict[str, str]:
        """The text of each file that is there then."""
        texts: dict[str, str] = {}
        for told in self.told["left"]:
            name, _, line = told.partition(" ")
            texts[name] = texts.get(name, "") + line + "\n"
        return texts

    def breaks(self) -> Break | None:
        """What is broken, or nothing."""
        for told in self.told["break"]:
            call, number, how = told.split()
            first, _, every = number.partition("/")
            return Break(call, int(first), how, int(every or 0))
        return None


def cases(path: str) -> list[Case]:
    """The cases of a file."""
    title, is_title = "", False
    files: dict[str, str] = {}
    found: list[Case] = []
    with open(path, encoding="ascii") as lines:
        for number, text in enumerate(lines, 1):
            sign, _, rest = text.rstrip("\n").partition(" ")
            if sign == "#":
                title, files = (f"{title} {rest}", files) if is_title else (rest, {})
            elif sign == "file":
                name, _, line = rest.partition(" ")
                files[name] = files.get(name, "") + line + "\n"
            elif sign == "$":
                if not found or any(found[-1].told.values()):
                    found.append(Case(title, files, f"{path}:{number}"))
                found[-1].words.append(rest.split())
            elif sign:
                found[-1].told[sign].append(rest)
            is_title = sign == "#"
    return found
