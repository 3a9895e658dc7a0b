"""What the program has in GLIBC_TUNABLES, by what the user has there: glibc is asked for huge pages, unless the user
has set that."""
import os

NAME, ASKED = "GLIBC_TUNABLES", "glibc.malloc.hugetlb=1"
# Of the user, where nothing is a variable that is not set, and of the program.
ROWS = [(None, ASKED), ("", ASKED),
        *((it, it) for it in (ASKED, "glibc.malloc.hugetlb=0", "glibc.malloc.hugetlb=2", "glibc.malloc.hugetlb=",
                              "glibc.malloc.arena_max=2:glibc.malloc.hugetlb=0",
                              "glibc.malloc.hugetlb=0:glibc.malloc.arena_max=2")),
        *((it, f"{ASKED}:{it}")
          for it in ("glibc.malloc.arena_max=2", "glibc.malloc.arena_max=2:glibc.malloc.perturb=3",
                     "glibc.malloc.hugetlb",
                     "my.glibc.malloc.hugetlb=0", "a=b  *:c=$d'\"\\:"))]
# What a program of sh tells of it.
TELL = f"printf '%s\\n' \"${{{NAME}-none}}\"\n"


def environment(given: str | None) -> dict[str, str]:
    """This environment, with this of the user."""
    return {**{name: text for name, text in os.environ.items() if name != NAME},
            **({} if given is None else {NAME: given})}
