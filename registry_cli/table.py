"""The subcommands with their words: what reads words, the help, completions and the manual page are made of it."""
from collections import namedtuple

from .limits import MOST_VERSIONS
from .shapes import Takes

# what a word or an option takes: for completion, and, where it is numbers or a tuple of words, for what is read
FILE, FOLDER, PACKAGE, NEED, VERSION, TEXT = "file", "folder", "package", "need", "version", "text"
BUDGETS, COUNTS, VERSIONS = range(2 ** 32), range(1, 2 ** 32), range(4097)
MODES = ("600", "660", "666")
COLORS = ("auto", "always", "never")


class Word(namedtuple("Word", "names about takes flag many kept_as default short",
                      defaults=[TEXT, "", "", "", None, ""])):
    """A word, or an option where it has a flag, in short as -q. `many` is one, `?`, `*` or `+`, as for argparse;
    `kept_as` the name of its value where its own can't be that, and `default` its value where it isn't given."""
    names: tuple[str, ...]
    about: str
    takes: Takes
    flag: str
    many: str
    kept_as: str
    default: str | int | None
    short: str

    @property
    def member(self) -> str:
        return self.kept_as or (self.flag.lstrip("-") or self.names[0].lower()).replace("-", "_")


class Subcommand(namedtuple("Subcommand", "name module summary words examples more", defaults=[""])):
    """Of one word or two; `module` is one of `commands`, and `more` are sentences for its help and the manual page."""
    name: str
    module: str
    summary: str
    words: tuple[Word, ...]
    examples: tuple[str, ...]
    more: str


def word(name: str, about: str, takes: Takes = TEXT, many: str = "") -> Word:
    return Word((name,), about, takes, many=many)


def option(flag: str, name: str, about: str, takes: Takes = TEXT, many: str = "",
           default: str | int | None = None) -> Word:
    return Word((name,), about, takes, flag, many, default=default)


def flag(name: str, about: str, short: str = "") -> Word:
    return Word((), about, flag=name, short=short)


COMMON = (
    option("--journal", "FILE", "the journal (else: REGISTRY_JOURNAL, else registry.journal in this folder)", FILE),
    option("--connect", "ADDRESS",
           "a service in place of a journal: its socket's path, or HOST:PORT (else: REGISTRY_CONNECT)", FILE),
    flag("--json", "the answer as JSON, one line"),
    option("--color", "WHEN", "whether lines are in colour: auto (on a terminal), always or never", COLORS),
    flag("--quiet", "no notes on standard error, only errors", "-q"),
    flag("--verbose", "tell what the program is asked, and how long each answer takes", "-v"),
)
WAIT = option("--wait", "SECONDS", "wait so long for another session on the journal (else: 10)", range(86_401))
NEEDS = word("NEED", "a package and a requirement, as app@^1; app alone is app@*", NEED, "*")
LOCK = option("--lock", "FILE", "a lock file: its versions are preferred", FILE)
LOCKED = flag("--locked",
              "end with status 1 unless exactly the lock file's versions are selected (--lock, else registry.lock)")
LOCK_FILE = option("--lock", "FILE", "the lock file (else: registry.lock)", FILE)
BUDGET = option("--budget", "N", "give up after N conflicts", BUDGETS)
SECONDS = Word(("N",), "end a search and its explanation after N seconds; 0 is never (else: 30)", range(86_401),
               "--seconds", kept_as="limit", default=30)
NEWEST = flag("--newest", "has no effect: each selection is the newest")
NOT = Word(("NAME", "VERSION"), "why this version is not what is selected", PACKAGE, flag="--not", kept_as="version")
BESIDE = ("Without NEED, the needs file beside the lock file says what is needed: its name ends in .needs instead of "
          ".lock, and each of its lines has a name and a requirement. Without a lock file it is registry.needs. A lock "
          "file that says what it was made for needs no such file.")
IMPORTING = (
    option("--from", "CRATE",
           "only these and what they need, as rand or rand@^0.8 (else: all, or of a workspace its own packages)",
           NEED, "+"),
    option("--newest", "N", "only the N newest versions of each crate", range(1, MOST_VERSIONS + 1)),
    flag("--lines", "write request lines to standard output, and publish nothing"),
    flag("--ask", "end these lines with a request for the crates of --from, or for a workspace's own packages"),
    flag("--both-spellings", "import also names that differ from the journal's only in - and _"),
    WAIT,
)
IMPORTED = ("Nothing is fetched. Versions that are published already are skipped. What is left out or rewritten is "
            "counted on standard error, each kind with its first example; at the end it says how many crates have a "
            "selection when each is requested alone, and what is in the way of most of the others.")

SUBCOMMANDS = (
    Subcommand("publish", "publish", "Publish a version of a package",
               (word("NAME", "the package", PACKAGE), word("VERSION", "the version, as 1.0.0"), NEEDS, WAIT),
               ("registry publish log 1.3.0", "registry publish app 1.0.0 log@^1.2 zlib"),
               "A publication is permanent. What it needs may be published later."),
    Subcommand("yank", "yank", "Keep a version out of new selections",
               (word("NAME", "the package", PACKAGE), word("VERSION", "the version", VERSION), WAIT),
               ("registry yank log 1.3.0", "registry yank log@1.3.0"),
               "Nothing is deleted: a lock file that names the version still has it."),
    Subcommand("unyank", "yank", "Undo a yank",
               (word("NAME", "the package", PACKAGE), word("VERSION", "the version", VERSION), WAIT),
               ("registry unyank log 1.3.0",)),
    Subcommand("import crates-io", "import_index", "Publish crates from a copy of crates.io's index",
               (word("DIR", "a checkout of the index, or what Cargo keeps of it", FOLDER), *IMPORTING),
               ("registry import crates-io ~/.cargo/registry/index/index.crates.io-* --from rand@^0.8",), IMPORTED),
    Subcommand("import cargo", "import_index", "Publish the packages of a Cargo folder, and what Cargo.lock has",
               (word("DIR", "a workspace, or what `cargo vendor` wrote", FOLDER),
                option("--index", "DIR",
                       "crates.io's index, or Cargo's copy of it, for crates that the folder lacks", FOLDER),
                option("--write", "FILE",
                       "keep what Cargo.lock has as a lock file, and beside it the workspace's own packages as needs",
                       FILE),
                *IMPORTING),
               ("registry import cargo ~/mine --index ~/.cargo/registry/index/index.crates.io-* --write mine.lock",),
               IMPORTED),
    Subcommand("import debian", "import_index", "Publish the Rust crates that Debian packages",
               (word("FILE", "a file Packages, or what `apt-cache dumpavail` printed; without it apt-cache is asked",
                     FILE, "?"), *IMPORTING),
               ("registry import debian --from reqwest", "registry import debian --from cargo --lines --ask"),
               IMPORTED),
    Subcommand("show", "show", "Show a package: its versions, what the newest needs, and who needs it",
               (word("NAME", "the package", PACKAGE),
                word("VERSION", "show what this version needs (else: the newest one)", VERSION, "?")),
               ("registry show log", "registry show log@1.3.0"),
               "Versions are listed by precedence, the newest first. Of each package that needs it, the newest version "
               "that does is shown."),
    Subcommand("search", "listing", "Find packages whose names have a text in them",
               (word("TEXT", "a part of the name"),), ("registry search json",)),
    Subcommand("list", "listing", "List all packages, each with its newest version", (), ("registry list",)),
    Subcommand("resolve", "resolve", "Select versions that fit together",
               (NEEDS, LOCK,
                option("--write", "FILE", "keep the selection as a lock file, and beside it what was needed", FILE),
                LOCKED, BUDGET, SECONDS, NEWEST),
               ("registry resolve app@^1 zlib", "registry resolve app@^1 --write registry.lock",
                "registry resolve --lock registry.lock --locked"),
               BESIDE),
    Subcommand("tree", "tree", "Show a selection as a tree of who needs whom",
               (NEEDS, LOCK, option("--invert", "NAME", "who needs this package, in place of what is needed", PACKAGE),
                option("--depth", "N", "no more than N steps deep", BUDGETS), BUDGET, SECONDS, NEWEST),
               ("registry tree app@^1", "registry tree app@^1 --invert log",
                "registry tree --lock registry.lock --depth 1"),
               "The needs of a package are shown once: (*) marks it where it comes again. " + BESIDE),
    Subcommand("why", "why", "Explain why a request is refused, or why a version is not selected",
               (NEEDS, LOCK, BUDGET, SECONDS, NEWEST, NOT,
                option("--picture", "FILE", "draw it too, as SVG: the derivation, or the selection", FILE),
                flag("--full", "tell all of an explanation that takes more than a screenful of a terminal"),
                flag("--unfolded", "draw each line of a derivation, however long it is"),
                option("--asked", "FILE",
                       "the request lines of a session; without --told each followed by its reply", FILE),
                option("--told", "FILE", "the reply lines of that session", FILE),
                option("--request", "N", "of a session this request line alone, counted from 1", COUNTS)),
               ("registry why app@^1 log@^2", "registry why app@^1 --not log 1.2.0",
                "registry why app@^1 --picture why.svg", "registry why --asked asked.lines --told told.lines"),
               "A refusal is explained by its derivation, after that was checked. If a session's packages are in a "
               "journal, as those of a race are, --journal names it: each reply is explained at its "
               "revision. " + BESIDE),
    Subcommand("outdated", "outdated", "Show what in a lock file is not the newest, and what holds it back",
               (NEEDS, LOCK_FILE,
                option("--budget", "N", "give a question up after N conflicts (else: 10000)", BUDGETS), SECONDS, NEWEST,
                flag("--exit-status", "end with status 1 if it shows a package")),
               ("registry outdated", "registry outdated --lock app.lock", "registry outdated --exit-status"),
               "Of each package it shows what is locked, what an upgrade of all would select, the newest version that "
               "is not yanked, and why that is not selected. " + BESIDE),
    Subcommand("upgrade", "upgrade", "Unlock packages of a lock file, and write what is selected then",
               (word("NAME", "a package to unlock (else: all of the lock file)", PACKAGE, "*"), LOCK_FILE,
                option("--need", "NEED", "what is needed, in place of what the needs file says", NEED, "+"),
                BUDGET, SECONDS, NEWEST,
                flag("--yes", "write it without a question")),
               ("registry upgrade log", "registry upgrade --yes", "registry upgrade --lock app.lock --need app@^2"),
               "It shows what would change and asks before it writes. " + BESIDE),
    Subcommand("diff", "diff", "Show what changed between two lock files",
               (word("OLD", "a lock file", FILE), word("NEW", "another one", FILE),
                flag("--exit-status", "end with status 1 if they differ")),
               ("registry diff old.lock new.lock", "registry diff --exit-status old.lock new.lock"),
               "Added packages are marked with +, removed ones with -, and changed ones with ~."),
    Subcommand("lock check", "lock_check",
               "Check that a lock file holds: each version is there, not yanked, and has what it needs",
               (word("FILE", "a lock file", FILE), NEEDS),
               ("registry lock check registry.lock", "registry lock check app.lock app@^1"),
               "It shows each fault in a line. If there is one, the exit status is 1. Without NEED, the needs file "
               "beside the lock file says what is needed, else the lock file itself."),
    Subcommand("check", "check",
               "Check request lines: where each would be refused, why, and what was probably meant",
               (word("FILE", "a file of request lines; - is standard input", FILE),),
               ("registry check team.lines", "registry check - < team.lines"),
               "No registry is asked: a line is judged for its form, its names, versions and requirements, and what it "
               "repeats (refusals 1 to 6 and 19). The first fault of a line is the refusal that it would be answered."),
    Subcommand("journal verify", "journal_verify", "Check a journal's file, and show the first line that is at fault",
               (word("FILE", "a journal", FILE),), ("registry journal verify registry.journal",),
               "A file without its end, as a session has it while it runs and leaves it where it is killed, is cut, "
               "and no fault: a session continues it. The exit status is 1 where a line is at fault."),
    Subcommand("journal repair", "journal_repair",
               "Keep the longest lawful beginning of a journal's file, in a new file",
               (word("FILE", "a journal", FILE), option("--output", "NEW", "the new file (else: FILE.repaired)", FILE)),
               ("registry journal repair registry.journal",
                "registry journal repair old.journal --output registry.journal"),
               "It says what it dropped. The file itself is not changed, and no file is overwritten."),
    Subcommand("journal renew", "journal_renew", "Begin a smaller journal, for a registry that nears its limits",
               (word("OLD", "a journal", FILE), word("NEW", "the new file", FILE),
                option("--lock", "FILE", "lock files that have to be selected as before", FILE, "+"),
                option("--newest", "N",
                       "keep the N newest versions of each package that are not yanked (else: 3)", VERSIONS)),
               ("registry journal renew registry.journal new.journal --lock app.lock tools.lock",
                "registry journal renew old.journal new.journal --newest 1"),
               "Kept is what the lock files select, the newest versions of each package, and what those need, in the "
               "order of before. Yanks are kept, and what was learnt is not. It says what it left out."),
    Subcommand("shell", "shell", "Open a prompt for these subcommands, over one session that stays open", (WAIT,),
               ("registry shell", "registry shell --journal team.journal", "registry shell < some.commands"),
               "Words are quoted as a shell of the system quotes them. Ctrl-C ends a line or a search, Ctrl-D the "
               "shell. Where its input is no terminal it obeys each line, and its exit status is the last one's."),
    Subcommand("serve", "serve", "Serve the journal to many clients at once, over a socket, until a signal ends it",
               (option("--socket", "PATH", "listen on a socket of the file system", FILE),
                option("--port", "N", "listen on a port of this machine alone; 0 is one that is free", range(65_536)),
                option("--mode", "MODE", "who may use the socket, as 660 (else: 600)", MODES, default="600"),
                option("--group", "NAME", "the group of the socket"),
                option("--readers", "N", "how many programs answer requests (else: 2)", range(1, 65), default=2),
                option("--seconds", "N", "give a request up after N seconds (else: 10)", range(1, 3_601), default=10),
                option("--budget", "N", "the budget of conflicts of requests that name none", BUDGETS), NEWEST,
                option("--workers", "N", "how many threads of each program resolve (else: 1)", range(1, 65), default=1),
                option("--clients", "N", "no more than N clients at a time (else: 1000)", range(1, 100_001),
                       default=1_000),
                option("--log", "FILE", "log each line that is answered; - is standard output", FILE),
                option("--metrics-port", "N", "answer /metrics, /health, /journal and /log over HTTP on this port, too",
                       range(65_536)),
                option("--page-port", "N",
                       "show the page of `registry page` on this port of this machine; 0 is one that is free",
                       range(65_536))),
               ("registry serve --socket registry.socket",
                "registry serve --journal team.journal --port 7000 --seconds 5 --log service.log"),
               "Clients speak the lines of registryd(1), and each has its replies in order. A request that takes too "
               "long is answered BudgetSpent. SIGTERM and Ctrl-C end it within 5 seconds, after all lines that came "
               "are answered. A first line in HTTP asks for /metrics, /health, /journal or /log."),
    Subcommand("log", "log", "List the commands of the journal in order, each with the time when it was accepted",
               (option("--after", "N", "only those after revision N", BUDGETS),
                flag("--follow", "wait for further ones, until Ctrl-C")),
               ("registry log", "registry log --follow --connect team.socket"),
               "A line has the revision, the time, and the command. A journal has no times. A service knows those of "
               "what it accepted since it began, and one that follows a file knows when it saw what came. Any other "
               "time is -."),
    Subcommand("page", "page", "Show the journal on a page in a browser of this machine",
               (option("--port", "N", "the port (else: one that is free)", range(65_536)),
                option("--seconds", "N", "end a search after N seconds (else: 10)", range(1, 3_601)), NEWEST),
               ("registry page", "registry page --port 8000 --journal team.journal"),
               "It prints the page's address, and shows there until Ctrl-C. The page changes nothing. Only this "
               "machine reaches it, but each of its users."),
)


def subcommand(name: str) -> Subcommand | None:
    return next((it for it in SUBCOMMANDS if it.name == name), None)
