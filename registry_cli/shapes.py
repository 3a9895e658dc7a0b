"""What annotations name, as shapes.pyi has it. When a command runs nobody reads annotations, and `typing` takes longer
to load than most subcommands: so each name is none here."""


def __getattr__(name: str) -> None:
    if name.startswith("__"):
        raise AttributeError(name)
