"""The command `registry`: what people type, over the program that speaks in lines.

`table.py` has the subcommands, each of which stands in a module of its own in `commands`. What is accepted and what is
selected is asked of the program (`session.py`).

Much of what a short subcommand takes is to load modules. So what not all of those need that import a module is imported
where it is used, above all what is done while the program loads a journal. Named tuples are those of `collections`,
since `typing` takes longer to load than most subcommands."""
TYPE_CHECKING = False  # for who checks types it is true by its name, as that of `typing` is
