"""Subcommands: each module has `run(options, out)`, which answers the exit status, 0 where it answers none. A module is
loaded only where its subcommand is asked for."""
