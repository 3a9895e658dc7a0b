"""The command `registry` as a module."""
from registry_cli.main import command

command()
