What a subcommand loads, on which hangs how long it takes to start: of the subcommands its own, and nothing that it does
not need.

  $ registry publish a 1.0.0
  published a 1.0.0 (revision 1)
  $ echo '[["a","1.0.0"]]' > registry.lock
  $ echo a > registry.needs
  $ cat > look.py << end
  > import runpy, sys
  > try:
  >     runpy.run_path(sys.argv.pop(1), run_name="__main__")
  > finally:
  >     print(*sys.modules, sep="\n", file=open("loaded", "a"))
  > end
  $ loads() { PYTHONPATH="$TESTDIR/../.." python3 -S look.py "$(command -v registry)" "$@" > /dev/null 2>&1 < /dev/null; }
  $ for words in list "show a" "resolve a" "tree a"; do loads $words; done
  $ grep '^registry_cli\.commands\.' loaded
  registry_cli.commands.listing
  registry_cli.commands.show
  registry_cli.commands.resolve
  registry_cli.commands.tree
  $ grep -xE 'argparse|registry_cli\.parsing|registry_cli\.waiting|tempfile' loaded
  [1]
  $ for words in "unyank a 1.0.0" "upgrade --lock registry.lock" "diff registry.lock registry.lock"; do loads $words; done
  $ grep '^registry_cli\.commands\.' loaded | tail -n +5
  registry_cli.commands.yank
  registry_cli.commands.upgrade
  registry_cli.commands.diff
  $ grep -xE 'registry_cli\.(cases|derivation)' loaded
  [1]
  $ loads outdated --lock registry.lock
  $ grep '^registry_cli\.commands\.' loaded | tail -n +8
  registry_cli.commands.outdated
  $ grep -xE 'registry_cli\.(drawing|indexes\.index|completion|manual)|dataclasses|inspect|tomllib' loaded
  [1]
