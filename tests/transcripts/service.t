The command `registry` asks a service in place of a journal, and each subcommand answers the same.

  $ . "$TESTDIR/service.sh"
  $ cat > some.lines << end
  > {"op":"publish","name":"log","version":"1.0.0","needs":[]}
  > {"op":"publish","name":"log","version":"1.2.0","needs":[]}
  > {"op":"publish","name":"log","version":"2.0.0","needs":[]}
  > {"op":"yank","name":"log","version":"1.2.0"}
  > {"op":"publish","name":"zlib","version":"1.0.0","needs":[]}
  > {"op":"publish","name":"app","version":"1.0.0","needs":[["log","^1"],["zlib","*"]]}
  > {"op":"publish","name":"web","version":"1.0.0","needs":[["app","^1"],["log","^2"]]}
  > end
  $ registryd serve --workers 1 --save team.journal < some.lines > told
  $ cat > words << end
  > list
  > search l
  > show log
  > resolve app
  > tree app
  > tree app --invert log
  > why app
  > why web
  > why app --not log 2.0.0
  > resolve web
  > resolve nothing
  > show lgo
  > list --json
  > resolve app --json
  > resolve app --write app.lock
  > outdated --lock app.lock
  > resolve --lock app.lock
  > resolve app@^1 --lock app.lock --locked
  > resolve zlib --lock app.lock --locked
  > lock check app.lock
  > lock check app.lock app@^2
  > lock check app.lock a@q --json
  > end
  $ each() { while read -r words; do registry $words "$@" < /dev/null 2>&1; echo "status $?"; done; }

What is read.

  $ mkdir one other
  $ begin --socket socket
  $ (cd one && each --connect ../socket < ../words > ../connected)
  $ cp team.journal copy.journal
  $ (cd other && each --journal ../copy.journal < ../words > ../kept)
  $ diff connected kept
  $ sed -n 's/^status //p' connected | paste -s -d ' '
  0 0 0 0 0 0 0 0 0 1 1 1 0 0 0 0 0 0 1 0 1 1
  $ end

What is written, over a port, and an index.

  $ cat > words << end
  > publish log 1.0.0
  > publish log 1.0.0
  > publish app 1.0.0 log@^1 lgo
  > yank log 1.0.0
  > yank log 1.0.0
  > unyank log 1.0.0
  > publish log 1
  > import debian $TESTDIR/../support/data/debian.txt
  > end
  $ rm team.journal
  $ begin --port 0
  $ each --connect "$at" < words > connected
  $ each --journal other.journal < words > kept
  $ diff connected kept
  $ tail -n 1 connected
  status 0
  $ end
  $ cmp team.journal other.journal

The environment, and wrong words. Words come before the environment.

  $ rm team.journal other.journal
  $ begin --socket socket
  $ REGISTRY_CONNECT=socket registry publish log 1.0.0
  published log 1.0.0 (revision 1)
  $ REGISTRY_CONNECT=socket registry list
  log  1.0.0  1 version
  $ registry publish zlib 2.0.0 --journal other.journal
  published zlib 2.0.0 (revision 1)
  $ REGISTRY_CONNECT=socket registry list --journal other.journal
  zlib  2.0.0  1 version
  $ REGISTRY_JOURNAL=other.journal registry list --connect socket
  log  1.0.0  1 version
  $ registry list --connect x --journal y
  registry: --connect can't be used with --journal: a service has its own journal
  [2]
  $ registry list --connect nowhere
  registry: no service answers at nowhere: No such file or directory; did you mean nowhere:PORT?
  [3]
  $ registry list --connect 127.0.0.1:1
  registry: no service answers at 127.0.0.1:1: Connection refused
  [3]
  $ registry serve --port 0 --connect x 2> /dev/null
  [2]
  $ registry --complete --connect socket show ''
  words
  log
  $ registry serve --journal other.journal
  registry: a service listens on --socket PATH, on --port N, or on both
  [2]
  $ for words in "--group nobody-of-this-name --socket x" "--port 0 --group daemon" "--port 0 --mode 777" \
  >   "--port 0 --log /nowhere/log" "--socket /nowhere/socket"; do
  >   registry serve --journal other.journal $words || [ $? -le 3 ] || echo "status $?"
  > done
  registry: *there is no group nobody-of-this-name* (glob)
  registry: *--group needs --socket* (glob)
  registry: *argument --mode: invalid choice: '777' (choose from '600', '660', '666')* (glob)
  registry: */nowhere/log: No such file or directory* (glob)
  registry: */nowhere/socket: a socket can't be made there: No such file or directory* (glob)

A shell.

  $ printf '%s\n' 'publish zlib 1.0.0' 'publish app 1.0.0 log@^1' 'tree app' 'list --json' > typed
  $ registry shell --connect socket < typed | head -n 4
  published zlib 1.0.0 (revision 2)
  published app 1.0.0 (revision 3)
  app 1.0.0
  └── log 1.0.0
  $ end

Each selection is the newest, and `--newest` has no effect: in each subcommand that selects, in the shell, and by a
service.

  $ rm -f *.journal
  $ for words in "a 1.0.0" "a 2.0.0" "b 1.0.0" "b 2.0.0" "a 3.0.0 b@=1.0.0"; do registry publish $words > told; done
  $ printf 'a\nb\n' > registry.needs
  $ for newest in "" --newest; do
  >   registry resolve a b $newest; registry tree a b $newest; registry why a b $newest
  >   echo '[["a","1.0.0"],["b","1.0.0"]]' > registry.lock
  >   registry outdated --lock registry.lock --json $newest | grep -o '"allowed":"[^"]*"'
  >   registry upgrade --lock registry.lock --yes $newest > told 2>&1 && tr -d ' \n' < registry.lock && echo
  > done
  a 3.0.0
  b 1.0.0
  a 3.0.0
  └── b 1.0.0
  b 1.0.0
  a *, b *: selected at revision 5
    a 3.0.0
    b 1.0.0
  "allowed":"3.0.0"
  "allowed":"1.0.0"
  [["a","3.0.0"],["b","1.0.0"]]
  a 3.0.0
  b 1.0.0
  a 3.0.0
  └── b 1.0.0
  b 1.0.0
  a *, b *: selected at revision 5
    a 3.0.0
    b 1.0.0
  "allowed":"3.0.0"
  "allowed":"1.0.0"
  [["a","3.0.0"],["b","1.0.0"]]
  $ printf 'resolve a b\nresolve a b --newest\n' | registry shell
  a 3.0.0
  b 1.0.0
  a 3.0.0
  b 1.0.0
  $ cp registry.journal team.journal
  $ begin --socket socket --newest
  $ registry resolve a b --connect socket
  a 3.0.0
  b 1.0.0
  $ end

A page, of which there is a journal, and words that it does not have.

  $ registry page --journal none.journal 2> /dev/null
  [3]
  $ for words in "--port 65536" "--port x" "--seconds 0" log; do registry page $words > told 2> said; echo "$? $(wc -l < said)"; done
  2 1
  2 1
  2 1
  2 1
