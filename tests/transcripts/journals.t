Which journal a subcommand reads, and what it says of one that is missing, damaged or no file.

The option names it, else the variable, else it is the one in this folder.

  $ REGISTRY_JOURNAL=other registry publish a 1.0.0 --journal one
  published a 1.0.0 (revision 1)
  $ REGISTRY_JOURNAL=other registry publish b 1.0.0
  published b 1.0.0 (revision 1)
  $ REGISTRY_JOURNAL= registry publish c 1.0.0
  published c 1.0.0 (revision 1)
  $ registry publish d 1.0.0 --journal=-dash
  published d 1.0.0 (revision 1)
  $ grep -o '"name":"."' -- one other registry.journal -dash
  one:"name":"a"
  other:"name":"b"
  registry.journal:"name":"c"
  -dash:"name":"d"
  $ rm -- one other registry.journal -dash

One that is not there.

  $ for words in list "show a" "resolve a" "tree a" "why a" "search a"; do registry $words; echo $?; done 2>&1 | sort | uniq -c
        6 3
        6 registry: registry.journal: there is no such journal: `registry publish` or `registry import` begins one, and --journal FILE names another
  $ ls

One that is damaged is left as it is.

  $ registry publish a 1.0.0
  published a 1.0.0 (revision 1)
  $ registry publish b 1.0.0
  published b 1.0.0 (revision 2)
  $ mv registry.journal whole.journal
  $ damaged() {
  >   sed "$1" whole.journal | tee registry.journal > before
  >   for words in list "publish c 1.0.0"; do registry $words 2>&1 | cut -d: -f1-3; done
  >   cmp registry.journal before
  > }
  $ damaged 's/"b"/"B"/'
  registry: registry.journal: line 3 is at fault
  registry: registry.journal: line 3 is at fault
  $ damaged 's/"a"/"a" /'
  registry: registry.journal: line 2 is at fault
  registry: registry.journal: line 2 is at fault
  $ damaged 's/end 2/end 3/'
  registry: registry.journal: line 4 is at fault
  registry: registry.journal: line 4 is at fault
  $ damaged '$amore'
  registry: registry.journal: line 5 is at fault
  registry: registry.journal: line 5 is at fault
  $ damaged 's/journal 2/journal 3/'
  registry: registry.journal: line 1 is at fault
  registry: registry.journal: line 1 is at fault
  $ damaged 's/.*/hello/'
  registry: registry.journal: line 1 is at fault
  registry: registry.journal: line 1 is at fault
  $ registry list
  registry: registry.journal: line 1 is at fault: `registry journal verify registry.journal` says why, and `registry journal repair registry.journal` keeps what is before it
  [3]

What is no version in one that is damaged.

  $ rm registry.journal
  $ registry --quiet shell > /dev/null << end
  > publish a 1.0.0
  > publish a 1.1.0 b
  > publish c 1.0.0 a@^1
  > end
  $ mv registry.journal whole.journal
  $ for version in x 1 1.0.0.0 ² ٣.0.0 1.1.0- $(printf %05000d 9); do
  >   sed "s/1\.1\.0/$version/" whole.journal > registry.journal
  >   for words in list "search a" "show a" "show b" "resolve a"; do registry $words 2>&1 | cut -d: -f1-3; done
  > done | uniq -c
       35 registry: registry.journal: line 3 is at fault

One that is no file.

  $ mkdir folder
  $ registry list --journal folder
  registry: folder: Is a directory
  [3]
  $ registry publish a 1.0.0 --journal folder
  registry: folder: not a plain file: --journal FILE names another
  [3]
  $ registry publish a 1.0.0 --journal nowhere/x
  registry: nowhere/x: can't be created: No such file or directory: --journal FILE names another
  [3]

A program that is not there, or that ends before it has answered; what one says before it begins is passed on, as one of
a checkout, which is built first.

  $ mv whole.journal registry.journal
  $ REGISTRY_PROGRAM=/nowhere/registryd registry list
  registry: the program can't be started: /nowhere/registryd: No such file or directory
  [3]
  $ REGISTRY_PROGRAM=/bin/true registry list
  registry: the program /bin/true ended with status 0 before it had answered
  [3]
  $ cat > building << 'end'
  > #!/bin/sh
  > echo "registryd: it is compiled first" >&2
  > echo "crate 1 of 2" >&2
  > exec registryd "$@"
  > end
  $ printf '#!/bin/sh\necho no compiler >&2\nexit 1\n' > broken
  $ chmod +x building broken
  $ REGISTRY_PROGRAM=./building registry list
  registryd: it is compiled first
  crate 1 of 2
  a  1.1.0  2 versions
  c  1.0.0  1 version
  $ REGISTRY_PROGRAM=./broken registry list
  no compiler
  registry: the program ./broken ended with status 1 before it had answered
  [3]

One in use is read up to its last line, and not written.

  $ rm registry.journal
  $ registry publish a 1.0.0
  published a 1.0.0 (revision 1)
  $ mkfifo lines
  $ registryd serve --workers 1 --journal registry.journal < lines > replies &
  $ holder=$!
  $ exec 9> lines
  $ echo '{"op":"publish","name":"b","version":"1.0.0","needs":[["a","^1"]]}' >&9
  $ until grep -qs ok replies; do sleep 0.01; done
  $ tail -n 1 registry.journal
  {"name":"b","needs":[["a","^1"]],"op":"publish","version":"1.0.0"}
  $ registry list
  a  1.0.0  1 version
  b  1.0.0  1 version
  $ registry tree b
  b 1.0.0
  └── a 1.0.0
  $ registry publish c 1.0.0 --wait 0 2>&1 | sed "s/process $holder,/process HOLDER,/; s/--journal r.*\"/..\"/"
  registry: registry.journal is in use by another session (process HOLDER, "registryd serve --workers 1 .."): try again once that has ended
  $ exec 9>&-
  $ wait $holder
  $ registry publish c 1.0.0
  published c 1.0.0 (revision 3)

One that was cut is read to its last whole line, left as it is, and gone on with.

  $ cp registry.journal whole.journal
  $ for cut in 6 7 8 70; do
  >   head -c -$cut whole.journal | tee registry.journal > before
  >   registry list | wc -l
  >   cmp registry.journal before
  >   registry publish d 1.0.0
  > done
  3
  published d 1.0.0 (revision 4)
  2
  published d 1.0.0 (revision 3)
  2
  published d 1.0.0 (revision 3)
  1
  published d 1.0.0 (revision 2)

What was learnt is passed over: the journal of the page on formats that has a line of it.

  $ sed -n '/^    registry-journal 2$/,/^    end/{s/^    //p;/^end/q}' "$TESTDIR"/../../docs/FORMATS.md > shown
  $ grep -c '"op":"learn"' shown
  1
  $ cp shown registry.journal
  $ registry tree a
  a 1.0.0
  └── b 1.0.0
      └── c 1.0.0
  $ registry resolve c@^2
  c ^2: refused at revision 3
    Because the request depends on c ^2 and no version of c matches ^2, resolving failed.
    No version of c matches ^2; there is 1.0.0.
  [1]
  $ registry publish d 1.0.0
  published d 1.0.0 (revision 4)
  $ head -n -2 registry.journal | cmp - <(head -n -1 shown)

A command that has no program beside it takes the one of the path: here nothing else is on it, where a test of the
package may have installed one.

  $ mkdir away bin
  $ cp -rL "$TESTDIR"/../../registry "$TESTDIR"/../../registry_cli "$TESTDIR"/../../registryd_lines away
  $ ln -s "$(command -v python3)" bin/python3
  $ away() { env -u REGISTRY_PROGRAM PATH="$PWD/bin" away/registry publish a 1.0.0 --journal away.journal; }
  $ away
  registry: the program registryd is not found: put it on the path, or name it by REGISTRY_PROGRAM
  [3]
  $ ln -s "$REGISTRY_PROGRAM" bin/registryd
  $ away
  published a 1.0.0 (revision 1)
