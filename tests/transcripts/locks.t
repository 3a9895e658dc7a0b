Lock files: what they keep of a selection, what is made of that later, and what is no lock file. `hold` makes the journal anew, of the commands that it is given.

  $ hold() { rm -f registry.journal; registry --quiet shell > /dev/null; }

A selection and back: what was selected is kept, and selected again although a newer version is there by then.

  $ hold << end
  > publish app 1.0.0 log@^1
  > publish log 1.0.0
  > publish log 2.0.0
  > end
  $ cp registry.journal old.journal
  $ registry resolve app --write app.lock
  app 1.0.0
  log 1.0.0
  registry: app.lock is written: 2 added, 0 removed, 0 changed
  registry: app.needs is written: the needs of app.lock
  $ cat app.lock
  {
    "needs": [
      ["app", "*"]
    ],
    "revision": 3,
    "selected": [
      ["app", "1.0.0"],
      ["log", "1.0.0"]
    ]
  }
  $ cat app.needs
  app *
  $ registry publish log 1.1.0
  published log 1.1.0 (revision 4)
  $ registry publish app 1.1.0 log
  published app 1.1.0 (revision 5)
  $ registry resolve app@^1 'log@>=1.0.0, <3' --lock app.lock --budget 7
  app 1.0.0
  log 1.0.0
  $ registry resolve --lock app.lock
  app 1.0.0
  log 1.0.0
  $ registry resolve app
  app 1.1.0
  log 2.0.0
  $ registry resolve app --write new.lock
  app 1.1.0
  log 2.0.0
  registry: new.lock is written: 2 added, 0 removed, 0 changed
  registry: new.needs is written: the needs of new.lock
  $ registry diff app.lock new.lock
  ~ app 1.0.0 -> 1.1.0
  ~ log 1.0.0 -> 2.0.0 (beyond ^1.0.0)
  0 added, 0 removed, 2 changed
  $ registry diff app.lock app.lock
  0 added, 0 removed, 0 changed
  $ registry diff app.lock new.lock --json
  [{"name":"app","from":"1.0.0","to":"1.1.0"},{"name":"log","from":"1.0.0","to":"2.0.0"}]
  $ echo '[]' > none.lock
  $ registry diff none.lock app.lock --json
  [{"name":"app","from":null,"to":"1.0.0"},{"name":"log","from":null,"to":"1.0.0"}]

The same selection is the same file.

  $ rm -f *.lock *.needs
  $ cp old.journal registry.journal
  $ registry resolve app --write app.lock
  app 1.0.0
  log 1.0.0
  registry: app.lock is written: 2 added, 0 removed, 0 changed
  registry: app.needs is written: the needs of app.lock
  $ registry publish zed 1.0.0
  published zed 1.0.0 (revision 4)
  $ registry resolve --lock app.lock --write app.lock
  app 1.0.0
  log 1.0.0
  registry: app.lock is written: 0 added, 0 removed, 0 changed
  $ cat app.lock
  {
    "needs": [
      ["app", "*"]
    ],
    "revision": 3,
    "selected": [
      ["app", "1.0.0"],
      ["log", "1.0.0"]
    ]
  }
  $ registry resolve app zed --lock app.lock --write app.lock
  app 1.0.0
  log 1.0.0
  zed 1.0.0
  registry: app.lock is written: 1 added, 0 removed, 0 changed
  registry: app.needs is written: the needs of app.lock
  $ cat app.lock
  {
    "needs": [
      ["app", "*"],
      ["zed", "*"]
    ],
    "revision": 4,
    "selected": [
      ["app", "1.0.0"],
      ["log", "1.0.0"],
      ["zed", "1.0.0"]
    ]
  }

What a lock was made for is needed where nothing else says so.

  $ rm -f *.lock *.needs
  $ cp old.journal registry.journal
  $ cat > app.lock << end
  > {
  >   "needs": [
  >     ["app", "*"]
  >   ],
  >   "revision": 3,
  >   "selected": [
  >     ["app", "1.0.0"],
  >     ["log", "1.0.0"]
  >   ]
  > }
  > end
  $ registry resolve --lock app.lock
  app 1.0.0
  log 1.0.0
  $ registry tree --depth 0 --lock app.lock
  app 1.0.0
  $ registry resolve --write app.lock --lock app.lock
  app 1.0.0
  log 1.0.0
  registry: app.lock is written: 0 added, 0 removed, 0 changed
  registry: app.needs is written: the needs of app.lock
  $ echo 'log ^2' > app.needs
  $ registry resolve --lock app.lock
  log 2.0.0

A lock of another hand.

  $ rm -f *.lock *.needs
  $ hold << end
  > publish a 1.0.0
  > publish a 2.0.0
  > publish b 1.0.0
  > end
  $ cat > some.lock << end
  > [ ["b", "1.0.0"],
  >  ["a", "1.0.0"] ]
  > end
  $ registry resolve a b@^1 --lock some.lock
  a 1.0.0
  b 1.0.0

What is asked has the lock in byte order, however the file has it, and only members that have an effect.

  $ hold << end
  > publish a 1.0.0
  > publish b 1.0.0
  > end
  $ echo '[["b","1.0.0"],["a","2.0.0-rc.1"]]' > some.lock
  $ cat > recording << 'end'
  > #!/bin/sh
  > tee asked | registryd "$@"
  > end
  $ chmod +x recording
  $ asking() { REGISTRY_PROGRAM=./recording registry resolve "b ^1" "a >=1, <3" "$@" > /dev/null; head -n 1 asked; }
  $ asking
  {"op":"resolve","needs":[["b","^1"],["a",">=1, <3"]],"lock":[],"explain":true}
  $ asking --budget 0
  {"op":"resolve","needs":[["b","^1"],["a",">=1, <3"]],"lock":[],"explain":true,"budget":0}
  $ asking --lock some.lock
  registry: some.lock names a 2.0.0-rc.1, which is not published
  {"op":"resolve","needs":[["b","^1"],["a",">=1, <3"]],"lock":[["a","2.0.0-rc.1"],["b","1.0.0"]],"explain":true}
  $ asking --budget 4294967295 --lock some.lock
  registry: some.lock names a 2.0.0-rc.1, which is not published
  {"op":"resolve","needs":[["b","^1"],["a",">=1, <3"]],"lock":[["a","2.0.0-rc.1"],["b","1.0.0"]],"explain":true,"budget":4294967295}

Entries that are yanked or not there are told.

  $ rm -f *.lock *.needs
  $ hold << end
  > publish a 1.0.0
  > publish a 2.0.0
  > publish b 1.0.0
  > yank a 1.0.0
  > end
  $ echo '[["a","1.0.0+x"],["b","3.0.0"],["c","1.0.0"]]' > some.lock
  $ registry resolve a b --lock some.lock
  registry: some.lock names a 1.0.0+x, which is yanked
  registry: some.lock names b 3.0.0, which is not published
  registry: some.lock names c 1.0.0, which is not published
  a 1.0.0
  b 1.0.0

Needs beside a lock.

  $ rm -f *.lock *.needs
  $ hold << end
  > publish a 1.0.0
  > publish b 1.0.0
  > publish b 2.0.0
  > end
  $ cat > x.needs << end
  > # what x asks for
  > 
  > a
  >   b  >=1, <2  
  > end
  $ registry resolve --write x.lock
  a 1.0.0
  b 1.0.0
  registry: x.lock is written: 2 added, 0 removed, 0 changed
  $ registry resolve 'a@*' 'b@>=1, <2' --write x.lock
  a 1.0.0
  b 1.0.0
  registry: x.lock is written: 0 added, 0 removed, 0 changed
  $ cat x.needs
  # what x asks for
  
  a
    b  >=1, <2  
  $ registry resolve b --write x.lock
  b 2.0.0
  registry: x.lock is written: 0 added, 1 removed, 1 changed
  registry: x.needs is written: the needs of x.lock
  $ cat x.needs
  b *
  $ echo '[]' > y.lock
  $ registry resolve --lock y.lock
  registry: name what is needed, as app@^1, or write it into y.needs, a name and a requirement a line
  [2]
  $ echo '[]' > lockfile
  $ registry resolve --lock lockfile
  registry: name what is needed, as app@^1, or write it into lockfile.needs, a name and a requirement a line
  [2]
  $ printf 'a \377\n' > y.needs
  $ registry resolve --lock y.lock
  registry: y.needs is not UTF-8
  [3]

Where nothing is selected the files are as they were.

  $ rm -f *.lock *.needs
  $ cp old.journal registry.journal
  $ echo '[]' > app.lock
  $ registry resolve app@^2 --write app.lock
  app ^2: refused at revision 3
    Because the request depends on app ^2 and no version of app matches ^2, resolving failed.
    No version of app matches ^2; there is 1.0.0.
  [1]
  $ cat app.lock
  []

A file is replaced whole: a link stays a link, a plain list stays one, and what stood there keeps its mode.

  $ rm -f *.lock *.needs
  $ echo '[]' > kept.lock
  $ chmod 640 kept.lock
  $ ln -s kept.lock app.lock
  $ registry --quiet resolve app --write app.lock
  app 1.0.0
  log 1.0.0
  $ cat kept.lock
  [
    ["app", "1.0.0"],
    ["log", "1.0.0"]
  ]
  $ stat -c '%A %N' *.lock
  lrwxrwxrwx 'app.lock' -> 'kept.lock'
  -rw-r----- 'kept.lock'
  $ registry resolve app --write nowhere/app.lock 2>&1 | sed "s,$PWD/,,"
  app 1.0.0
  log 1.0.0
  registry: nowhere/app.lock is not written: No such file or directory

What is no lock.

  $ rm -f *.lock *.needs
  $ echo '[["a","1.0.0"]]' > good
  $ echo '[["a","1.0"]]' > bad
  $ hold << end
  > publish a 1.0.0
  > end
  $ echo '[["A","1.0.0"]]' > x1
  $ echo '[["a",1]]' > x2
  $ echo '[["a","1.0.0"],["a","2.0.0"]]' > x3
  $ registry diff good bad
  registry: bad:1:11: error 2 BadVersion: the version "1.0" has no patch number; did you mean "1.0.0"?
  [3]
  $ registry diff good nowhere
  registry: nowhere: there is no such lock file: `registry resolve NEED .. --write nowhere` makes one
  [3]
  $ registry diff good x1
  registry: x1:1:4: error 1 BadName: the capital letter "A", byte 1 of the name "A", is not one of a-z, 0-9, - and _; did you mean "a"?
  [3]
  $ registry diff good x2
  registry: x2:1:2: error 19 BadLine: each item of a lock list is a pair of a name and a version, as ["b","1.0.0"]
  [3]
  $ registry diff good x3
  registry: x3:1:17: error 4 RepeatedDependency: a appears twice in "lock"
  [3]
  $ registry diff good .
  registry: .: Is a directory
  [3]
  $ for words in "diff bad good" "resolve a --lock bad" "tree a --lock bad" "resolve a --write bad" "outdated --lock bad" \
  >     "upgrade --lock bad"
  > do registry $words; echo $?; done 2>&1 | sort | uniq -c
        6 3
        6 registry: bad:1:11: error 2 BadVersion: the version "1.0" has no patch number; did you mean "1.0.0"?
