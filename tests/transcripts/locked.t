What a build asks of a lock file. `hold` makes the journal anew, of the commands that it is given.

  $ hold() { rm -f registry.journal; registry --quiet shell > /dev/null; }

What is kept and what is not: newer versions change nothing, nor does a yank.

  $ hold << end
  > publish log 1.0.0
  > publish log 1.2.0
  > publish zlib 1.0.0
  > publish app 1.0.0 log@^1 zlib
  > end
  $ cp registry.journal old.journal
  $ echo '[["app", "1.0.0"], ["log", "1.2.0"], ["zlib", "1.0.0"]]' > x.lock
  $ registry resolve app --lock x.lock --locked
  app 1.0.0
  log 1.2.0
  zlib 1.0.0
  $ registry publish log 1.3.0
  published log 1.3.0 (revision 5)
  $ registry resolve app --lock x.lock --locked
  app 1.0.0
  log 1.2.0
  zlib 1.0.0
  $ cp old.journal registry.journal
  $ registry yank log 1.2.0
  yanked log 1.2.0 (revision 5)
  $ registry resolve app --lock x.lock --locked
  registry: x.lock names log 1.2.0, which is yanked
  app 1.0.0
  log 1.2.0
  zlib 1.0.0
  $ cp old.journal registry.journal
  $ echo '[["app", "1.0.0"], ["log", "1.9.9"], ["zlib", "1.0.0"]]' > x.lock
  $ registry resolve app --lock x.lock --locked
  registry: x.lock names log 1.9.9, which is not published
  ~ log 1.9.9 -> 1.2.0 (older)
  registry: x.lock would change, which --locked forbids: `registry resolve --lock x.lock --write x.lock` changes it
  [1]
  $ registry publish log 1.3.0
  published log 1.3.0 (revision 5)
  $ echo '[["app", "1.0.0"], ["log", "1.2.0"], ["zlib", "1.0.0"]]' > x.lock
  $ registry resolve app log@^1.3 --lock x.lock --locked
  ~ log 1.2.0 -> 1.3.0
  registry: x.lock would change, which --locked forbids: `registry resolve --lock x.lock --write x.lock` changes it
  [1]
  $ cp old.journal registry.journal
  $ registry resolve log --lock x.lock --locked
  - app 1.0.0
  - zlib 1.0.0
  registry: x.lock would change, which --locked forbids: `registry resolve --lock x.lock --write x.lock` changes it
  [1]
  $ echo '[["app", "1.0.0"], ["log", "1.2.0"]]' > x.lock
  $ registry resolve app --lock x.lock --locked
  + zlib 1.0.0
  registry: x.lock would change, which --locked forbids: `registry resolve --lock x.lock --write x.lock` changes it
  [1]
  $ echo '[]' > x.lock
  $ registry resolve app --lock x.lock --locked
  + app 1.0.0
  + log 1.2.0
  + zlib 1.0.0
  registry: x.lock would change, which --locked forbids: `registry resolve --lock x.lock --write x.lock` changes it
  [1]
  $ echo '[["app", "1.0.0"], ["log", "1.2.0"], ["zlib", "1.0.0"]]' > x.lock
  $ registry resolve app@^2 --lock x.lock --locked
  app ^2: refused at revision 4
    Because the request depends on app ^2 and no version of app matches ^2, resolving failed.
    No version of app matches ^2; there is 1.0.0.
  [1]

Without --locked what differs is no fault.

  $ rm -f *.lock *.needs
  $ echo '[["app", "1.0.0"], ["log", "1.2.0"]]' > x.lock
  $ registry resolve app --lock x.lock
  app 1.0.0
  log 1.2.0
  zlib 1.0.0

The lock file and the needs of this folder.

  $ rm -f *.lock *.needs
  $ registry resolve app --locked
  registry: registry.lock: there is no such lock file, and --locked makes none: `registry resolve NEED .. --write registry.lock` does
  [1]
  $ registry resolve app --write registry.lock
  app 1.0.0
  log 1.2.0
  zlib 1.0.0
  registry: registry.lock is written: 3 added, 0 removed, 0 changed
  registry: registry.needs is written: the needs of registry.lock
  $ registry resolve --locked
  app 1.0.0
  log 1.2.0
  zlib 1.0.0
  $ echo log > registry.needs
  $ registry resolve --locked
  - app 1.0.0
  - zlib 1.0.0
  registry: registry.lock would change, which --locked forbids: `registry resolve --lock registry.lock --write registry.lock` changes it
  [1]

Nothing is written where it is not kept.

  $ rm -f *.lock *.needs
  $ echo '[["app", "1.0.0"], ["log", "1.2.0"]]' > x.lock
  $ registry resolve app --lock x.lock --write x.lock --locked
  + zlib 1.0.0
  registry: x.lock would change, which --locked forbids: `registry resolve --lock x.lock --write x.lock` changes it
  [1]
  $ cat x.lock
  [["app", "1.0.0"], ["log", "1.2.0"]]
  $ echo '[["app", "1.0.0"], ["log", "1.2.0"], ["zlib", "1.0.0"]]' > x.lock
  $ registry resolve app --lock x.lock --write other.lock --locked
  app 1.0.0
  log 1.2.0
  zlib 1.0.0
  registry: other.lock is written: 3 added, 0 removed, 0 changed
  registry: other.needs is written: the needs of other.lock

As JSON.

  $ rm -f *.lock *.needs
  $ echo '[["app", "1.0.0"], ["log", "1.0.0"], ["web", "1.0.0"]]' > x.lock
  $ registry resolve app --lock x.lock --locked --json
  registry: x.lock names web 1.0.0, which is not published
  - web 1.0.0
  + zlib 1.0.0
  registry: x.lock would change, which --locked forbids: `registry resolve --lock x.lock --write x.lock` changes it
  {"error":"refused","message":"x.lock would change, which --locked forbids: `registry resolve --lock x.lock --write x.lock` changes it","changes":[{"name":"web","from":"1.0.0","to":null},{"name":"zlib","from":null,"to":"1.0.0"}]}
  [1]
  $ echo '[["log", "1.0.0"]]' > x.lock
  $ registry resolve log@=1.0.0 --lock x.lock --locked --json
  {"revision":4,"selected":[["log","1.0.0"]]}

What `lock check` tells. Versions of equal precedence are the same; that there are newer ones is no fault.

  $ rm -f *.lock *.needs
  $ echo '[["app", "1.0.0"], ["log", "1.2.0"], ["zlib", "1.0.0"]]' > x.lock
  $ registry lock check x.lock app
  x.lock: whole: 3 packages, revision 4
  $ registry lock check x.lock app --json
  {"file":"x.lock","packages":3,"faults":[],"revision":4}
  $ registry lock check x.lock
  x.lock: whole: 3 packages, revision 4
  $ echo '[]' > x.lock
  $ registry lock check x.lock
  x.lock: whole: 0 packages, revision 4
  $ registry publish log 1.3.0
  published log 1.3.0 (revision 5)
  $ registry publish app 2.0.0
  published app 2.0.0 (revision 6)
  $ echo '[["app", "1.0.0"], ["log", "1.2.0"], ["zlib", "1.0.0"]]' > x.lock
  $ registry lock check x.lock app@^1 log
  x.lock: whole: 3 packages, revision 6
  $ cp old.journal registry.journal
  $ echo '[["app", "1.0.0"], ["log", "1.2.0+x"], ["zlib", "1.0.0"]]' > x.lock
  $ registry lock check x.lock app
  x.lock: whole: 3 packages, revision 4
  $ registry yank log 1.2.0
  yanked log 1.2.0 (revision 5)
  $ registry yank zlib 1.0.0
  yanked zlib 1.0.0 (revision 6)
  $ echo '[["app", "1.0.0"], ["log", "1.2.0"], ["zlib", "1.0.0"]]' > x.lock
  $ registry lock check x.lock app
  x.lock: log 1.2.0 is yanked
  x.lock: zlib 1.0.0 is yanked
  [1]
  $ registry lock check x.lock app --json
  {"file":"x.lock","packages":3,"faults":[{"name":"log","what":"log 1.2.0 is yanked"},{"name":"zlib","what":"zlib 1.0.0 is yanked"}],"revision":6}
  [1]
  $ cp old.journal registry.journal
  $ echo '[["app", "1.0.0"], ["log", "1.9.9"], ["zlib", "1.0.0"]]' > x.lock
  $ registry lock check x.lock
  x.lock: log 1.9.9 is not published; there are 1.2.0 and 1.0.0
  [1]
  $ registry lock check x.lock --json
  {"file":"x.lock","packages":3,"faults":[{"name":"log","what":"log 1.9.9 is not published; there are 1.2.0 and 1.0.0"}],"revision":4}
  [1]
  $ echo '[["app", "1.0.0"], ["log", "1.2.0"], ["zlib", "1.0.0"], ["lgo", "1.0.0"]]' > x.lock
  $ registry lock check x.lock
  x.lock: no version of lgo is published; did you mean log?
  [1]
  $ registry lock check x.lock --json
  {"file":"x.lock","packages":4,"faults":[{"name":"lgo","what":"no version of lgo is published; did you mean log?"}],"revision":4}
  [1]
  $ echo '[["app", "1.0.0"], ["log", "1.2.0"]]' > x.lock
  $ registry lock check x.lock app
  x.lock: app 1.0.0 depends on zlib *; the lock has no zlib
  [1]
  $ registry publish log 2.0.0
  published log 2.0.0 (revision 5)
  $ echo '[["app", "1.0.0"], ["log", "2.0.0"], ["zlib", "1.0.0"]]' > x.lock
  $ registry lock check x.lock
  x.lock: app 1.0.0 depends on log ^1; the lock has 2.0.0
  [1]
  $ cp old.journal registry.journal
  $ echo '[["app", "1.0.0"], ["log", "1.2.0"], ["zlib", "1.0.0"]]' > x.lock
  $ registry lock check x.lock app@^2 log@=1.2.0 web
  x.lock: the request depends on app ^2; the lock has 1.0.0
  x.lock: the request depends on web *; the lock has no web
  [1]
  $ registry lock check x.lock log
  x.lock: nothing needs app 1.0.0
  x.lock: nothing needs zlib 1.0.0
  [1]
  $ registry publish ring-a 1.0.0 ring-b
  published ring-a 1.0.0 (revision 5)
  registry: so far no version of ring-b is published; did you mean ring-a?
  $ registry publish ring-b 1.0.0 ring-a
  published ring-b 1.0.0 (revision 6)
  $ echo '[["ring-a", "1.0.0"], ["ring-b", "1.0.0"], ["zlib", "1.0.0"]]' > x.lock
  $ registry lock check x.lock zlib
  x.lock: nothing needs ring-a 1.0.0
  x.lock: nothing needs ring-b 1.0.0
  [1]

Where what is needed is said.

  $ rm -f *.lock *.needs
  $ cp old.journal registry.journal
  $ echo '{"needs": [["app", "^2"]], "revision": 3, "selected": [["app", "1.0.0"], ["log", "1.2.0"], ["zlib", "1.0.0"]]}' > x.lock
  $ registry lock check x.lock
  x.lock: the request depends on app ^2; the lock has 1.0.0
  [1]
  $ registry lock check x.lock app@^3
  x.lock: the request depends on app ^3; the lock has 1.0.0
  [1]
  $ echo 'app ^4' > x.needs
  $ registry lock check x.lock
  x.lock: the request depends on app ^4; the lock has 1.0.0
  [1]
  $ registry lock check x.lock app@^3
  x.lock: the request depends on app ^3; the lock has 1.0.0
  [1]
  $ : > x.needs
  $ registry lock check x.lock
  x.lock: nothing needs app 1.0.0
  x.lock: nothing needs log 1.2.0
  x.lock: nothing needs zlib 1.0.0
  [1]

A lock that was just written.

  $ rm -f *.lock *.needs
  $ registry resolve app --write x.lock
  app 1.0.0
  log 1.2.0
  zlib 1.0.0
  registry: x.lock is written: 3 added, 0 removed, 0 changed
  registry: x.needs is written: the needs of x.lock
  $ registry lock check x.lock
  x.lock: whole: 3 packages, revision 4

What can't be checked.

  $ rm -f *.lock *.needs
  $ echo '[["app", "1.0.0"], ["log", "1.2.0"], ["zlib", "1.0.0"]]' > x.lock
  $ echo '{}' > bad
  $ registry lock check none
  registry: none: there is no such lock file: `registry resolve NEED .. --write none` makes one
  [3]
  $ registry lock check bad
  registry: bad:1:1: error 19 BadLine: a lock list is an array of pairs of a name and a version, as [["b","1.0.0"]], not an object; did you mean []?
  [3]
  $ registry lock check
  registry: the following arguments are required: FILE: see `registry lock check --help`
  [2]
  $ registry lock check x.lock App
  registry: the capital letter "A", byte 1 of the name "App", is not one of a-z, 0-9, - and _; did you mean "app"?
  [1]
  $ registry lock check x.lock app@q
  registry: app@q: expected the major number of the requirement "q", not "q"
  [1]
  $ registry lock check x.lock app app@^1
  registry: app appears twice: join its requirements with a comma
  [1]
  $ registry lock check x.lock $(seq -f a%g 65)
  registry: there are 65 needs; the limit is 64
  [1]

Statuses of a diff.

  $ rm -f *.lock *.needs
  $ echo '[["app", "1.0.0"], ["log", "1.2.0"], ["zlib", "1.0.0"]]' > x.lock
  $ echo '[["app", "1.0.0"], ["log", "1.2.0"]]' > new.lock
  $ registry diff x.lock new.lock
  - zlib 1.0.0
  0 added, 1 removed, 0 changed
  $ registry diff x.lock new.lock --exit-status
  - zlib 1.0.0
  0 added, 1 removed, 0 changed
  [1]
  $ registry diff x.lock x.lock
  0 added, 0 removed, 0 changed
  $ registry diff x.lock x.lock --exit-status
  0 added, 0 removed, 0 changed
  $ registry diff x.lock none --exit-status
  registry: none: there is no such lock file: `registry resolve NEED .. --write none` makes one
  [3]

Statuses of what is outdated.

  $ rm -f *.lock *.needs
  $ echo '[["app", "1.0.0"], ["log", "1.2.0"], ["zlib", "1.0.0"]]' > x.lock
  $ registry outdated app --lock x.lock
  registry: everything in x.lock is the newest version
  $ registry outdated app --lock x.lock --exit-status
  registry: everything in x.lock is the newest version
  $ registry publish log 1.3.0
  published log 1.3.0 (revision 5)
  $ registry outdated app --lock x.lock
  package  locked  allowed  newest  held back by
  log      1.2.0   1.3.0    1.3.0
  $ registry outdated app --lock x.lock --exit-status
  package  locked  allowed  newest  held back by
  log      1.2.0   1.3.0    1.3.0
  [1]

A lock file that says what it was made of, written over by an upgrade.

  $ rm -f *.lock *.needs
  $ echo '{"needs": [["app", "*"]], "revision": 4, "selected": [["app", "1.0.0"], ["log", "1.2.0"], ["zlib", "1.0.0"]]}' > x.lock
  $ registry upgrade log --lock x.lock --need app --yes
  ~ log 1.2.0 -> 1.3.0
  0 added, 0 removed, 1 changed
  registry: x.lock is written
  $ cat x.lock
  {
    "needs": [
      ["app", "*"]
    ],
    "revision": 5,
    "selected": [
      ["app", "1.0.0"],
      ["log", "1.3.0"],
      ["zlib", "1.0.0"]
    ]
  }
  $ registry publish zed 1.0.0
  published zed 1.0.0 (revision 6)
  $ registry upgrade --lock x.lock --need app --yes
  0 added, 0 removed, 0 changed
  registry: nothing changes in x.lock
  $ registry upgrade --lock x.lock --need app@^1 --yes
  0 added, 0 removed, 0 changed
  registry: x.lock is written
  $ cat x.lock
  {
    "needs": [
      ["app", "^1"]
    ],
    "revision": 6,
    "selected": [
      ["app", "1.0.0"],
      ["log", "1.3.0"],
      ["zlib", "1.0.0"]
    ]
  }

The same without needs that are typed.

  $ rm -f *.lock *.needs
  $ cp old.journal registry.journal
  $ registry publish log 1.3.0
  published log 1.3.0 (revision 5)
  $ echo '{"needs": [["app", "^1"]], "revision": 4, "selected": [["app", "1.0.0"], ["log", "1.2.0"], ["zlib", "1.0.0"]]}' > x.lock
  $ registry upgrade --lock x.lock --yes
  ~ log 1.2.0 -> 1.3.0
  0 added, 0 removed, 1 changed
  registry: x.lock is written

A renewed journal selects it as before.

  $ rm -f *.lock *.needs
  $ cp old.journal registry.journal
  $ registry publish log 1.1.0
  published log 1.1.0 (revision 5)
  $ echo '{"needs": [["log", "<1.1"], ["zlib", "*"]], "revision": 4, "selected": [["log", "1.0.0"]]}' > x.lock
  $ registry journal renew registry.journal new.journal --lock x.lock --newest 0
  new.journal is written: 2 commands in place of 5
  x.lock: selected as before, which is not what it names
  left out: 3 of 5 versions:
    app: 1.0.0: none is kept
    log: 1.2.0, 1.1.0
  $ cat new.journal
  registry-journal 2
  {"name":"log","needs":[],"op":"publish","version":"1.0.0"}
  {"name":"zlib","needs":[],"op":"publish","version":"1.0.0"}
  end 2

