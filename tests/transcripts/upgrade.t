What of a lock file is not the newest, and a lock file that is made newer. log 2 is what no app takes, and zlib 2 is
what the older app alone fits. `hold` makes the journal anew, of the commands that it is given; `begin` makes it and the
lock file as they are here.

  $ cat > kept.lock << end
  > [
  >   ["app", "1.1.0"],
  >   ["log", "1.2.0"],
  >   ["zlib", "1.0.0"]
  > ]
  > end
  $ echo 'app ^1' > registry.needs
  $ hold() { rm -f registry.journal; registry --quiet shell > /dev/null; }
  $ hold << end
  > publish app 1.0.0 log@^1
  > publish app 1.1.0 log@^1.2 zlib
  > publish log 1.2.0
  > publish zlib 1.0.0
  > publish log 1.3.0
  > publish log 2.0.0
  > publish zlib 1.1.0
  > publish zlib 2.0.0 app@=1.0.0
  > end
  $ cp registry.journal old.journal
  $ begin() { cp kept.lock registry.lock; cp old.journal registry.journal; }

Nothing is.

  $ cp kept.lock registry.lock
  $ hold << end
  > publish app 1.0.0 log@^1
  > publish app 1.1.0 log@^1.2 zlib
  > publish log 1.2.0
  > publish zlib 1.0.0
  > end
  $ registry outdated
  registry: everything in registry.lock is the newest version
  $ registry outdated --json
  []
  registry: everything in registry.lock is the newest version

Newer ones and what holds them back.

  $ begin
  $ registry outdated
  package  locked  allowed  newest  held back by
  log      1.2.0   1.3.0    2.0.0   app 1.0.0 depends on log ^1; app 1.1.0 depends on log ^1.2; 1 more
  zlib     1.0.0   1.1.0    2.0.0   with it app 1.1.0 -> 1.0.0 (older)
  $ registry outdated --json
  [{"name":"log","locked":"1.2.0","state":"","allowed":"1.3.0","newest":"2.0.0","held_back_by":"app 1.0.0 depends on log ^1; app 1.1.0 depends on log ^1.2; 1 more"},{"name":"zlib","locked":"1.0.0","state":"","allowed":"1.1.0","newest":"2.0.0","held_back_by":"with it app 1.1.0 -> 1.0.0 (older)"}]

Its own needs may hold it back: log 2 needs a zlib that app doesn't take.

  $ cp kept.lock registry.lock
  $ hold << end
  > publish app 1.1.0 log zlib@^1
  > publish log 1.2.0
  > publish log 2.0.0 zlib@^2
  > publish zlib 1.0.0
  > publish zlib 2.0.0
  > end
  $ registry outdated
  package  locked  allowed  newest  held back by
  log      1.2.0   1.2.0    2.0.0   log 2.0.0 depends on zlib ^2; every version of app depends on zlib ^1; 1 more
  zlib     1.0.0   1.0.0    2.0.0   every version of app depends on zlib ^1; the request depends on app ^1

What is told first of several reasons: one app takes no log 2, the other no zlib that log 2 takes.

  $ cp kept.lock registry.lock
  $ hold << end
  > publish app 1.0.0 log@^1
  > publish app 1.1.0 log zlib@^1
  > publish log 1.2.0
  > publish log 2.0.0 zlib@^2
  > publish zlib 1.0.0
  > publish zlib 2.0.0
  > end
  $ registry outdated
  package  locked  allowed  newest  held back by
  log      1.2.0   1.2.0    2.0.0   app 1.0.0 depends on log ^1; log 2.0.0 depends on zlib ^2; 2 more
  zlib     1.0.0   1.0.0    2.0.0   with it app 1.1.0 -> 1.0.0 (older)

A version of equal precedence is the same.

  $ cp kept.lock registry.lock
  $ hold << end
  > publish app 1.1.0 log
  > publish log 1.2.0+b
  > end
  $ echo '[["app","1.1.0+a"],["log","1.2.0"]]' > registry.lock
  $ registry outdated
  registry: everything in registry.lock is the newest version

Yanked and unpublished entries are told.

  $ cp kept.lock registry.lock
  $ hold << end
  > publish app 1.0.0 log@^1
  > publish app 1.1.0 log@^1.2 zlib
  > publish log 1.2.0
  > publish zlib 1.0.0
  > publish log 1.3.0
  > publish log 2.0.0
  > yank log 1.2.0
  > yank log 2.0.0
  > end
  $ sed -i 's/zlib/gone/' registry.lock
  $ registry outdated
  package  locked                 allowed  newest  held back by
  gone     1.0.0 (not published)  -        -
  log      1.2.0 (yanked)         1.3.0    1.3.0

A pre-release counts for a locked pre-release alone.

  $ cp kept.lock registry.lock
  $ hold << end
  > publish app 1.1.0 log@^1
  > publish log 1.2.0
  > publish log 1.3.0-rc.1
  > publish log 1.3.0-rc.2
  > end
  $ echo '[["app","1.1.0"],["log","1.2.0"]]' > registry.lock
  $ registry outdated
  registry: everything in registry.lock is the newest version
  $ echo '[["app","1.1.0"],["log","1.3.0-rc.1"]]' > registry.lock
  $ registry outdated
  package  locked      allowed  newest      held back by
  log      1.3.0-rc.1  1.2.0    1.3.0-rc.2  every version of app depends on log ^1; the request depends on app ^1

What is not found out within the budget is told so: log 2 goes with neither version of what both versions of app need,
which takes two conflicts to be found out.

  $ cp kept.lock registry.lock
  $ hold << end
  > publish app 1.0.0 mid
  > publish app 1.1.0 mid
  > publish mid 1.0.0 log@^1
  > publish mid 1.1.0 log@^1.2
  > publish log 1.2.0
  > publish log 1.3.0
  > publish log 2.0.0
  > publish zlib 1.0.0
  > end
  $ registry outdated --budget 1
  package  locked  allowed  newest  held back by
  log      1.2.0   1.3.0    2.0.0   not known: app ^1: no answer was found within the budget (--budget), or within the time of the service (its --seconds)
  zlib     1.0.0   -        1.0.0

Where nothing can be selected.

  $ begin
  $ registry yank app 1.0.0
  yanked app 1.0.0 (revision 9)
  $ registry yank app 1.1.0
  yanked app 1.1.0 (revision 10)
  $ registry outdated
  app ^1: refused at revision 10
    Because the request depends on app ^1 and every version of app is yanked, resolving failed.
  [1]

A lock file that is named, with needs that hold a package back, and files that are not there.

  $ begin
  $ mv registry.lock other.lock
  $ registry outdated app@^1 log@~1.3 --lock other.lock
  package  locked  allowed  newest  held back by
  log      1.2.0   1.3.0    2.0.0   the request depends on log ~1.3
  zlib     1.0.0   1.1.0    2.0.0   with it app 1.1.0 -> 1.0.0 (older)
  $ for word in outdated upgrade; do registry $word; done
  registry: registry.lock: there is no such lock file: `registry resolve NEED .. --write registry.lock` makes one
  registry: registry.lock: there is no such lock file: `registry resolve NEED .. --write registry.lock` makes one
  [3]
  $ registry outdated --lock x.lock
  registry: x.lock: there is no such lock file: `registry resolve NEED .. --write x.lock` makes one
  [3]
  $ echo '[]' > x.lock
  $ registry outdated --lock x.lock
  registry: name what is needed, as app@^1, or write it into x.needs, a name and a requirement a line
  [2]
  $ registry outdated --budget x
  registry: argument --budget: x is no number from 0 to 4294967295: see `registry outdated --help`
  [2]
  $ registry outdated --lock
  registry: argument --lock: expected one argument: see `registry outdated --help`
  [2]
  $ registry outdated --yes
  registry: unrecognized arguments: --yes: see `registry outdated --help`
  [2]

One package.

  $ begin
  $ registry upgrade log --yes
  ~ log 1.2.0 -> 1.3.0
  0 added, 0 removed, 1 changed
  registry: registry.lock is written
  $ cat registry.lock
  [
    ["app", "1.1.0"],
    ["log", "1.3.0"],
    ["zlib", "1.0.0"]
  ]
  $ registry upgrade log --yes
  0 added, 0 removed, 0 changed
  registry: nothing changes in registry.lock

All.

  $ begin
  $ registry upgrade --yes
  ~ log 1.2.0 -> 1.3.0
  ~ zlib 1.0.0 -> 1.1.0
  0 added, 0 removed, 2 changed
  registry: registry.lock is written
  $ cat registry.lock
  [
    ["app", "1.1.0"],
    ["log", "1.3.0"],
    ["zlib", "1.1.0"]
  ]

Several and other needs.

  $ begin
  $ registry upgrade zlib log --need app@^1 'log@~1.2' --yes
  ~ zlib 1.0.0 -> 1.1.0
  0 added, 0 removed, 1 changed
  registry: registry.lock is written
  $ registry upgrade app --need app@=1.0.0 zlib@2 --yes
  ~ app 1.1.0 -> 1.0.0 (older)
  ~ zlib 1.1.0 -> 2.0.0 (beyond ^1.1.0)
  0 added, 0 removed, 2 changed
  registry: registry.lock is written

Nothing is written where nobody can be asked.

  $ begin
  $ registry upgrade log
  ~ log 1.2.0 -> 1.3.0
  0 added, 0 removed, 1 changed
  registry: registry.lock is unchanged: --yes writes it without a question
  [1]
  $ registry upgrade log --json
  [{"name":"log","from":"1.2.0","to":"1.3.0"}]
  registry: registry.lock is unchanged: --yes writes it without a question
  [1]
  $ cat registry.lock
  [
    ["app", "1.1.0"],
    ["log", "1.2.0"],
    ["zlib", "1.0.0"]
  ]

What came and went and a yanked entry that stays.

  $ begin
  $ registry publish app 1.2.0 log@^1 json
  published app 1.2.0 (revision 9)
  registry: so far no version of json is published
  $ registry publish json 1.0.0
  published json 1.0.0 (revision 10)
  $ registry yank log 1.2.0
  yanked log 1.2.0 (revision 11)
  $ registry upgrade app --yes
  ~ app 1.1.0 -> 1.2.0
  + json 1.0.0
  - zlib 1.0.0
  1 added, 1 removed, 1 changed
  registry: registry.lock names log 1.2.0, which is yanked
  registry: registry.lock is written

Where nothing can be selected the lock is as it was.

  $ begin
  $ registry upgrade --need app@^3 --yes
  app ^3: refused at revision 8
    Because the request depends on app ^3 and no version of app matches ^3, resolving failed.
    No version of app matches ^3; there are 1.1.0 and 1.0.0.
  [1]
  $ cat registry.lock
  [
    ["app", "1.1.0"],
    ["log", "1.2.0"],
    ["zlib", "1.0.0"]
  ]

Words.

  $ begin
  $ registry upgrade lgo
  registry: registry.lock has no lgo; did you mean log?
  [1]
  $ registry upgrade zebra
  registry: registry.lock has no zebra
  [1]
  $ registry upgrade --no
  registry: unrecognized arguments: --no: see `registry upgrade --help`
  [2]
  $ registry upgrade --budget x
  registry: argument --budget: x is no number from 0 to 4294967295: see `registry upgrade --help`
  [2]
  $ registry upgrade --need
  registry: argument --need: expected at least one argument: see `registry upgrade --help`
  [2]
  $ registry upgrade --lock
  registry: argument --lock: expected one argument: see `registry upgrade --help`
  [2]

