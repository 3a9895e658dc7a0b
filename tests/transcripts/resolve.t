`registry resolve` and `tree`: selections and refusals worked by hand, and trees as `cargo tree` shows them. `hold` makes the journal anew, of the commands that it is given.

  $ hold() { rm -f registry.journal; registry --quiet shell > /dev/null; }

A selection.

  $ hold << end
  > publish app 1.0.0 web@^1 log@^1
  > publish web 1.2.0 log@^1 json@^1
  > publish json 1.0.0 num@~1.0
  > publish num 1.0.7
  > publish num 1.1.0
  > publish log 1.0.0
  > publish log 2.0.0
  > end
  $ cp registry.journal old.journal
  $ registry resolve app
  app 1.0.0
  json 1.0.0
  log 1.0.0
  num 1.0.7
  web 1.2.0
  $ registry resolve app@^1
  app 1.0.0
  json 1.0.0
  log 1.0.0
  num 1.0.7
  web 1.2.0
  $ registry resolve 'app ^1'
  app 1.0.0
  json 1.0.0
  log 1.0.0
  num 1.0.7
  web 1.2.0
  $ registry resolve 'app@>=1, <2'
  app 1.0.0
  json 1.0.0
  log 1.0.0
  num 1.0.7
  web 1.2.0
  $ registry resolve app --json
  {"revision":7,"selected":[["app","1.0.0"],["json","1.0.0"],["log","1.0.0"],["num","1.0.7"],["web","1.2.0"]]}
  $ registry resolve log num
  log 2.0.0
  num 1.1.0

A refusal is told on standard error.

  $ registry resolve app log@^2
  app *, log ^2: refused at revision 7
    Because the request depends on app * which depends on log ^1, the request requires log ^1.
    And because the request depends on log ^2, resolving failed.
  [1]
  $ registry resolve app log@^2 --json
  {"derivation":[{"causes":[{"fact":"premise","name":"app","need":"^1","target":"log","versions":[0],"within":[0]},{"fact":"need","index":0}],"conclusion":[["",true,[0]],["log",false,[0]]],"pivot":"app"},{"causes":[{"line":1},{"fact":"need","index":1}],"conclusion":[["",true,[0]]],"pivot":"log"}],"explanation":["1. never (the request, not log {1.0.0}), because app {1.0.0} needs log \"^1\" in {1.0.0} and the request needs app \"*\" in {1.0.0}","2. never (the request), because line 1 and the request needs log \"^2\" in {2.0.0}","So no selection meets the request."],"refused":true,"revision":7}
  app *, log ^2: refused at revision 7
    Because the request depends on app * which depends on log ^1, the request requires log ^1.
    And because the request depends on log ^2, resolving failed.
  [1]

A refusal tells what there is.

  $ hold << end
  > publish rand 0.8.1
  > publish rand 0.8.5
  > publish rand 0.8.4
  > publish rand 0.6.0
  > publish rand 0.5.0
  > yank rand 0.6.0
  > publish serde-json 1.0.0
  > end
  $ registry resolve rand@^0.7
  rand ^0.7: refused at revision 7
    Because the request depends on rand ^0.7 and no version of rand matches ^0.7, resolving failed.
    No version of rand matches ^0.7; there are 0.8.5, 0.8.4 and 2 more.
  [1]
  $ registry resolve serde-jsn
  serde-jsn *: refused at revision 7
    Because the request depends on serde-jsn * and no version of serde-jsn is published, resolving failed.
    No version of serde-jsn is published; did you mean serde-json?
  [1]
  $ registry resolve serde_json
  serde_json *: refused at revision 7
    Because the request depends on serde_json * and no version of serde_json is published, resolving failed.
    No version of serde_json is published; did you mean serde-json?
  [1]
  $ registry resolve zebra
  zebra *: refused at revision 7
    Because the request depends on zebra * and no version of zebra is published, resolving failed.
  [1]
  $ hold << end
  > publish a 1.0.0
  > yank a 1.0.0
  > end
  $ registry resolve a@^2
  a ^2: refused at revision 2
    Because the request depends on a ^2 and no version of a matches ^2, resolving failed.
    No version of a matches ^2; there is 1.0.0, yanked.
  [1]

Needs that are none.

  $ cp old.journal registry.journal
  $ registry resolve App
  registry: the capital letter "A", byte 1 of the name "App", is not one of a-z, 0-9, - and _; did you mean "app"?
  [1]
  $ registry resolve app@1.x.x.x
  registry: app@1.x.x.x: a comparator of the requirement "1.x.x.x" has more than three numbers
  [1]
  $ registry resolve app app@^1
  registry: app appears twice: join its requirements with a comma
  [1]
  $ registry resolve $(seq -f n%g 65)
  registry: there are 65 needs; the limit is 64
  [1]

Who needs whom.

  $ registry tree app
  app 1.0.0
  ├── log 1.0.0
  └── web 1.2.0
      ├── json 1.0.0
      │   └── num 1.0.7
      └── log 1.0.0

What comes again is marked: its branches were shown above; a package without any is shown as it is.

  $ registry tree web app@^1
  web 1.2.0
  ├── json 1.0.0
  │   └── num 1.0.7
  └── log 1.0.0
  app 1.0.0
  ├── log 1.0.0
  └── web 1.2.0 (*)

A tree inverted.

  $ registry tree app --invert log
  log 1.0.0
  ├── app 1.0.0
  └── web 1.2.0
      └── app 1.0.0
  $ registry tree app --invert lgo
  registry: lgo is not selected; did you mean log?
  [1]
  $ registry tree app --invert zebra
  registry: zebra is not selected
  [1]

A tree's depth.

  $ registry tree app --depth 0
  app 1.0.0
  $ registry tree app --depth 1
  app 1.0.0
  ├── log 1.0.0
  └── web 1.2.0
  $ registry tree app --depth 9
  app 1.0.0
  ├── log 1.0.0
  └── web 1.2.0
      ├── json 1.0.0
      │   └── num 1.0.7
      └── log 1.0.0

What was cut off is not taken as shown: log's branches are too deep below web, and are shown at app.

  $ hold << end
  > publish app 1.0.0 a b
  > publish a 1.0.0 b
  > publish b 1.0.0 c
  > publish c 1.0.0
  > end
  $ registry tree app --depth 2
  app 1.0.0
  ├── a 1.0.0
  │   └── b 1.0.0
  └── b 1.0.0
      └── c 1.0.0

Packages that need each other.

  $ hold << end
  > publish a 1.0.0 b
  > publish b 1.0.0 a c
  > publish c 1.0.0
  > end
  $ registry tree a
  a 1.0.0
  └── b 1.0.0
      ├── a 1.0.0 (*)
      └── c 1.0.0

A tree as JSON.

  $ cp old.journal registry.journal
  $ registry tree web --json
  {"revision":7,"roots":["web"],"packages":[{"name":"json","version":"1.0.0","needs":[["num","~1.0"]]},{"name":"log","version":"1.0.0","needs":[]},{"name":"num","version":"1.0.7","needs":[]},{"name":"web","version":"1.2.0","needs":[["log","^1"],["json","^1"]]}]}

A lock and a refusal.

  $ registry publish log 1.1.0
  published log 1.1.0 (revision 8)
  $ echo '[["log","1.0.0"]]' > x.lock
  $ registry tree app --lock x.lock
  app 1.0.0
  ├── log 1.0.0
  └── web 1.2.0
      ├── json 1.0.0
      │   └── num 1.0.7
      └── log 1.0.0
  $ registry tree app
  app 1.0.0
  ├── log 1.1.0
  └── web 1.2.0
      ├── json 1.0.0
      │   └── num 1.0.7
      └── log 1.1.0
  $ echo 'log ^1' > x.needs
  $ registry tree --lock x.lock
  log 1.0.0
  $ registry tree log@^3
  log ^3: refused at revision 8
    Because the request depends on log ^3 and no version of log matches ^3, resolving failed.
    No version of log matches ^3; there are 2.0.0, 1.1.0 and 1.0.0.
  [1]

Wrong words.

  $ rm -f *.lock *.needs
  $ cp old.journal registry.journal
  $ registry tree
  registry: name what is needed, as app@^1, or write it into registry.needs, a name and a requirement a line
  [2]
  $ registry tree app --depth
  registry: argument --depth: expected one argument: see `registry tree --help`
  [2]
  $ registry tree app --depth -1
  registry: argument --depth: -1 is no number from 0 to 4294967295: see `registry tree --help`
  [2]
  $ registry tree app --invert
  registry: argument --invert: expected one argument: see `registry tree --help`
  [2]
  $ registry tree app --lock
  registry: argument --lock: expected one argument: see `registry tree --help`
  [2]
  $ registry tree app --write x
  registry: unrecognized arguments: --write x: see `registry tree --help`
  [2]


Five pigeons in four holes: a pigeon's version names a hole, of which one version lets one pigeon in.

  $ rm registry.journal
  $ for hole in 0 1 2 3; do
  >   for pigeon in 0 1 2 3 4; do
  >     echo publish hole-$hole $pigeon.0.0
  >     echo publish pigeon-$pigeon $hole.0.0 hole-$hole@=$pigeon.0.0
  >   done
  > done | hold
  $ registry resolve pigeon-{0..4} --budget 3
  registry: no answer was found within the budget (--budget), or within the time of the service (its --seconds)
  [1]
  $ registry resolve pigeon-{0..4} --budget 3 --json 2> /dev/null
  {"error":22,"message":"no answer was found within the budget (--budget), or within the time of the service (its --seconds)","name":"BudgetSpent","revision":40}
  [1]
  $ registry resolve pigeon-{0..4} --budget 100000 2>&1 | grep -o "resolving failed"
  resolving failed

A long chain.

  $ (echo registry-journal 2
  >  seq 0 2998 | awk '{ printf("{\"name\":\"p%d\",\"needs\":[[\"p%d\",\"*\"]],\"op\":\"publish\",\"version\":\"1.0.0\"}\n", $1, $1 + 1) }'
  >  echo '{"name":"p2999","needs":[],"op":"publish","version":"1.0.0"}'; echo end 3000) > registry.journal
  $ registry tree p0 > tree
  $ wc -l < tree
  3000
  $ tail -n 1 tree | sed 's/^ *//'
  └── p2999 1.0.0

Letters that standard output has.

  $ hold << end
  > publish a 1.0.0 b c
  > publish b 1.0.0 d
  > publish c 1.0.0
  > publish d 1.0.0
  > end
  $ for encoding in ascii latin-1; do PYTHONIOENCODING=$encoding registry tree a; done
  a 1.0.0
  |-- b 1.0.0
  |   `-- d 1.0.0
  `-- c 1.0.0
  a 1.0.0
  |-- b 1.0.0
  |   `-- d 1.0.0
  `-- c 1.0.0
  $ registry tree a >&-
