`registry journal renew`: worked registries. `begin` makes the journal anew.

  $ registry --quiet shell > /dev/null << end
  > publish log 1.0.0
  > publish log 1.1.0
  > publish log 1.2.0
  > publish log 2.0.0
  > publish log 2.1.0
  > publish app 1.0.0 log@^1
  > publish app 1.1.0 log@^1
  > publish app 1.2.0 log@^1
  > end
  $ mv registry.journal first.journal
  $ begin() { rm -f new.journal *.lock *.needs; cp first.journal registry.journal; }
  $ renew() { registry journal renew registry.journal new.journal "$@"; }

The newest, and what they need: of log 1.1.0 is what app takes, and 1.0.0 what web does.

  $ begin
  $ registry --quiet shell > /dev/null << end
  > publish web 1.0.0 log@=1.0.0
  > yank log 1.2.0
  > publish old 1.0.0
  > yank old 1.0.0
  > end
  $ renew --newest 1
  new.journal is written: 5 commands in place of 12
  left out: 5 of 10 versions:
    app: 1.0.0, 1.1.0
    log: 1.2.0, 2.0.0
    old: 1.0.0: none is kept
  $ cat new.journal
  registry-journal 2
  {"name":"log","needs":[],"op":"publish","version":"1.0.0"}
  {"name":"log","needs":[],"op":"publish","version":"1.1.0"}
  {"name":"log","needs":[],"op":"publish","version":"2.1.0"}
  {"name":"app","needs":[["log","^1"]],"op":"publish","version":"1.2.0"}
  {"name":"web","needs":[["log","=1.0.0"]],"op":"publish","version":"1.0.0"}
  end 5

A lock file with a yanked version.

  $ begin
  $ registry --quiet shell > /dev/null << end
  > yank log 1.1.0
  > yank log 2.0.0
  > unyank log 2.0.0
  > end
  $ printf '[["app", "1.0.0"],\n["log", "1.1.0"]]' > app.lock
  $ renew --newest 0 --lock app.lock
  new.journal is written: 3 commands in place of 11
  app.lock: selected as it is, 2 packages
  left out: 6 of 8 versions:
    app: 1.1.0, 1.2.0
    log: 1.0.0 to 2.1.0, 4 of 5 versions
  $ cat new.journal
  registry-journal 2
  {"name":"log","needs":[],"op":"publish","version":"1.1.0"}
  {"name":"log","op":"yank","version":"1.1.0"}
  {"name":"app","needs":[["log","^1"]],"op":"publish","version":"1.0.0"}
  end 3

One that is old: it names what is not published, and not all that is needed. What is selected with it is kept too.

  $ begin
  $ echo '[["app","1.0.0"],["zed","1.0.0"]]' > app.lock
  $ renew --newest 0 --lock app.lock
  registry: app.lock names a version of zed that is not published
  new.journal is written: 2 commands in place of 8
  app.lock: selected as before, which is not what it names
  left out: 6 of 8 versions:
    app: 1.1.0, 1.2.0
    log: 1.0.0 to 2.1.0, 4 of 5 versions
  $ cat new.journal
  registry-journal 2
  {"name":"log","needs":[],"op":"publish","version":"1.2.0"}
  {"name":"app","needs":[["log","^1"]],"op":"publish","version":"1.0.0"}
  end 2

The needs that a lock file was made for.

  $ begin
  $ printf 'app ^1\nlog <2\n' > app.needs
  $ echo '[["app","1.1.0"],["log","1.1.0"]]' > app.lock
  $ renew --newest 1 --lock app.lock
  new.journal is written: 5 commands in place of 8
  app.lock: selected as it is, 2 packages
  left out: 3 of 8 versions:
    app: 1.0.0
    log: 1.0.0, 2.0.0
  $ registry resolve --lock app.lock --journal new.journal
  app 1.1.0
  log 1.1.0

Needs that are newer than the lock file.

  $ begin
  $ registry --quiet shell > /dev/null << end
  > publish zlib 1.0.0
  > publish zlib 1.1.0
  > end
  $ printf 'app ^1\nzlib\n' > app.needs
  $ echo '[["app","1.1.0"],["log","1.1.0"]]' > app.lock
  $ renew --newest 0 --lock app.lock
  new.journal is written: 3 commands in place of 10
  app.lock: selected as before, which is not what it names
  left out: 7 of 10 versions:
    app: 1.0.0, 1.2.0
    log: 1.0.0 to 2.1.0, 4 of 5 versions
    zlib: 1.0.0
  $ cat new.journal
  registry-journal 2
  {"name":"log","needs":[],"op":"publish","version":"1.1.0"}
  {"name":"app","needs":[["log","^1"]],"op":"publish","version":"1.1.0"}
  {"name":"zlib","needs":[],"op":"publish","version":"1.1.0"}
  end 3

A lock file of more packages than a request has needs, some in a circle that nothing else needs.

  $ rm registry.journal new.journal app.needs
  $ (seq -f "publish p%g 1.0.0" 70; echo publish ring-a 1.0.0 ring-b; echo publish ring-b 1.0.0 ring-a;
  >  echo publish ring-b 1.1.0 ring-a; seq -f "publish p%g 2.0.0" 70) | registry --quiet shell > /dev/null
  $ (echo '['; seq -f '["p%g","1.0.0"],' 70; echo '["ring-a","1.0.0"],["ring-b","1.0.0"]]') > app.lock
  $ renew --newest 0 --lock app.lock | head -n 5
  new.journal is written: 72 commands in place of 143
  app.lock: selected as it is, 72 packages
  left out: 71 of 143 versions:
    p1: 2.0.0
    p10: 2.0.0
  $ cmp <(head -n 73 registry.journal) <(head -n 73 new.journal)

What was learnt is left out.

  $ begin
  $ sed -i 's/end 8/{"derivation":[{"causes":[{"fact":"premise","name":"app","need":"^1","target":"log","versions":[0],"within":[0,1,2]},{"fact":"premise","name":"app","need":"^1","target":"log","versions":[0],"within":[0,1,2]}],"conclusion":[["log",false,[0,1,2]],["app",true,[0]]],"pivot":"app"}],"op":"learn"}\nend 9/' registry.journal
  $ renew --newest 9
  new.journal is written: 8 commands in place of 8
  left out: 0 of 8 versions, and 1 learnt
  $ cmp new.journal first.journal

As JSON.

  $ begin
  $ echo '[["app","1.2.0"],["log","1.2.0"]]' > app.lock
  $ renew --json --lock app.lock
  {"written":"new.journal","revision":6,"locks":{"app.lock":true},"left_out":{"log":["1.0.0","1.1.0"]},"learnt_left_out":0}

What is refused.

  $ begin
  $ echo mine > new.journal
  $ renew
  registry: new.journal is there already, and nothing is written over it: name another file
  [3]
  $ cat new.journal
  mine
  $ rm new.journal
  $ renew --lock none.lock
  registry: none.lock: there is no such lock file: `registry resolve NEED .. --write none.lock` makes one
  [3]
  $ renew --newest 4097
  registry: argument --newest: 4097 is no number from 0 to 4096: see `registry journal renew --help`
  [2]
  $ sed -i '2s/log/LOG/' registry.journal
  $ renew
  registry: registry.journal: line 2 is at fault: `registry journal repair registry.journal` keeps what is before it
  [1]
  $ ls
  first.journal
  registry.journal

A journal in use.

  $ begin
  $ sed -i '/^end/d' registry.journal
  $ renew --newest 5
  registry: registry.journal has no end line: what a session adds from now on is not copied
  new.journal is written: 8 commands in place of 8
  left out: 0 of 8 versions
  $ cmp new.journal first.journal
