The mistakes that people make most with `registry`: each says what is wrong, where, and what was probably meant; and what
is meant, works. Worked by hand from the pages and from the ways in which other tools write the same. `begin` makes the
journal anew, and the files of needs and of locks.

  $ registry --quiet shell > /dev/null << end
  > publish log 1.0.0
  > publish log 1.2.0
  > publish zlib 1.0.0
  > publish app 1.0.0 log@^1 zlib
  > end
  $ cp registry.journal first.journal
  $ printf 'zlib\nlog>=1\n' > sign.needs
  $ printf '# two bounds\nlog\t>=1 <2 # not yet 2\n' > comma.needs
  $ printf '  Log ^1\n' > capital.needs
  $ printf 'log >=1\nzlib\nlog <2\n' > twice.needs
  $ printf '\357\273\277[["log","1.0.0"]]' > mark.lock
  $ printf '[\n  ["log", "1.0.0"],\n]\n' > last.lock
  $ printf '[\n  ["log", "1.0"]\n]\n' > short.lock
  $ printf '{"log": "1.0.0"}' > object.lock
  $ printf 'log 1.0.0\n' > text.lock
  $ printf '[\n["log", "1.0.0"],\n["log", "1.2.0"]]' > again.lock
  $ printf '{"op":"list",}\n' > some.lines
  $ for name in sign comma capital twice; do echo '[]' > $name.lock; done
  $ begin() {
  >   cp first.journal registry.journal
  >   echo '[["app","1.0.0"],["log","1.0.0"],["zlib","1.0.0"]]' > registry.lock
  >   echo app > registry.needs
  > }
  $ begin

A requirement as other tools join it to a name.

  $ registry resolve log==1.0.0
  registry: "log==1.0.0" has no @ between the package and the requirement; did you mean "log@=1.0.0"?
  [2]
  $ registry resolve log@=1.0.0
  log 1.0.0
  $ registry resolve 'log>=1'
  registry: "log>=1" has no @ between the package and the requirement; did you mean "log@>=1"?
  [2]
  $ registry resolve 'log@>=1'
  log 1.2.0
  $ registry resolve 'log>=1 <2'
  registry: "log>=1 <2" has no @ between the package and the requirement; did you mean "log@>=1, <2"?
  [2]
  $ registry resolve 'log@>=1, <2'
  log 1.2.0
  $ registry resolve log^1
  registry: "log^1" has no @ between the package and the requirement; did you mean "log@^1"?
  [2]
  $ registry resolve log@^1
  log 1.2.0
  $ registry resolve log:1.0.0
  registry: "log:1.0.0" has no @ between the package and the requirement; did you mean "log@1.0.0"?
  [2]
  $ registry resolve log@1.0.0
  log 1.2.0
  $ registry resolve log-1.0.0
  registry: "log-1.0.0" has no @ between the package and the requirement; did you mean "log@1.0.0"?
  [2]
  $ registry resolve log@1.0.0
  log 1.2.0
  $ registry resolve log~=1.0
  registry: "log~=1.0" has no @ between the package and the requirement; did you mean "log@^1.0"?
  [2]
  $ registry resolve log@^1.0
  log 1.2.0
  $ registry publish web 1.0.0 Log==1
  registry: "Log==1" has no @ between the package and the requirement; did you mean "log@=1"?
  [2]
  $ registry publish web 1.0.0 log@=1
  published web 1.0.0 (revision 5)
  $ begin
  $ registry resolve app,log
  registry: "app,log" has a comma between packages; did you mean app and log, each by itself?
  [2]
  $ registry resolve app log
  app 1.0.0
  log 1.2.0
  zlib 1.0.0
  $ registry resolve log/1.0.0
  registry: "log/1.0.0" has no @ between the package and the requirement; did you mean "log@1.0.0"?
  [2]
  $ registry resolve log@1.0.0
  log 1.2.0
  $ registry resolve 'log(>=1)'
  registry: "log(>=1)" has no @ between the package and the requirement; did you mean "log@>=1"?
  [2]
  $ registry resolve 'log@>=1'
  log 1.2.0

A requirement as a word of its own.

  $ registry resolve log ^1
  registry: "^1" has no package before the requirement; did you mean "log@^1"?
  [2]
  $ registry resolve log@^1
  log 1.2.0
  $ registry resolve log 1.0.0
  registry: "1.0.0" has no package before the requirement; did you mean "log@1.0.0"?
  [2]
  $ registry resolve log@1.0.0
  log 1.2.0
  $ registry resolve log@^1 '<2'
  registry: "<2" has no package before the requirement; did you mean "log@^1, <2"?
  [2]
  $ registry resolve 'log@^1, <2'
  log 1.2.0
  $ registry publish web 1.0.0 log ^1
  registry: "^1" has no package before the requirement; did you mean "log@^1"?
  [2]
  $ registry publish web 1.0.0 log@^1
  published web 1.0.0 (revision 5)
  $ begin
  $ registry resolve @log
  registry: "@log" has no package before the requirement, as in app@^1
  [2]
  $ registry resolve registry.lock
  registry: "registry.lock" is no package; did you mean "--lock registry.lock"?
  [2]
  $ registry resolve --lock registry.lock
  app 1.0.0
  log 1.0.0
  zlib 1.0.0

A requirement in other words.

  $ registry resolve 'log@>=1 <2'
  registry: log@>=1 <2: a comma is missing between two comparators of ">=1 <2"; did you mean ">=1, <2"?
  [1]
  $ registry resolve 'log@>=1, <2'
  log 1.2.0
  $ registry resolve zlib log@latest
  registry: log@latest: expected the major number of the requirement "latest", not "l"; did you mean "*"?
  [1]
  $ registry resolve zlib 'log@*'
  log 1.2.0
  zlib 1.0.0
  $ registry resolve log@
  registry: log@: a requirement is empty; did you mean "*"?
  [1]
  $ registry resolve 'log@*'
  log 1.2.0
  $ registry resolve zlib log@1.0.0.0
  registry: log@1.0.0.0: a comparator of the requirement "1.0.0.0" has more than three numbers
  [1]
  $ registry resolve log@^1 log@^1.2
  registry: log appears twice: join its requirements with a comma
  [1]
  $ registry resolve 'log@^1, ^1.2'
  log 1.2.0

Names and versions.

  $ registry resolve Log
  registry: the capital letter "L", byte 1 of the name "Log", is not one of a-z, 0-9, - and _; did you mean "log"?
  [1]
  $ registry resolve log
  log 1.2.0
  $ registry show lgo
  registry: no version of lgo is published; did you mean log?
  [1]
  $ registry show log
  log
    1.2.0
    1.0.0
  1.2.0 needs nothing
  needed by
    app 1.0.0, as log ^1
  $ registry publish log 1.3
  registry: the version "1.3" has no patch number; did you mean "1.3.0"?
  [1]
  $ registry publish log 1.3.0
  published log 1.3.0 (revision 5)
  $ begin
  $ registry publish log v1.3.0
  registry: expected the major number of the version "v1.3.0", not "v"; did you mean "1.3.0"?
  [1]
  $ registry publish log 1.3.0
  published log 1.3.0 (revision 5)
  $ begin
  $ registry publish log 1.x
  registry: expected the minor number of the version "1.x", not "x"
  [1]
  $ registry publish 1.3.0 log
  registry: 1.3.0 is a version, not a package; did you mean log 1.3.0?
  [1]
  $ registry publish log 1.3.0
  published log 1.3.0 (revision 5)
  $ begin
  $ registry publish @npm/log 1.3.0
  registry: the character "@", byte 1 of the name "@npm/log", is not one of a-z, 0-9, - and _; did you mean "npm-log"?
  [1]
  $ registry publish npm-log 1.3.0
  published npm-log 1.3.0 (revision 5)
  $ begin
  $ registry publish log 1.2.0
  registry: log 1.2.0 is published already, and a publication is permanent: choose another version
  [1]
  $ registry publish log
  registry: the following arguments are required: VERSION: see `registry publish --help`
  [2]
  $ registry yank log 1.1.0
  registry: log 1.1.0 is not published; there are 1.2.0 and 1.0.0
  [1]
  $ registry yank log 1.2.0
  yanked log 1.2.0 (revision 5)
  $ begin
  $ registry show log@1.1.0
  registry: log 1.1.0 is not published; there are 1.2.0 and 1.0.0
  [1]
  $ registry show log@1.2.0
  log
    1.2.0
    1.0.0
  1.2.0 needs nothing
  needed by
    app 1.0.0, as log ^1
  $ registry why app --not nosuch 1.0.0
  registry: no version of nosuch is published
  [1]
  $ registry why app --not lgo@1.0.0
  registry: no version of lgo is published; did you mean log?
  [1]
  $ registry why app --not log@1.0.0
  log 1.0.0 can be selected; log 1.2.0 was selected, which is higher
  a selection with it changes nothing else
  $ registry why app --not log 1.1.0
  registry: log 1.1.0 is not published; there are 1.2.0 and 1.0.0
  [1]
  $ registry why app --not log 1.2.0
  log 1.2.0 is what was selected
  $ registry tree app --invert log@1.0.0
  registry: log@1.0.0 is not selected; did you mean log?
  [1]
  $ registry tree app --invert log
  log 1.2.0
  └── app 1.0.0
  $ registry upgrade log@1.2.0 --yes
  registry: registry.lock has no log@1.2.0; did you mean log?
  [1]
  $ registry upgrade log --yes
  ~ log 1.0.0 -> 1.2.0
  0 added, 0 removed, 1 changed
  registry: registry.lock is written
  $ begin

Files of needs and of locks.

  $ registry resolve --lock sign.lock
  registry: sign.needs:2:1: error 1 BadName: "log>=1" has no @ between the package and the requirement; did you mean "log@>=1"?
  [3]
  $ registry resolve --lock comma.lock
  registry: comma.needs:2:9: error 3 BadRequirement: a comma is missing between two comparators of ">=1 <2"; did you mean ">=1, <2"?
  [3]
  $ registry resolve --lock capital.lock
  registry: capital.needs:1:3: error 1 BadName: the capital letter "L", byte 1 of the name "Log", is not one of a-z, 0-9, - and _; did you mean "log"?
  [3]
  $ registry resolve --lock twice.lock
  registry: twice.needs:3:1: error 4 RepeatedDependency: log appears twice: join its requirements with a comma
  [3]
  $ registry resolve log --lock mark.lock
  registry: mark.lock:1:1: error 19 BadLine: there is a byte order mark here, the bytes EF BB BF; leave it out
  [3]
  $ registry resolve log --lock last.lock
  registry: last.lock:2:19: error 19 BadLine: there is a trailing comma; leave it out
  [3]
  $ registry resolve log --lock short.lock
  registry: short.lock:2:15: error 2 BadVersion: the version "1.0" has no patch number; did you mean "1.0.0"?
  [3]
  $ registry resolve log --lock object.lock
  registry: object.lock:1:1: error 19 BadLine: a lock list is an array of pairs of a name and a version, as [["b","1.0.0"]], not an object; did you mean [["log", "1.0.0"]]?
  [3]
  $ registry resolve log --lock text.lock
  registry: text.lock:1:1: error 19 BadLine: a lock list is an array of pairs of a name and a version, as [["b","1.0.0"]]
  [3]
  $ registry diff registry.lock again.lock
  registry: again.lock:3:2: error 4 RepeatedDependency: log appears twice in "lock"
  [3]
  $ registry resolve app --lock none.lock
  registry: none.lock: there is no such lock file: `registry resolve NEED .. --write none.lock` makes one
  [3]
  $ registry resolve app --write none.lock
  app 1.0.0
  log 1.2.0
  zlib 1.0.0
  registry: none.lock is written: 3 added, 0 removed, 0 changed
  registry: none.needs is written: the needs of none.lock
  $ begin

Subcommands and options.

  $ registry install log
  registry: there is no subcommand install; did you mean resolve? See `registry --help`
  [2]
  $ registry resolve log
  log 1.2.0
  $ registry remove log 1.0.0
  registry: there is no subcommand remove; did you mean yank? See `registry --help`
  [2]
  $ registry yank log 1.0.0
  yanked log 1.0.0 (revision 5)
  $ begin
  $ registry update --yes
  registry: there is no subcommand update; did you mean upgrade? See `registry --help`
  [2]
  $ registry upgrade --yes
  ~ log 1.0.0 -> 1.2.0
  0 added, 0 removed, 1 changed
  registry: registry.lock is written
  $ begin
  $ registry reslove log
  registry: there is no subcommand reslove; did you mean resolve? See `registry --help`
  [2]
  $ registry resolve log
  log 1.2.0
  $ registry list --jsn
  registry: unrecognized arguments: --jsn; did you mean --json? See `registry list --help`
  [2]
  $ registry list --json
  [{"name":"app","newest":"1.0.0","versions":1,"yanked":0},{"name":"log","newest":"1.2.0","versions":2,"yanked":0},{"name":"zlib","newest":"1.0.0","versions":1,"yanked":0}]
  $ registry publish web 1.0.0 --needs log@^1
  registry: unrecognized arguments: --needs log@^1; what is needed stands without an option, as app@^1. See `registry publish --help`
  [2]
  $ registry publish web 1.0.0 log@^1
  published web 1.0.0 (revision 5)
  $ begin
  $ registry resolve log --lock registry.lock --frozen
  registry: unrecognized arguments: --frozen; did you mean --locked? See `registry resolve --help`
  [2]
  $ registry why app --not log
  registry: argument --not: expected 2 arguments, NAME and VERSION: see `registry why --help`
  [2]
  $ registry why app --not log 1.0.0
  log 1.0.0 can be selected; log 1.2.0 was selected, which is higher
  a selection with it changes nothing else
  $ registry version
  registry: there is no subcommand version; did you mean --version? See `registry --help`
  [2]
  $ registry resolve log --budget many
  registry: argument --budget: many is no number from 0 to 4294967295: see `registry resolve --help`
  [2]
  $ registry resolve log --budget 100
  log 1.2.0
  $ registry import npm there
  registry: import needs one of crates-io, cargo, debian, not npm: see `registry --help`
  [2]
  $ registry import cargo registry.lock
  registry: registry.lock is no folder; did you mean .?
  [1]
  $ registry list --journal none.journal
  registry: none.journal: there is no such journal: `registry publish` or `registry import` begins one, and --journal FILE names another
  [3]
  $ registry list --connect localhost
  registry: no service answers at localhost: No such file or directory; did you mean localhost:PORT?
  [3]
  $ registry list --connect none.socket
  registry: no service answers at none.socket: No such file or directory
  [3]

What is taken as it stands.

  $ echo '[]' > taken.lock
  $ printf '# what is needed\nlog\t^1 # for lines\n\n  zlib@^1\napp @ ^1\n' > taken.needs
  $ registry resolve --lock taken.lock
  app 1.0.0
  log 1.2.0
  zlib 1.0.0
  $ for need in log@1 "log ^1" "log @ ^1"; do registry resolve "$need"; done
  log 1.2.0
  log 1.2.0
  log 1.2.0
  $ registry yank log@1.0.0
  yanked log 1.0.0 (revision 5)
  $ registry unyank log@1.0.0
  no longer yanked: log 1.0.0 (revision 6)
  $ registry publish log@4.0.0 zlib@^1
  published log 4.0.0 (revision 7)
