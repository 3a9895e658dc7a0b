`registry show`, `list` and `search`. log has versions in another order than that of precedence; 2.1.0 is yanked, and
3.0.0-rc.1 is a pre-release. `hold` makes the journal anew, of the commands that it is given.

  $ hold() { rm -f registry.journal; registry --quiet shell > /dev/null; }

A package.

  $ hold << end
  > publish log 1.10.0 zlib@^1
  > publish log 1.9.0
  > publish log 3.0.0-rc.1
  > publish log 2.1.0 zlib@^2
  > yank log 2.1.0
  > publish log 2.0.0+b "zlib@>=1, <3" json-2
  > publish app 1.0.0 log@^1
  > publish app 2.0.0 log@^2 zlib
  > publish app 2.1.0 zlib
  > publish json-log 0.1.0-a log
  > publish json-log 0.1.0-b
  > end
  $ cp registry.journal old.journal
  $ registry show log
  log
    3.0.0-rc.1
    2.1.0  yanked
    2.0.0+b
    1.10.0
    1.9.0
  2.0.0+b needs
    zlib >=1, <3
    json-2 *
  needed by
    app 2.0.0, as log ^2
    json-log 0.1.0-a, as log *

One that needs nothing and is needed by nobody.

  $ hold << end
  > publish a 1.0.0-a
  > publish a 1.0.0-b
  > yank a 1.0.0-b
  > end
  $ registry show a
  a
    1.0.0-b  yanked
    1.0.0-a
  1.0.0-a needs nothing
  needed by nothing

A version that is named.

  $ hold << end
  > publish a 1.0.0+x b
  > publish a 2.0.0
  > end
  $ registry show a 1.0.0
  a
    2.0.0
    1.0.0+x
  1.0.0+x needs
    b *
  needed by nothing
  $ registry show a@1.0.0
  a
    2.0.0
    1.0.0+x
  1.0.0+x needs
    b *
  needed by nothing
  $ registry show a@1.0.0 --json
  {"name":"a","versions":[{"version":"2.0.0","yanked":false,"needs":[]},{"version":"1.0.0+x","yanked":false,"needs":[["b","*"]]}],"newest":"2.0.0","needed_by":[]}
  $ registry show a@3.0.0
  registry: a 3.0.0 is not published; there are 2.0.0 and 1.0.0+x
  [1]
  $ registry show a@1
  registry: a 1 is not published; there are 2.0.0 and 1.0.0+x
  [1]

One whose versions are all yanked.

  $ hold << end
  > publish a 1.0.0 b
  > publish a 2.0.0 c
  > yank a 1.0.0
  > yank a 2.0.0
  > end
  $ registry show a
  a
    2.0.0  yanked
    1.0.0  yanked
  2.0.0 needs
    c *
  needed by nothing

As JSON.

  $ hold << end
  > publish a 1.0.0 b
  > publish a 2.0.0
  > yank a 2.0.0
  > publish c 1.0.0 a@^1
  > end
  $ registry show a --json
  {"name":"a","versions":[{"version":"2.0.0","yanked":true,"needs":[]},{"version":"1.0.0","yanked":false,"needs":[["b","*"]]}],"newest":"1.0.0","needed_by":[{"name":"c","version":"1.0.0","requirement":"^1"}]}

One that is not there.

  $ cp old.journal registry.journal
  $ registry show lgo
  registry: no version of lgo is published; did you mean log?
  [1]
  $ registry show json-2
  registry: no version of json-2 is published
  [1]
  $ registry show json_log
  registry: no version of json_log is published; did you mean json-log?
  [1]
  $ registry show Log
  registry: no version of Log is published; did you mean log?
  [1]

A list of all.

  $ registry list
  app       2.1.0    3 versions
  json-log  0.1.0-b  2 versions
  log       2.0.0+b  5 versions, 1 yanked
  $ registry list --json
  [{"name":"app","newest":"2.1.0","versions":3,"yanked":0},{"name":"json-log","newest":"0.1.0-b","versions":2,"yanked":0},{"name":"log","newest":"2.0.0+b","versions":5,"yanked":1}]

A list of none.

  $ registryd serve --workers 1 --save registry.journal < /dev/null
  $ registry list
  $ registry list --json
  []

Search.

  $ cp old.journal registry.journal
  $ registry search log
  json-log  0.1.0-b  2 versions
  log       2.0.0+b  5 versions, 1 yanked
  $ registry search log --json
  [{"name":"json-log","newest":"0.1.0-b","versions":2,"yanked":0},{"name":"log","newest":"2.0.0+b","versions":5,"yanked":1}]
  $ registry search LOG
  json-log  0.1.0-b  2 versions
  log       2.0.0+b  5 versions, 1 yanked
  $ registry search n-l
  json-log  0.1.0-b  2 versions
  $ registry search p
  app  2.1.0  3 versions
  $ registry search lgo
  registry: no package's name has lgo in it; did you mean log?
  [1]
  $ registry search zebra
  registry: no package's name has zebra in it
  [1]
  $ registry search zebra --json
  []
  registry: no package's name has zebra in it
  [1]

A journal that the program did not write.

  $ hold << end
  > publish a 1.0.0 b
  > publish b 1.0.0
  > end
  $ cp registry.journal whole.journal
  $ for change in 's/"name":"b"/"name":"\\u0062"/' 's/"name":"b"/"name": "b"/' 's/"name":"b"/"name":"b\n"/' 's/"name":"b"/"name":""/'
  > do sed "$change" whole.journal > registry.journal
  >   for words in list "show b" "show a" "resolve a"; do registry $words; echo $?; done
  > done 2>&1 | sort | uniq -c
       16 3
       16 registry: registry.journal: line 3 is at fault: `registry journal verify registry.journal` says why, and `registry journal repair registry.journal` keeps what is before it

Wrong words.

  $ registryd serve --workers 1 --save registry.journal < /dev/null
  $ registry show
  registry: the following arguments are required: NAME: see `registry show --help`
  [2]
  $ registry show a 1.0.0 b
  registry: unrecognized arguments: b: see `registry show --help`
  [2]
  $ registry search
  registry: the following arguments are required: TEXT: see `registry search --help`
  [2]
  $ registry search a b
  registry: unrecognized arguments: b: see `registry search --help`
  [2]
  $ registry list a
  registry: unrecognized arguments: a: see `registry list --help`
  [2]
  $ registry list --all
  registry: unrecognized arguments: --all: see `registry list --help`
  [2]

