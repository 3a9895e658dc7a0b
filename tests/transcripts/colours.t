What is shown in colour, by the numbers of ECMA-48: 1 is bold, 2 faint, 31 red, 32 green and 33 yellow. An escape is
shown as ~ here.

  $ registry --quiet shell > /dev/null << end
  > publish app 1.0.0 log@^1 web
  > publish web 1.0.0 log zlib
  > publish log 1.0.0 zlib@^1
  > publish zlib 1.0.0
  > publish zlib 2.0.0
  > publish zlib 0.9.0
  > yank zlib 0.9.0
  > end
  $ echo '[["app","1.0.0"],["log","1.0.0"],["zlib","1.0.0"]]' > old.lock
  $ echo '[["log","1.0.0"],["web","1.0.0"],["zlib","2.0.0"]]' > new.lock
  $ echo 'app ^1' > old.needs
  $ cat > bad.journal << end
  > registry-journal 2
  > x
  > end
  $ coloured() { registry "$@" --color always 2>&1 | tr '\033' '~'; }
  $ coloured list
  ~[1mapp ~[0m  1.0.0  ~[2m1 version~[0m
  ~[1mlog ~[0m  1.0.0  ~[2m1 version~[0m
  ~[1mweb ~[0m  1.0.0  ~[2m1 version~[0m
  ~[1mzlib~[0m  2.0.0  ~[2m3 versions, 1 yanked~[0m
  $ coloured show zlib
  ~[1mzlib~[0m
    2.0.0
    1.0.0
    0.9.0~[33m  yanked~[0m
  ~[1m2.0.0 needs~[0m nothing
  ~[1mneeded by~[0m
    log 1.0.0, as zlib ^1
    web 1.0.0, as zlib *
  $ coloured resolve log
  ~[1mlog~[0m 1.0.0
  ~[1mzlib~[0m 1.0.0
  $ coloured tree web log
  ~[1mweb~[0m 1.0.0
  ├── ~[1mlog~[0m 1.0.0
  │   └── ~[1mzlib~[0m 1.0.0
  └── ~[1mzlib~[0m 1.0.0
  ~[1mlog~[0m 1.0.0~[2m (*)~[0m
  $ coloured diff old.lock new.lock
  ~[31m- app 1.0.0~[0m
  ~[32m+ web 1.0.0~[0m
  ~[33m~ zlib 1.0.0 -> 2.0.0 (beyond ^1.0.0)~[0m
  1 added, 1 removed, 1 changed
  $ coloured outdated --lock old.lock
  ~[2mpackage~[0m  ~[2mlocked~[0m  ~[2mallowed~[0m  ~[2mnewest~[0m  ~[2mheld back by                                                                           ~[0m
  ~[1mzlib   ~[0m  1.0.0   1.0.0    2.0.0   every version of log depends on zlib ^1; every version of app depends on log ^1; 1 more
  $ coloured journal verify bad.journal
  ~[1mbad.journal:2:~[0m ~[31mat fault:~[0m column 1: a line is a request in JSON, as {"op":"list"}
  before it: format 2, 0 commands and 0 learnt, revision 0; `registry journal repair bad.journal` keeps that
  $ coloured resolve log@^3
  ~[1;31mlog ^3~[0m: ~[1;31mrefused~[0m at revision 7
    Because the request depends on ~[1;31mlog ^3~[0m and ~[1;31mno version of log matches ^3~[0m, resolving failed.
    ~[1;31mNo version of log matches ^3~[0m; there is 1.0.0.
  $ coloured list --json
  [{"name":"app","newest":"1.0.0","versions":1,"yanked":0},{"name":"log","newest":"1.0.0","versions":1,"yanked":0},{"name":"web","newest":"1.0.0","versions":1,"yanked":0},{"name":"zlib","newest":"2.0.0","versions":3,"yanked":1}]

Where there is no terminal, there is colour where it is asked for alone, and never in JSON.

  $ for words in "" "--color auto" "--color always" "--color always --json"; do registry list $words | tr '\033' '~' | grep -c '~'; done
  0
  0
  4
  0
  [1]
  $ registry list --color blue
  registry: argument --color: invalid choice: 'blue' (choose from 'auto', 'always', 'never'): see `registry list --help`
  [2]

Names that are words of sentences.

  $ rm registry.journal
  $ registry publish version 1.0.0 the
  published version 1.0.0 (revision 1)
  registry: so far no version of the is published
  $ coloured resolve version | grep Because
    Because every version of version depends on ~[1;31mthe *~[0m and ~[1;31mno version of the is published~[0m, version is forbidden.
