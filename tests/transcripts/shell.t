`registry shell` over lines from a pipe: one session for all, and what each subcommand prints is what it prints alone.

  $ registry shell << 'end'
  > publish log 1.0.0
  > 
  > # a remark
  > publish app 1.0.0 "log@>=1, <2" # another
  >   list  
  > resolve app --json
  > end
  published log 1.0.0 (revision 1)
  published app 1.0.0 (revision 2)
  app  1.0.0  1 version
  log  1.0.0  1 version
  {"revision":2,"selected":[["app","1.0.0"],["log","1.0.0"]]}
  $ tail -n 1 registry.journal
  end 2

What is printed before a refusal comes first.

  $ rm registry.journal
  $ printf 'publish a 1.0.0\nyank a 2.0.0\nlist\n' | registry shell
  published a 1.0.0 (revision 1)
  registry: a 2.0.0 is not published; there is 1.0.0
  a  1.0.0  1 version

The status is that of the last command.

  $ rm registry.journal
  $ printf 'publish log 1.0.0\nyank log 1.0.0\n' | registry shell
  published log 1.0.0 (revision 1)
  yanked log 1.0.0 (revision 2)
  $ while IFS= read -r lines; do
  >   printf "$lines" | registry shell > /dev/null 2>&1
  >   echo "$?: $lines"
  > done << 'end'
  > 
  > # nothing\n\n
  > list\n
  > yank log 1.0.0\n
  > yank log 1.0.0\nlist\n
  > lits\n
  > show 'log\n
  > check none.lines\n
  > yank log 1.0.0\nexit\nlist\n
  > lits\nquit\n
  > shell\n
  > help yank\n
  > resolve log\n
  > list --depth\n
  > end
  0: 
  0: # nothing\n\n
  0: list\n
  1: yank log 1.0.0\n
  0: yank log 1.0.0\nlist\n
  2: lits\n
  2: show 'log\n
  3: check none.lines\n
  1: yank log 1.0.0\nexit\nlist\n
  2: lits\nquit\n
  2: shell\n
  0: help yank\n
  1: resolve log\n
  2: list --depth\n

The options of a shell are those of its lines, and help in it is help.

  $ registry shell -q --color always << end | tr '\033' '~'
  > list --color never
  > list
  > publish x 1.0.0 y
  > publish z 1.0.0 y --json
  > end
  log  1.0.0  1 version, 1 yanked
  ~[1mlog~[0m  1.0.0  ~[2m1 version, 1 yanked~[0m
  published x 1.0.0 (revision 3)
  {"ok":true,"revision":4}
  $ registry list
  log  1.0.0  1 version, 1 yanked
  x    1.0.0  1 version
  z    1.0.0  1 version
  $ echo help yank | registry shell | cmp - <(registry yank --help)

Many commands ask one session: a program in the place of registryd counts how often it is begun.

  $ printf '#!/bin/sh\necho >> begun\nexec registryd "$@"\n' > counts
  $ chmod +x counts
  $ (seq -f 'publish p%g 1.0.0' 20; printf '%s\n' list 'show p1' 'resolve p2' 'search p' 'tree p3' 'why p4') | REGISTRY_PROGRAM=./counts registry shell > /dev/null
  $ wc -l < begun
  1

What each prints in a shell is what it prints alone.

  $ rm registry.journal
  $ registry --quiet shell > /dev/null << end
  > publish log 1.0.0
  > publish log 1.1.0
  > publish app 1.0.0 log@^1
  > end
  $ echo '[["app","1.0.0"],["log","1.0.0"]]' > app.lock
  $ cat > lines << end
  > list
  > show log
  > search lo
  > resolve app
  > resolve app log@^2
  > tree app
  > why app log@^2
  > outdated app --lock app.lock
  > upgrade --need app --lock app.lock
  > diff app.lock app.lock
  > resolve nobody
  > publish app 1.0.0
  > yank log 3.0.0
  > end
  $ while read -r words; do registry $words < /dev/null >> alone 2>> told.alone; done < lines
  [1]
  $ registry shell < lines > together 2> told.together
  [1]
  $ cmp alone together
  $ cmp told.alone told.together
  $ test -s told.alone
