What all subcommands of `registry` have in common: words that are wrong, words that are offered while one is typed, and
streams that take nothing or are closed.

  $ registry --help > help
  $ for words in "" --journal --json "--journal x"; do registry $words 2>&1 | cmp - help; done
  $ registry publsh a 1.0.0
  registry: there is no subcommand publsh; did you mean publish? See `registry --help`
  [2]
  $ registry frobnicate
  registry: there is no subcommand frobnicate: see `registry --help`
  [2]
  $ registry --jurnal x list
  registry: there is no option --jurnal before a subcommand: see `registry --help`
  [2]
  $ registry list --jurnal x
  registry: unrecognized arguments: --jurnal x; did you mean --journal? See `registry list --help`
  [2]
  $ registry list --jurnal=x
  registry: unrecognized arguments: --jurnal=x; did you mean --journal? See `registry list --help`
  [2]
  $ registry list --jou x
  registry: unrecognized arguments: --jou x: see `registry list --help`
  [2]
  $ registry resolve a --budget many
  registry: argument --budget: many is no number from 0 to 4294967295: see `registry resolve --help`
  [2]
  $ for words in tcsh ""; do registry --completion $words; done
  registry: --completion takes one of bash, zsh, fish
  registry: --completion takes one of bash, zsh, fish
  [2]
  $ registry show $'\xff'
  registry: word 2 is not UTF-8
  [2]

The version is what the program says.

  $ printf '#!/bin/sh\n[ "$*" = --version ] && echo registryd 9.9.9 && echo proved\n' > program
  $ chmod +x program
  $ REGISTRY_PROGRAM=./program registry --version
  registryd 9.9.9
  proved
  $ REGISTRY_PROGRAM=/bin/false registry --version
  registry: the program tells no version
  [3]

What is offered of the word that is being typed.

  $ registry --complete show ""
  words
  $ registry --quiet shell > /dev/null << end
  > publish log 1.0.0
  > publish log 1.1.0
  > publish lock 2.0.0
  > publish app 1.0.0
  > end
  $ offered() { registry --complete "$@" | tr '\n' ' '; echo; }
  $ offered pub
  words publish 
  $ offered import ""
  words cargo crates-io debian 
  $ offered import c
  words cargo crates-io 
  $ offered --j
  words --journal --json 
  $ offered --journal ""
  file 
  $ offered --json unya
  words unyank 
  $ offered show lo
  words lock log 
  $ offered show log ""
  words 1.0.0 1.1.0 
  $ offered show log 1.0.0 ""
  words 
  $ offered yank log ""
  words 1.0.0 1.1.0 
  $ offered yank log 1.1
  words 1.1.0 
  $ offered yank zebra ""
  words 
  $ offered publish ""
  words app lock log 
  $ offered publish x ""
  words 
  $ offered publish x 1.0.0 lo
  words lock log 
  $ offered publish x 1.0.0 "log@*" a
  words app 
  $ offered resolve --l
  words --lock --locked 
  $ offered resolve --lock ""
  file 
  $ offered resolve --lock x a
  words app 
  $ offered diff ""
  file 
  $ offered diff a ""
  file 
  $ offered diff a b ""
  words 
  $ offered import cargo ""
  folder 
  $ offered import cargo x --index ""
  folder 
  $ offered import debian ""
  file 
  $ offered tree a --invert a
  words app 
  $ offered why app --not l
  words lock log 
  $ offered why app --not log 1.0
  words 1.0.0 
  $ offered why app --not log 1.0.0 a
  words app 
  $ offered upgrade --need app l
  words lock log 
  $ offered nonsense ""
  words 
  $ offered list --
  words --color --connect --help --journal --json --quiet --verbose 
  $ registry --complete "" | grep -xcE "publish|import|--journal|--help"
  4

A reader that has enough, an output that takes nothing, and streams that are closed.

  $ (echo registry-journal 1; echo '{"name":"app","needs":[],"op":"publish","version":"1.0.0"}';
  >  seq -f '{"name":"package-%g","needs":[],"op":"publish","version":"1.0.0"}' 3000; echo end 3001) > registry.journal
  $ registry list | head -n 1; echo ${PIPESTATUS[0]}
  app           1.0.0  1 version
  141
  $ registry list > /dev/full
  registry: standard output: No space left on device
  [3]
  $ PYTHONUNBUFFERED=1 registry list > /dev/full
  registry: standard output: No space left on device
  [3]
  $ registry --manual > /dev/full
  registry: standard output: No space left on device
  [3]
  $ registry search app >&-
  $ registry search app 2>&-
  app  1.0.0  1 version
  $ registry search app <&-
  app  1.0.0  1 version
  $ registry search app >&- 2>&- <&-

Where Python looks beside no file, through a link, and from another folder.

  $ PYTHONSAFEPATH=1 registry search app
  app  1.0.0  1 version
  $ ln -s $(which registry) link
  $ ./link search app
  app  1.0.0  1 version
  $ (here=$PWD; cd /; $here/link search app --journal $here/registry.journal)
  app  1.0.0  1 version
