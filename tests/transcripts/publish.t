`registry publish`, `yank` and `unyank`: what stands in the journal then, and each refusal in English. `hold` makes the
journal anew, of the commands that it is given.

  $ hold() { rm -f registry.journal; registry --quiet shell > /dev/null; }

What is accepted stands in the journal.

  $ registry publish log 1.3.0
  published log 1.3.0 (revision 1)
  $ registry publish app 1.0.0 log@^1.2 log-2
  published app 1.0.0 (revision 2)
  registry: so far no version of log-2 is published
  $ registry yank log 1.3.0+x
  yanked log 1.3.0+x (revision 3)
  $ registry unyank log 1.3.0
  no longer yanked: log 1.3.0 (revision 4)
  $ registry publish zlib 2.0.0 'log >=1, <2' 'app@*'
  published zlib 2.0.0 (revision 5)
  $ cat registry.journal
  registry-journal 2
  {"name":"log","needs":[],"op":"publish","version":"1.3.0"}
  {"name":"app","needs":[["log","^1.2"],["log-2","*"]],"op":"publish","version":"1.0.0"}
  {"name":"log","op":"yank","version":"1.3.0+x"}
  {"name":"log","op":"unyank","version":"1.3.0"}
  {"name":"zlib","needs":[["log",">=1, <2"],["app","*"]],"op":"publish","version":"2.0.0"}
  end 5

A need that nobody has published is noted with the nearest name.

  $ registry publish serde-json 1.0.0
  published serde-json 1.0.0 (revision 6)
  $ registry publish serde-yaml 1.0.0 serde_json serde-json
  published serde-yaml 1.0.0 (revision 7)
  registry: so far no version of serde_json is published; did you mean serde-json?

Each refusal, with its number in JSON.

  $ hold << end
  > publish log 1.2.0
  > publish log 1.3.0
  > yank log 1.2.0
  > end
  $ refused() { registry "$@" --json | sed 's/,"message".*,"name"/,"name"/'; return ${PIPESTATUS[0]}; }
  $ refused publish Log 1.0.0
  registry: the capital letter "L", byte 1 of the name "Log", is not one of a-z, 0-9, - and _; did you mean "log"?
  {"error":1,"name":"BadName","revision":3}
  [1]
  $ refused publish app 1.0.0 log@^1 9up@*
  registry: the name "9up" does not begin with a letter a-z
  {"error":1,"name":"BadName","revision":3}
  [1]
  $ refused publish app 1.0 log@^1
  registry: the version "1.0" has no patch number; did you mean "1.0.0"?
  {"error":2,"name":"BadVersion","revision":3}
  [1]
  $ refused publish app 1.0.0 log@^1 "zlib@>1.x.2"
  registry: zlib@>1.x.2: behind a wildcard the requirement ">1.x.2" has no more numbers; did you mean ">1.*"?
  {"error":3,"name":"BadRequirement","revision":3}
  [1]
  $ refused publish app 1.0.0 log@
  registry: log@: a requirement is empty; did you mean "*"?
  {"error":3,"name":"BadRequirement","revision":3}
  [1]
  $ refused publish app 1.0.0 log@^1 "log@<2"
  registry: log appears twice: join its requirements with a comma
  {"error":4,"name":"RepeatedDependency","revision":3}
  [1]
  $ refused publish app 1.0.0 app
  registry: app 1.0.0 can't need app itself
  {"error":5,"name":"SelfDependency","revision":3}
  [1]
  $ refused publish app 1.0.0 $(seq -f n%g 65)
  registry: there are 65 needs; the limit is 64
  {"error":6,"name":"TooManyDependencies","revision":3}
  [1]
  $ refused publish log 1.3.0
  registry: log 1.3.0 is published already, and a publication is permanent: choose another version
  {"error":7,"name":"AlreadyPublished","revision":3}
  [1]
  $ refused publish log 1.3.0+again
  registry: log 1.3.0+again is published already, and a publication is permanent: choose another version
  {"error":7,"name":"AlreadyPublished","revision":3}
  [1]
  $ refused yank log 1.4.0
  registry: log 1.4.0 is not published; there is 1.3.0
  {"error":11,"name":"NoSuchVersion","revision":3}
  [1]
  $ refused yank lgo 1.3.0
  registry: no version of lgo is published; did you mean log?
  {"error":11,"name":"NoSuchVersion","revision":3}
  [1]
  $ refused unyank zebra 1.0.0
  registry: no version of zebra is published
  {"error":11,"name":"NoSuchVersion","revision":3}
  [1]
  $ refused yank log 1.2.0
  registry: log 1.2.0 is yanked already
  {"error":12,"name":"AlreadyYanked","revision":3}
  [1]
  $ refused unyank log 1.3.0
  registry: log 1.3.0 is not yanked
  {"error":13,"name":"NotYanked","revision":3}
  [1]
  $ refused yank log 1.2
  registry: the version "1.2" has no patch number; did you mean "1.2.0"?
  {"error":2,"name":"BadVersion","revision":3}
  [1]
  $ refused yank L 1.2.0
  registry: the capital letter "L", byte 1 of the name "L", is not one of a-z, 0-9, - and _; did you mean "l"?
  {"error":1,"name":"BadName","revision":3}
  [1]
  $ registry unyank log 1.3.0
  registry: log 1.3.0 is not yanked
  [1]

Nothing was changed, and the journal is whole.

  $ registry journal verify registry.journal
  registry.journal: whole: format 2, 3 commands and 0 learnt, revision 3

A package with as many versions as there may be.

  $ (echo registry-journal 2; seq -f '{"name":"many","needs":[],"op":"publish","version":"0.0.%g"}' 4096; echo end 4096) > registry.journal
  $ registry publish many 1.0.0
  registry: registry.journal has 4,096 of 4,096 versions of many: `registry journal renew` begins a smaller journal
  registry: many has 4,096 versions, which is the limit
  [1]

The newest versions are named.

  $ : | hold
  $ for number in 0 1 2 3 11; do
  >   registry --quiet publish rand 1.$number.0 > /dev/null
  >   registry yank rand 2.0.0
  > done
  registry: rand 2.0.0 is not published; there is 1.0.0
  registry: rand 2.0.0 is not published; there are 1.1.0 and 1.0.0
  registry: rand 2.0.0 is not published; there are 1.2.0, 1.1.0 and 1.0.0
  registry: rand 2.0.0 is not published; there are 1.3.0, 1.2.0 and 2 more
  registry: rand 2.0.0 is not published; there are 1.11.0, 1.3.0 and 3 more
  [1]
  $ hold << end
  > publish rand 1.0.0
  > yank rand 1.0.0
  > end
  $ registry yank rand 2.0.0
  registry: rand 2.0.0 is not published; there is 1.0.0, yanked
  [1]

As JSON.

  $ registry publish a 1.0.0 --json
  {"ok":true,"revision":3}
  $ registry --json yank a 1.0.0
  {"ok":true,"revision":4}
  $ registry unyank --json a 1.0.0
  {"ok":true,"revision":5}

Wrong words.

  $ rm registry.journal
  $ registry publish
  registry: the following arguments are required: NAME, VERSION: see `registry publish --help`
  [2]
  $ registry publish a
  registry: the following arguments are required: VERSION: see `registry publish --help`
  [2]
  $ registry yank a
  registry: the following arguments are required: VERSION: see `registry yank --help`
  [2]
  $ registry yank a 1.0.0 b
  registry: unrecognized arguments: b: see `registry yank --help`
  [2]
  $ registry unyank
  registry: the following arguments are required: NAME, VERSION: see `registry unyank --help`
  [2]
  $ registry publish a 1.0.0 --yes
  registry: unrecognized arguments: --yes: see `registry publish --help`
  [2]
  $ registry yank --need a 1.0.0
  registry: unrecognized arguments: --need: see `registry yank --help`
  [2]
  $ registry publish a 1.0.0 --json=x
  registry: argument --json: ignored explicit argument 'x': see `registry publish --help`
  [2]
  $ ls
