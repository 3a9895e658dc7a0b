`registry why`: of a journal and needs, and of a session's lines. The refusal is "Branching Error Reporting" of Dart pub's
doc/solver.md. `hold` makes the journal anew, of the commands that it is given.

  $ hold() { rm -f registry.journal; registry --quiet shell > /dev/null; }
  $ hold << end
  > publish foo 1.0.0 a@^1.0.0 b@^1.0.0
  > publish foo 1.1.0 x@^1.0.0 y@^1.0.0
  > publish a 1.0.0 b@^2.0.0
  > publish b 1.0.0
  > publish b 2.0.0
  > publish x 1.0.0 y@^2.0.0
  > publish y 1.0.0
  > publish y 2.0.0
  > end
  $ registry why foo@^1.0.0
  foo ^1.0.0: refused at revision 8
        Because foo 1.0.0 depends on a ^1.0.0 which depends on b ^2.0.0, foo 1.0.0 requires b ^2.0.0.
    (1) And because foo 1.0.0 depends on b ^1.0.0, foo 1.0.0 is forbidden.
  
        Because foo 1.1.0 depends on x ^1.0.0 which depends on y ^2.0.0, foo 1.1.0 requires y ^2.0.0.
        And because foo 1.1.0 depends on y ^1.0.0, foo 1.1.0 is forbidden.
        And because foo 1.0.0 is forbidden (1), foo is forbidden.
        And because the request depends on foo ^1.0.0, resolving failed.
  $ echo '[["b","1.0.0"]]' > b.lock
  $ registry why b --lock b.lock
  b *: selected at revision 8
    b 1.0.0

A session: a refusal that was not asked to be explained is asked for.

  $ tail -n +2 registry.journal | head -n 8 > asked
  $ cat >> asked << end
  > {"op":"resolve","needs":[["foo","^1.0.0"]],"explain":true}
  > {"op":"resolve","needs":[["b","*"]]}
  > {"op":"resolve","needs":[["zed","*"]]}
  > end
  $ registryd serve --workers 1 < asked > told
  $ registry why --asked asked --told told | tee why
  request 9, foo ^1.0.0: refused at revision 8
        Because foo 1.0.0 depends on a ^1.0.0 which depends on b ^2.0.0, foo 1.0.0 requires b ^2.0.0.
    (1) And because foo 1.0.0 depends on b ^1.0.0, foo 1.0.0 is forbidden.
  
        Because foo 1.1.0 depends on x ^1.0.0 which depends on y ^2.0.0, foo 1.1.0 requires y ^2.0.0.
        And because foo 1.1.0 depends on y ^1.0.0, foo 1.1.0 is forbidden.
        And because foo 1.0.0 is forbidden (1), foo is forbidden.
        And because the request depends on foo ^1.0.0, resolving failed.
  
  request 11, zed *: refused at revision 8
    Because the request depends on zed * and no version of zed is published, resolving failed.
  $ sed 's/,"explain":true//' asked > plain
  $ registryd serve --workers 1 < plain > plainly
  $ registry why --asked plain --told plainly | diff why -
  $ paste -d '\n' asked told > turns
  $ registry why --asked turns | diff why -
  $ registry why --asked asked --told told --request 9 --picture why.svg | diff <(head -n 8 why) -
  $ grep -o '>[0-9]<' why.svg | tr -d '\n'
  >1<>2<>3<>4<>5<>6< (no-eol)
  $ registry why --asked asked --told told --request 10
  request 10, b *: selected at revision 8
    b 2.0.0
  $ registry why --asked asked --told told --request 10 --not b 1.0.0
  b 1.0.0 can be selected; b 2.0.0 was selected, which is higher
  a selection with it changes nothing else
  $ registry why --asked asked --told told --request 2
  registry: request 2 is no request with a selection or a refusal
  [1]

A budget that was spent is no answer.

  $ cat > asked << end
  > {"op":"publish","name":"a","version":"1.0.0","needs":[["none","^1"]]}
  > {"op":"resolve","needs":[["a","*"]],"budget":0}
  > {"op":"resolve","needs":[["a","*"]]}
  > end
  $ registryd serve --workers 1 < asked > told
  $ cut -c 1-11 told
  {"ok":true,
  {"error":22
  {"refused":
  $ registry why --asked asked --told told | head -n 1
  request 3, a *: refused at revision 1
  $ registry why --asked asked --told told --request 2
  registry: request 2 is no request with a selection or a refusal
  [1]

Why a version is not selected.

  $ hold << end
  > publish app 1.0.0 log@^1
  > publish app 1.1.0 log@^2
  > publish tiny 1.0.0
  > publish log 1.0.0
  > publish log 2.0.0
  > publish log 2.1.0
  > publish log 2.2.0
  > yank log 2.2.0
  > end
  $ registry why app --not log 1.0.0
  log 1.0.0 can be selected; log 2.1.0 was selected, which is higher
  a selection with it also changes:
    ~ app 1.1.0 -> 1.0.0 (older)
  $ registry why app --not log 2.0.0
  log 2.0.0 can be selected; log 2.1.0 was selected, which is higher
  a selection with it changes nothing else
  $ registry why app --not app 1.0.0
  app 1.0.0 can be selected; app 1.1.0 was selected, which is higher
  a selection with it also changes:
    ~ log 2.1.0 -> 1.0.0 (older)
  $ echo '[["log","2.0.0"]]' > log.lock
  $ registry why app --lock log.lock --not log 2.1.0
  log 2.1.0 can be selected; log 2.0.0 was selected, which the lock names
  a selection with it changes nothing else
  $ echo '[["app","1.0.0"]]' > app.lock
  $ registry why app --lock app.lock --not log 2.1.0
  app *: log 2.1.0 can't be selected with app 1.0.0, which comes before it
    Because the selection has app 1.0.0 which depends on log ^1, the selection requires log ^1.
    And because log 2.1.0 is asked for, log 2.1.0 can't be selected.
  a selection with log 2.1.0 also changes:
    ~ app 1.0.0 -> 1.1.0
  $ registry why app --not tiny 1.0.0
  tiny 1.0.0 can be selected; no version of tiny was selected, since nothing that was selected needs one
  a selection with it changes nothing else
  $ registry why app --not app 1.1.0+x
  app 1.1.0 is what was selected
  $ registry why log@^2 --not log 1.0.0
  log 1.0.0 can't be selected: the request depends on log ^2
  $ registry why app --not log 2.2.0
  app *: log 2.2.0 can't be selected
    Because log 2.2.0 is asked for and log 2.2.0 is yanked, log 2.2.0 can't be selected.
  $ registry why app@^2 --not log 2.1.0
  app ^2: refused at revision 8
    Because the request depends on app ^2 and no version of app matches ^2, resolving failed.
    No version of app matches ^2; there are 1.1.0 and 1.0.0.
  $ registry why app@^1.1 --not log 1.0.0
  app ^1.1: log 1.0.0 can't be selected
    Because app 1.1.0 depends on log ^2 and log 1.0.0 is asked for, app 1.1.0 requires log >=2.0.0 <2.2.0.
    And because the request depends on app ^1.1 and log 1.0.0 is asked for, log 1.0.0 can't be selected.

What can't be told: of lines and replies that don't fit each other, and of a derivation that doesn't follow.

  $ cat > asked << end
  > {"op":"publish","name":"foo","version":"1.0.0","needs":[["bar","^2.0.0"]]}
  > {"op":"publish","name":"bar","version":"2.0.0","needs":[["baz","^3.0.0"]]}
  > {"op":"publish","name":"baz","version":"1.0.0","needs":[]}
  > {"op":"publish","name":"baz","version":"3.0.0","needs":[]}
  > {"op":"resolve","needs":[["foo","^1.0.0"],["baz","^1.0.0"]],"explain":true}
  > end
  $ registryd serve --workers 1 < asked > told
  $ whynot() { registry why --asked asked --told <(cat) "$@"; }
  $ sed 's/"pivot":"bar"/"pivot":"baz"/' told | whynot
  registry: request 5, foo ^1.0.0, baz ^1.0.0: refused at revision 4: the derivation does not follow: line 1: the conclusion is not what the causes give on baz
  [1]
  $ head -n 4 told | whynot
  registry: there are 5 request lines and 4 replies
  [1]
  $ (head -n 4 told; echo '{"refused":true,"revision":9}') | whynot
  registry: reply 5 is not of revision 4
  [1]
  $ (head -n 4 told; echo '{"revision":4,"selected":5}') | whynot
  registry: no request is refused
  [1]
  $ (head -n 4 told; echo '{"revision":4,"selected":5}') | whynot --request 5
  registry: request 5, foo ^1.0.0, baz ^1.0.0: the reply has no selection of the right form
  [1]
  $ (head -n 4 told; echo '{"revision":4,"selected":[["foo","1.0.0"]]}') | whynot --request 5 --picture x.svg
  request 5, foo ^1.0.0, baz ^1.0.0: selected at revision 4
    foo 1.0.0
  registry: the selection lacks what it needs
  [1]
  $ registry why --asked asked --told nowhere
  registry: nowhere: No such file or directory
  [3]
  $ head -n 4 asked > short
  $ registry why --asked short --told <(head -n 4 told)
  registry: there is no request with a selection or a refusal
  [1]

Of a journal or of needs at fault, and of versions that are not published.

  $ sed '4s/:\[\],/:[ ],/' registry.journal > damaged
  $ registry why app --journal damaged
  registry: damaged: line 4 is at fault: `registry journal verify damaged` says why, and `registry journal repair damaged` keeps what is before it
  [3]
  $ registry why app --lock registry.journal
  registry: registry.journal:1:1: error 19 BadLine: a lock list is an array of pairs of a name and a version, as [["b","1.0.0"]]
  [3]
  $ registry why app app
  registry: app *, app *: app appears twice: join its requirements with a comma
  [1]
  $ registry why web
  web *: refused at revision 8
    Because the request depends on web * and no version of web is published, resolving failed.
  $ registry why app@nonsense
  registry: app nonsense: app@nonsense: expected the major number of the requirement "nonsense", not "n"
  [1]
  $ registry why A
  registry: A *: the capital letter "A", byte 1 of the name "A", is not one of a-z, 0-9, - and _; did you mean "a"?
  [1]
  $ registry why app --not zed 1.0.0
  registry: no version of zed is published
  [1]
  $ registry why app --not tiny 9.0.0
  registry: tiny 9.0.0 is not published; there is 1.0.0
  [1]
  $ registry why app --not app 1.1.0 --picture x.svg
  app 1.1.0 is what was selected
  registry: there is nothing to draw
  [1]

Wrong words.

  $ registry why
  registry: name what is needed, as app@^1, or write it into registry.needs, a name and a requirement a line
  [2]
  $ for words in "a app" "a --lock c" "a --budget 1"; do registry why --asked $words; done
  registry: --asked reads requests from a file: it can't be used with needs, --lock or --budget
  registry: --asked reads requests from a file: it can't be used with needs, --lock or --budget
  registry: --asked reads requests from a file: it can't be used with needs, --lock or --budget
  [2]
  $ for words in "--told a" "--request 1"; do registry why app $words; done
  registry: --told and --request need --asked FILE
  registry: --told and --request need --asked FILE
  [2]
  $ registry why app --none
  registry: unrecognized arguments: --none: see `registry why --help`
  [2]
  $ registry why app --unfolded
  registry: --unfolded needs --picture FILE
  [2]
  $ registry why app --not app
  registry: argument --not: expected 2 arguments, NAME and VERSION: see `registry why --help`
  [2]
  $ registry why app --not app 1
  registry: these are not a package name and a version: 'app 1'
  [2]
  $ for number in x 0; do registry why --asked a --request $number; done
  registry: argument --request: x is no number from 1 to 4294967295: see `registry why --help`
  registry: argument --request: 0 is no number from 1 to 4294967295: see `registry why --help`
  [2]

A race: one file asks before what it asks for can be there, the other once it is. Each is told of its own revision, which
is the journal's, also where a file is told what the other one was.

  $ echo '{"op":"resolve","needs":[["a","^1"]],"explain":true}' > one
  $ (echo '{"op":"publish","name":"a","version":"2.0.0","needs":[]}'; cat one) > two
  $ registryd race one two > raced
  $ tail -n +4 raced > race.journal
  $ sed -n 2,3p raced > told
  $ registry why --journal race.journal --asked two --told told
  request 2, a ^1: refused at revision 1
    Because the request depends on a ^1 and no version of a matches ^1, resolving failed.
    No version of a matches ^1; there is 2.0.0.
  $ sed -n 3p raced > told
  $ registry why --journal race.journal --asked one --told told
  request 1, a ^1: refused at revision 1
    Because the request depends on a ^1 and no version of a matches ^1, resolving failed.
    No version of a matches ^1; there is 2.0.0.
  $ sed -n 1p raced > told
  $ registry why --journal race.journal --asked one --told told > said
  $ case $(head -n 1 said) in
  >   *"revision 0") grep -c "no version of a is published, resolving failed" said;;
  >   *"revision 1") grep -c "no version of a matches ^1, resolving failed" said;;
  > esac
  1
