`tools/check_derivation.py`: the files that it is given, journals of each kind, and what there is no judging of. The refusal is the first of `tests/support/data/refusals.json`.

  $ check() { "$TESTDIR"/../../tools/check_derivation.py "$@"; }
  $ cat > asked << end
  > {"name":"foo","needs":[["bar","^2.0.0"]],"op":"publish","version":"1.0.0"}
  > {"name":"bar","needs":[["baz","^3.0.0"]],"op":"publish","version":"2.0.0"}
  > {"name":"baz","needs":[],"op":"publish","version":"1.0.0"}
  > {"name":"baz","needs":[],"op":"publish","version":"3.0.0"}
  > {"explain":true,"needs":[["foo","^1.0.0"],["baz","^1.0.0"]],"op":"resolve"}
  > end
  $ cat > told << end
  > {"ok":true,"revision":1}
  > {"ok":true,"revision":2}
  > {"ok":true,"revision":3}
  > {"ok":true,"revision":4}
  > {"derivation":[{"causes":[{"fact":"premise","name":"bar","need":"^3.0.0","target":"baz","versions":[0],"within":[1]},{"fact":"premise","name":"foo","need":"^2.0.0","target":"bar","versions":[0],"within":[0]}],"conclusion":[["foo",true,[0]],["baz",false,[1]]],"pivot":"bar"},{"causes":[{"line":1},{"fact":"need","index":1}],"conclusion":[["",true,[0]],["foo",true,[0]]],"pivot":"baz"},{"causes":[{"line":2},{"fact":"need","index":0}],"conclusion":[["",true,[0]]],"pivot":"foo"}],"explanation":[],"refused":true,"revision":4}
  > end
  $ sed 's/"within":\[1\]/"within":[0]/' told > wrong

Two files, with and without a line feed at their ends.

  $ check asked told
  request 5: the refusal at revision 4 follows
  $ check <(head -c -1 asked) <(head -c -1 wrong)
  request 5: the refusal at revision 4 does not follow: line 1: a version of baz that meets "^3.0.0" is left out
  [1]

One file by turns.

  $ check <(paste -d '\n' asked told)
  request 5: the refusal at revision 4 follows
  $ check <(paste -d '\n' asked wrong) > /dev/null
  [1]

A journal, of which only the commands before the reply count; what was learnt takes no revision.

  $ journal() { echo registry-journal ${1:-2}; cat commands; echo end $(wc -l < commands); }
  $ of_journal() { check --journal journal <(tail -n 1 asked) <(tail -n 1 $1); }
  $ head -n 4 asked > commands
  $ journal > journal
  $ of_journal told
  request 1: the refusal at revision 4 follows
  $ of_journal wrong > /dev/null
  [1]
  $ echo '{"name":"baz","needs":[],"op":"publish","version":"3.1.0"}' >> commands
  $ journal > journal
  $ of_journal told
  request 1: the refusal at revision 4 follows
  $ of_journal wrong > /dev/null
  [1]
  $ (head -n 2 asked; tail -n 1 told | sed 's/,{"causes":\[{"line":1}.*/],"op":"learn"}/'; sed -n 3,4p asked) > commands
  $ grep -c learn commands
  1
  $ journal > journal
  $ of_journal told
  request 1: the refusal at revision 4 follows

At a later revision it no longer follows, and then once more it does at the earlier one, in a race's replies too.

  $ (head -n 4 asked; echo '{"name":"baz","needs":[],"op":"publish","version":"3.1.0"}') > commands
  $ journal > journal
  $ tail -n 1 told > last
  $ check --journal journal <(for it in 1 2 3; do tail -n 1 asked; done) <(cat last; sed 's/4}$/5}/' last; sed 's/4}$/4,"place":9,"seat":2}/' last) | cut -c 1-55
  request 1: the refusal at revision 4 follows
  request 2: the refusal at revision 5 does not follow: l
  request 3: the refusal at revision 4 follows

Journals that are not whole.

  $ head -n 4 asked > commands
  $ of_changed() { journal ${2:-1} | sed "$1" > journal; of_journal told; }
  $ of_changed ''
  request 1: the refusal at revision 4 follows
  $ of_changed '' 3
  there is no judging it: a cut journal
  [2]
  $ for change in 2,6d 's/end 4/end 5/' '$d' '$s/$/\n/' 1,6d; do of_changed "$change"; echo $?; done | sort | uniq -c
        5 2
        5 there is no judging it: a cut journal
  $ journal 1 | head -c -1 > journal
  $ of_journal told
  there is no judging it: a cut journal
  [2]
  $ of_changed '2p;5d'
  there is no judging it: the journal has a command that the rules refuse
  [2]
  $ of_changed '5d;s/end 4/end 3/'
  there is no judging it: reply 1 is not of revision 3
  [2]
  $ of_changed '5s/.*/nothing/' | cut -d : -f 1
  there is no judging it

Several refusals, of which the last one does not follow.

  $ (cat asked; echo '{"needs":[["nobody","*"]],"op":"resolve","explain":true}'; tail -n 1 asked; echo '{"op":"list"}') > several
  $ (cat told; echo '{"derivation":[{"causes":[{"fact":"need","index":0},{"fact":"root"}],"conclusion":[],"pivot":""}],"explanation":[],"refused":true,"revision":4}'; tail -n 1 wrong; echo '{"packages":[],"revision":4}') > replies
  $ check several replies | cut -c 1-55
  request 5: the refusal at revision 4 follows
  request 6: the refusal at revision 4 follows
  request 7: the refusal at revision 4 does not follow: l

A refusal that tells no derivation, where one was asked for and where none was.

  $ sed '5s/.*/{"refused":true,"revision":4}/' told > bare
  $ check asked bare > /dev/null
  [1]
  $ check <(sed 's/"explain":true,//' asked) bare
  no refusal has a derivation
  $ check asked <(sed '5s/.*/{"revision":4,"selected":[]}/' told)
  no refusal has a derivation

What there is no judging of: how the requests are changed, and the replies.

  $ while IFS='|' read -r asks tells; do
  >   sed "$asks" asked > asked.changed
  >   sed "$tells" told > told.changed
  >   check asked.changed told.changed | cut -d : -f 1
  >   echo "${PIPESTATUS[0]}"
  > done << 'end' | sort | uniq -c
  > |$d
  > 1d|
  > |3s/3/9/
  > |5s/.*/{"derivation":[],"explanation":[],"refused":true,"revision":3}/
  > |4s/.*/{"error":7,"name":"AlreadyPublished","revision":4}/
  > |4s/.*/{"error":7,"name":"AlreadyPublished","revision":3}/;5s/4}/3}/
  > 2s/.*/{"name":"foo","needs":[["bar","^2.0.0"]],"op":"publish","version":"1.0.0"}/|
  > 2s/.*/publish/|
  > |5s/.*/none/
  > |5s/.*/"none"/
  > 5s/.*/[]/|
  > |5s/.*/{}/
  > 5s/.*/{"op":"list"}/|
  > 5s/}$/,"more":1}/|
  > 5s/"needs":.*]]/"needs":[["A","*"]]/|
  > 5s/"needs":.*]]/"needs":[["foo","nonsense"]]/|
  > 5s/}$/,"lock":[["foo","1"]]}/|
  > 5s/\["foo","^1.0.0"\],/&&/|
  > 5s/}$/,"lock":"foo"}/|
  > end
       19 2
       19 there is no judging it
  $ check <(printf '%0100000d' 0 | tr 0 '[') <(head -n 1 told) | cut -d : -f 1
  there is no judging it
  $ check <(printf '\377\n') <(head -n 1 told) | cut -d : -f 1
  there is no judging it
  $ for file in none /dev/null; do check $file | cut -d : -f 1; done
  there is no judging it
  there is no judging it
  $ check 2> /dev/null
  [2]

Refusals that the rules do not see are followed.

  $ for error in 6 8 9 10 18 19; do
  >   check <(sed '5i{"name":"baz","needs":[],"op":"publish","version":"3.1.0"}' asked) <(sed "5i{\"error\":$error,\"name\":\"..\",\"revision\":4}" told)
  > done | uniq -c
        6 request 6: the refusal at revision 4 follows
