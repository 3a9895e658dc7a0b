Journals that a session of registryd begins with and leaves: `--load` and `--save`. `whole` makes a journal's file of lines, in the second format or in the one that is named.

  $ serve() { registryd serve --workers 1 "$@"; }
  $ whole() { cat > of.it; (echo registry-journal ${1:-2}; cat of.it; echo end $(wc -l < of.it)); }
  $ cat > chain << end
  > {"name":"a","needs":[["b","^1.0.0"]],"op":"publish","version":"1.0.0"}
  > {"name":"b","needs":[["c","^1.0.0"]],"op":"publish","version":"1.0.0"}
  > {"name":"c","needs":[],"op":"publish","version":"1.0.0"}
  > end
  $ learnt='{"derivation":[{"causes":[{"fact":"premise","name":"a","need":"^1.0.0","target":"b","versions":[0],"within":[0]},{"fact":"premise","name":"b","need":"^1.0.0","target":"c","versions":[0],"within":[0]}],"conclusion":[["a",true,[0]],["c",false,[0]]],"pivot":"b"}],"op":"learn"}'
  $ cat > conflict << end
  > {"name":"foo","needs":[["bar","^1.0.0"]],"op":"publish","version":"2.0.0"}
  > {"name":"bar","needs":[["foo","^1.0.0"]],"op":"publish","version":"1.0.0"}
  > {"name":"foo","needs":[],"op":"publish","version":"1.0.0"}
  > end
  $ asked='{"op":"resolve","needs":[["foo",">=1.0.0"]]}'
  $ at_once='{"op":"resolve","needs":[["foo",">=1.0.0"]],"budget":0}'

What a session leaves: what was accepted, and nothing else.

  $ serve --save saved < /dev/null
  $ cat saved
  registry-journal 2
  end 0
  $ printf '%s\n' '{"op":"list"}' 'no line' | serve --save saved > /dev/null
  $ cat saved
  registry-journal 2
  end 0
  $ serve --save saved << end | grep -c error
  > {"op":"publish","name":"a","version":"1.0.0","needs":[["b","^1.0.0"]]}
  > {"op":"publish","name":"a","version":"1.0.0+x","needs":[]}
  > {"op":"yank","name":"a","version":"1.0.0"}
  > {"op":"yank","name":"a","version":"1.0.0"}
  > {"op":"unyank","name":"a","version":"1.0.0+y"}
  > {"op":"unyank","name":"b","version":"1.0.0"}
  > {"op":"resolve","needs":[["c","*"]]}
  > {"op":"list"}
  > end
  3
  $ cat saved
  registry-journal 2
  {"name":"a","needs":[["b","^1.0.0"]],"op":"publish","version":"1.0.0"}
  {"name":"a","op":"yank","version":"1.0.0"}
  {"name":"a","op":"unyank","version":"1.0.0+y"}
  end 3
  $ ls
  chain
  conflict
  saved

What was learnt stands at its place.

  $ (cat conflict; echo "$asked"; echo '{"op":"publish","name":"z","version":"1.0.0","needs":[]}') | serve --save saved > /dev/null
  $ sed '$d; s/^{"derivation":.*/learnt/' saved | uniq
  registry-journal 2
  {"name":"foo","needs":[["bar","^1.0.0"]],"op":"publish","version":"2.0.0"}
  {"name":"bar","needs":[["foo","^1.0.0"]],"op":"publish","version":"1.0.0"}
  {"name":"foo","needs":[],"op":"publish","version":"1.0.0"}
  learnt
  {"name":"z","needs":[],"op":"publish","version":"1.0.0"}
  $ [ "$(tail -n 1 saved)" = "end $(($(wc -l < saved) - 2))" ]

Nothing is saved where a session ends otherwise.

  $ echo as it was > saved
  $ serve --save saved < .
  registryd: input failed
  [1]
  $ echo '{"op":"list"}' | serve --save saved > /dev/full
  registryd: output failed
  [1]
  $ cat saved
  as it was
  $ ls
  chain
  conflict
  saved

Where no file can be made, it is told before the first line.

  $ mkdir folder
  $ for path in folder none/file $(printf %0256d 0); do echo '{"op":"list"}' | serve --save $path; done
  registryd: output failed
  registryd: output failed
  registryd: output failed
  [1]

A device is written itself.

  $ echo '{"op":"list"}' | serve --save /dev/full
  {"packages":[],"revision":0}
  registryd: output failed
  [1]
  $ echo '{"op":"list"}' | serve --save /dev/null
  {"packages":[],"revision":0}
  $ test -c /dev/null

A journal of each format is gone on with.

  $ for form in 1 2; do
  >   whole $form < chain > loaded
  >   printf '%s\n' '{"op":"publish","name":"c","version":"1.1.0","needs":[]}' '{"op":"resolve","needs":[["a","*"]]}' | serve --load loaded
  > done
  {"ok":true,"revision":4}
  {"revision":4,"selected":[["a","1.0.0"],["b","1.0.0"],["c","1.1.0"]]}
  {"ok":true,"revision":4}
  {"revision":4,"selected":[["a","1.0.0"],["b","1.0.0"],["c","1.1.0"]]}

Both options may name one file.

  $ head -n 1 chain | serve --save one
  {"ok":true,"revision":1}
  $ sed -n 2p chain | serve --load one --save one
  {"ok":true,"revision":2}
  $ sed -n 3p chain | serve --load one --save one
  {"ok":true,"revision":3}
  $ whole < chain | cmp - one

What is loaded is saved again; one of the first format becomes one of the second.

  $ again() { whole > loaded; serve --load loaded --save saved < /dev/null; cmp loaded saved; }
  $ again < /dev/null
  $ again < chain
  $ (cat chain; echo "$learnt") | again
  $ (head -n 2 chain; echo "$learnt"; tail -n 1 chain) | again
  $ whole 1 < chain > loaded
  $ serve --load loaded --save saved < /dev/null
  $ whole < chain | cmp - saved

What was learnt serves what is asked later, within a budget of no conflict.

  $ (cat conflict; echo "$asked") | serve --save known > /dev/null
  $ sed -n 2,4p known | cmp - conflict
  $ wc -l < known
  6
  $ echo "$at_once" | serve --load known
  {"revision":3,"selected":[["foo","1.0.0"]]}
  $ whole < conflict > loaded
  $ echo "$at_once" | serve --load loaded
  {"error":22,"name":"BudgetSpent","revision":3}

What is stored once a journal is loaded: a later version of bar ends it, and another need of bar does not.

  $ newer='{"name":"bar","needs":[["foo","^1.0.0"]],"op":"publish","version":"1.1.0"}'
  $ other='{"name":"z","needs":[["bar","^2.0.0"]],"op":"publish","version":"1.0.0"}'
  $ behind() { (sed '1d;$d' known; cat) | whole > loaded; printf '%s\n' "$at_once" "$asked" | serve --load loaded; echo "$at_once" | serve --journal loaded; }
  $ behind < /dev/null
  {"revision":3,"selected":[["foo","1.0.0"]]}
  {"revision":3,"selected":[["foo","1.0.0"]]}
  {"revision":3,"selected":[["foo","1.0.0"]]}
  $ echo "$other" | behind
  {"revision":4,"selected":[["foo","1.0.0"]]}
  {"revision":4,"selected":[["foo","1.0.0"]]}
  {"revision":4,"selected":[["foo","1.0.0"]]}
  $ echo "$newer" | behind
  {"error":22,"name":"BudgetSpent","revision":4}
  {"revision":4,"selected":[["foo","1.0.0"]]}
  {"error":22,"name":"BudgetSpent","revision":4}
  $ printf '%s\n' "$newer" "$other" | behind
  {"error":22,"name":"BudgetSpent","revision":5}
  {"revision":5,"selected":[["foo","1.0.0"]]}
  {"error":22,"name":"BudgetSpent","revision":5}

What was learnt is judged at its place: where it does not follow, stands too early, twice, or behind a later version of
what it speaks of, where the end does not count it, and in the first format.

  $ fault() { cat > loaded; echo as it was > saved; serve --load loaded --save saved < /dev/null; echo "$? $(cat saved)"; }
  $ (cat chain; echo "${learnt/'["c",false,[0]]'/'["c",false,[1]]'}") | whole | fault
  registryd: journal line 5
  1 as it was
  $ (head -n 1 chain; echo "$learnt"; tail -n 2 chain) | whole | fault
  registryd: journal line 3
  1 as it was
  $ (cat chain; echo "$learnt"; echo "$learnt") | whole | fault
  registryd: journal line 6
  1 as it was
  $ (cat chain; echo '{"name":"c","needs":[],"op":"publish","version":"1.1.0"}'; echo "$learnt") | whole | fault
  registryd: journal line 6
  1 as it was
  $ (cat chain; echo "$learnt") | whole | sed 's/^end 4/end 3/' | fault
  registryd: journal line 6
  1 as it was
  $ (cat chain; echo "$learnt") | whole 1 | fault
  registryd: journal line 5
  1 as it was

A fault is told before the lines are read, and what can't be read is told.

  $ printf 'registry-journal 2\nend 1\n' > loaded
  $ serve --load loaded --save saved < . > /dev/full
  registryd: journal line 2
  [1]
  $ for path in none .; do echo '{"op":"list"}' | serve --load $path --save nothing; done
  registryd: input failed
  registryd: input failed
  [1]
  $ ls nothing
  ls: cannot access 'nothing': No such file or directory
  [2]

As many commands as a session may have, and as many versions of a package. A line that is of no journal is told before
one too many.

  $ many() { seq 0 $(($1 - 1)) | awk '{ printf("{\"name\":\"p%d\",\"needs\":[],\"op\":\"publish\",\"version\":\"1.%d.0\"}\n", $1 / 4096, $1 % 4096) }'; }
  $ many 49152 | whole > loaded
  $ printf '%s\n' '{"op":"publish","name":"p12","version":"1.0.0","needs":[]}' '{"op":"yank","name":"p0","version":"1.0.0"}' | serve --load loaded
  {"error":10,"name":"JournalFull","revision":49152}
  {"error":10,"name":"JournalFull","revision":49152}
  $ many 49153 | whole | fault
  registryd: journal line 49154
  1 as it was
  $ (many 49152; echo '{"name":"p0","op":"yank","version":"1.0.0"}'; echo '{"name":"p0","op":"unyank","version":"1.0.0"}') | whole 1 | fault
  registryd: journal line 49154
  1 as it was
  $ (many 49153; many 1) | whole | fault
  registryd: journal line 49155
  1 as it was
  $ one_more='{"name":"p0","needs":[],"op":"publish","version":"1.4096.0"}'
  $ for form in 1 2; do
  >   many 4096 | whole $form > loaded
  >   echo "$one_more" | serve --load loaded
  >   (many 4096; echo "$one_more") | whole $form | fault
  > done
  {"error":8,"name":"TooManyVersions","revision":4096}
  registryd: journal line 4098
  1 as it was
  {"error":8,"name":"TooManyVersions","revision":4096}
  registryd: journal line 4098
  1 as it was
