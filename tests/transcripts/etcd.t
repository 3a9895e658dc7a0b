`registryd-etcd`: what fronts answer over a small etcd in memory, and what it says of files that it can't use.

  $ . "$TESTDIR/etcd.sh"

Each kind of line, good or not. A line that is none takes no place, a command that is refused does.

  $ front found
  $ (echo '{"op":"resolve","nee'; a1; resolve a ^1; resolve a ^2; yank a 1.0.0; yank a 1.0.0; list) > some.lines
  $ (echo '{"op":"publish","name":"a"}'; publish A 1.0.0; echo; unyank b 1.0.0) >> some.lines
  $ front serve --seat 7 < some.lines
  {"error":19,"name":"BadLine","place":0,"revision":0,"seat":7}
  {"ok":true,"place":1,"revision":1,"seat":7}
  {"place":1,"revision":1,"seat":7,"selected":[["a","1.0.0"]]}
  {"place":1,"refused":true,"revision":1,"seat":7}
  {"ok":true,"place":2,"revision":2,"seat":7}
  {"error":12,"name":"AlreadyYanked","place":3,"revision":2,"seat":7}
  {"packages":[["a",[["1.0.0",true]]]],"place":3,"revision":2,"seat":7}
  {"error":19,"name":"BadLine","place":3,"revision":2,"seat":7}
  {"error":1,"name":"BadName","place":4,"revision":2,"seat":7}
  {"error":19,"name":"BadLine","place":4,"revision":2,"seat":7}
  {"error":11,"name":"NoSuchVersion","place":5,"revision":2,"seat":7}
  $ front journal
  registry-journal 1
  {"name":"a","needs":[],"op":"publish","version":"1.0.0"}
  {"name":"a","op":"yank","version":"1.0.0"}
  end 2

A line of the longest kind, one that is longer, and a last one without its line feed.

  $ front found --prefix edges
  $ longest() { printf '{"op":"list"}%1048563s' ''; }
  $ (longest; echo; longest; echo ' '; printf '{"op":"list"}') | front serve --prefix edges
  {"packages":[],"place":0,"revision":0,"seat":1}
  {"error":19,"name":"BadLine","place":0,"revision":0,"seat":1}
  {"packages":[],"place":0,"revision":0,"seat":1}

A front that is begun again with its lines answers its commands as before, and no cell is added. The others are answered
anew.

  $ front found --prefix again
  $ (a1; list; yank a 1.0.0; yank a 1.0.0; a1; b1) > again.lines
  $ front serve --prefix again --writer w < again.lines > first
  $ front serve --prefix again --writer w < again.lines > second
  $ diff <(sed -n '1p; 3p; 4p; 6p' first) <(sed -n '1p; 3p; 4p; 6p' second)
  $ tail -n 1 second
  {"ok":true,"place":4,"revision":3,"seat":1}
  $ list | front serve --prefix again
  {"packages":[["a",[["1.0.0",true]]],["b",[["1.0.0",false]]]],"place":4,"revision":3,"seat":1}
  $ b1 | front serve --prefix again --writer w
  registryd-etcd: line 1 of w was another before
  [1]

A journal is founded once, with what a session left.

  $ front found
  registryd-etcd: a journal stands under registry already
  [1]
  $ a1 | front serve --prefix new
  registryd-etcd: no journal was founded under new* (glob)
  [1]
  $ (a2; b1; publish b 1.1.0 '["c","^1"]'; publish c 1.0.0; resolve a ^2) > left.lines
  $ registryd serve --workers 1 --save left.journal < left.lines > told
  $ front found --prefix new --load left.journal
  $ (resolve a ^2; a1) | front serve --prefix new
  {"place":0,"revision":4,"seat":1,"selected":[["a","2.0.0"],["b","1.1.0"],["c","1.0.0"]]}
  {"ok":true,"place":1,"revision":5,"seat":1}
  $ printf 'registry-journal 1\n{}\nend 1\n' > bad.journal
  $ front found --prefix bad --load bad.journal
  registryd-etcd: *registryd: journal line 2* (glob)
  [1]
  $ a1 | front serve --prefix bad
  registryd-etcd: no journal was founded under bad* (glob)
  [1]

Or with the journal of a session that was killed, once nobody has it.

  $ mkfifo asked answered
  $ registryd serve --workers 1 --journal held.journal < asked > answered 2> /dev/null &
  $ exec 5> asked 6< answered
  $ (a2; b1) >&5; read -r told <&6; read -r told <&6; echo "$told"
  {"ok":true,"revision":2}
  $ front found --prefix held --journal held.journal
  registryd-etcd: *registryd: journal held.journal: in use by another session* (glob)
  [1]
  $ kill -9 %1 2> /dev/null; { wait %1; } 2> /dev/null
  [137]
  $ exec 5>&- 6<&-
  $ printf '{"name":"half' >> held.journal
  $ front found --prefix held --journal held.journal
  $ list | front serve --prefix held
  {"packages":[["a",[["2.0.0",false]]],["b",[["1.0.0",false]]]],"place":0,"revision":2,"seat":1}
  $ printf 'registry-journal 1\n{}\n' > held.journal
  $ front found --prefix bad --journal held.journal
  registryd-etcd: * line 2 is not a journal's* (glob)
  [1]
  $ front found --prefix bad --journal none.journal
  registryd-etcd: none.journal is not there
  [1]
  $ ls none.journal 2> /dev/null
  [2]
  $ a1 | front serve --prefix bad
  registryd-etcd: no journal was founded under bad* (glob)
  [1]

A front keeps no journal of its own.

  $ for what in serve journal; do front $what --journal kept.journal < /dev/null; done
  registryd-etcd: --journal is for found alone* (glob)
  registryd-etcd: --journal is for found alone* (glob)
  [2]
  $ front found --prefix kept --load left.journal --journal kept.journal
  registryd-etcd: --journal is for found alone* (glob)
  [2]
  $ ls kept.journal 2> /dev/null
  [2]

A journal that has all commands but one that a session accepts: a publication that was yanked and taken back.

  $ yanked='{"name":"a","op":"yank","version":"1.0.0"}'
  $ (echo registry-journal 1; echo '{"name":"a","needs":[],"op":"publish","version":"1.0.0"}') > full.journal
  $ yes "$yanked"$'\n'"${yanked/yank/unyank}" | head -n 49150 >> full.journal
  $ echo end 49151 >> full.journal
  $ front found --prefix full --load full.journal
  $ (yank a 1.0.0; unyank a 1.0.0; b1; echo '{"op":"resolve","needs":[["a","*"]],"lock":[["a","1.0.0"]]}') > full.lines
  $ front serve --prefix full < full.lines
  {"ok":true,"place":1,"revision":49152,"seat":1}
  {"error":10,"name":"JournalFull","place":2,"revision":49152,"seat":1}
  {"error":10,"name":"JournalFull","place":3,"revision":49152,"seat":1}
  {"place":3,"revision":49152,"seat":1,"selected":[["a","1.0.0"]]}

Each selection is the newest, and `--newest` has no effect. A search that takes the highest version of b first finds
another one.

  $ front found --prefix newest
  $ (a1; publish a 2.0.0; publish a 3.0.0 '["b","=1.0.0"]'; b1; publish b 2.0.0) | front serve --prefix newest > told
  $ both() { echo '{"op":"resolve","needs":[["a","*"],["b","*"]]}'; }
  $ both | front serve --prefix newest
  {"place":5,"revision":5,"seat":1,"selected":[["a","3.0.0"],["b","1.0.0"]]}
  $ both | front serve --prefix newest --newest --seat 2
  {"place":5,"revision":5,"seat":2,"selected":[["a","3.0.0"],["b","1.0.0"]]}
