`registry journal verify` and `registry journal repair`: worked journals, with all that is told of them.

  $ a='{"name":"a","needs":[["b","^1.0.0"]],"op":"publish","version":"1.0.0"}'
  $ b='{"name":"b","needs":[["c","^1.0.0"]],"op":"publish","version":"1.0.0"}'
  $ c='{"name":"c","needs":[],"op":"publish","version":"1.0.0"}'
  $ learn='{"derivation":[{"causes":[{"fact":"premise","name":"a","need":"^1.0.0","target":"b","versions":[0],"within":[0]},{"fact":"premise","name":"b","need":"^1.0.0","target":"c","versions":[0],"within":[0]}],"conclusion":[["a",true,[0]],["c",false,[0]]],"pivot":"b"}],"op":"learn"}'
  $ yank='{"name":"c","op":"yank","version":"1.0.0"}'
  $ lines() { printf '%s\n' "$@"; }
  $ whole() { lines "registry-journal 2" "$@" "end $#"; }

What is whole, cut, or at fault.

  $ whole "$a" "$b" "$c" "$learn" > good.journal
  $ registry journal verify good.journal
  good.journal: whole: format 2, 3 commands and 1 learnt, revision 3
  $ lines "registry-journal 2" "$a" > cut.journal
  $ registry journal verify cut.journal
  cut.journal: cut: format 2, 1 command and 0 learnt, revision 1; its last line is 3, which is not finished or missing: a session continues it
  $ whole "$a" "$a" > bad.journal
  $ registry journal verify bad.journal
  bad.journal:3: at fault: 7 AlreadyPublished: a 1.0.0 is published already, and a publication is permanent: choose another version
  before it: format 2, 1 command and 0 learnt, revision 1; `registry journal repair bad.journal` keeps that
  [1]
  $ registry journal verify --json bad.journal
  {"file":"bad.journal","state":"at fault","format":2,"items":1,"learnt":0,"revision":1,"line":3,"why":"7 AlreadyPublished: a 1.0.0 is published already, and a publication is permanent: choose another version"}
  [1]
  $ lines hello > empty.journal
  $ registry journal verify empty.journal
  empty.journal:1: at fault: the first line is "hello": a journal begins with registry-journal 1 or registry-journal 2
  [1]
  $ registry journal verify none.journal
  registry: none.journal: No such file or directory
  [3]
  $ registry journal verify .
  registry: . is no plain file
  [3]

What is before a fault is kept, in a new file of the same mode.

  $ whole "$a" "$b" rubbish "$c" "$yank" "$learn" > bad.journal
  $ cp bad.journal before
  $ chmod 640 bad.journal
  $ registry journal repair bad.journal
  bad.journal.repaired is written: 2 items, revision 2
  dropped from line 4 on: 4 lines, 379 bytes:
    line 4: "rubbish"
    line 5: publish c 1.0.0
    line 6: yank c 1.0.0
    line 7: what was learnt
  these commands are still in bad.journal as request lines, which can be sent again
  $ cmp bad.journal before
  $ cmp bad.journal.repaired <(whole "$a" "$b")
  $ stat -c '%A %n' bad.journal*
  -rw-r----- bad.journal
  -rw-r----- bad.journal.repaired

What stands behind the end, and a wrong end.

  $ (whole "$a"; lines "$b") > bad.journal
  $ registry journal repair bad.journal --output other.journal
  other.journal is written: 1 item, revision 1
  dropped from line 4 on: 1 line, 70 bytes:
    line 4: publish b 1.0.0
  these commands are still in bad.journal as request lines, which can be sent again
  $ cmp other.journal <(whole "$a")
  $ lines "registry-journal 1" "$a" "end 7" > wrong.journal
  $ registry journal repair wrong.journal
  wrong.journal.repaired is written: 1 item, revision 1
  dropped from line 3 on: 0 lines, 0 bytes
  $ cat wrong.journal.repaired
  registry-journal 1
  {"name":"a","needs":[["b","^1.0.0"]],"op":"publish","version":"1.0.0"}
  end 1

A file that is cut.

  $ (lines "registry-journal 2" "$a"; printf %.20s "$b") > cut.journal
  $ registry journal repair cut.journal
  cut.journal.repaired is written: 1 item, revision 1
  dropped from line 3 on: 1 line, 20 bytes:
    line 3: "{\"name\":\"b\",\"needs\":"
  $ cmp cut.journal.repaired <(whole "$a")

Many lines.

  $ lines "registry-journal 2" "$a" x x x x x x x x x x x x x > many.journal
  $ registry journal repair many.journal | tail -n 2
    line 12: "x"
    and 3 more
  $ registry journal repair --json many.journal --output new.journal
  {"file":"many.journal","state":"at fault","written":"new.journal","items":1,"revision":1,"line":3,"dropped":["x","x","x","x","x","x","x","x","x","x","x","x","x"]}

No file is written over.

  $ echo mine > there
  $ ln -s none link
  $ mkdir folder
  $ for name in there link folder; do registry journal repair bad.journal --output $name; done
  registry: there is there already, and nothing is written over it: name another file
  registry: link is there already, and nothing is written over it: name another file
  registry: folder is there already, and nothing is written over it: name another file
  [3]
  $ cat there none
  mine
  cat: none: No such file or directory
  [1]

Nothing to do, nothing to keep, and a folder that is not there.

  $ registry journal repair good.journal
  good.journal is whole: there is nothing to repair
  $ (lines hello; whole "$a") > first.journal
  $ registry journal repair first.journal
  registry: first.journal has nothing to keep: its first line is at fault, and `registry journal verify first.journal` says why
  [1]
  $ registry journal repair bad.journal --output none/new.journal
  registry: none/new.journal is not written: No such file or directory
  [3]
  $ ls *.repaired
  bad.journal.repaired
  cut.journal.repaired
  many.journal.repaired
  wrong.journal.repaired
