`registry log`: what it tells of a journal's file and of a service, and what it goes on to tell while it follows one.

The log of a file, of which no time is known.

  $ . "$TESTDIR/service.sh"
  $ cat > some.lines << end
  > {"op":"publish","name":"log","version":"1.3.0","needs":[]}
  > {"op":"publish","name":"app","version":"1.0.0","needs":[["log","^1.2"],["zlib","*"]]}
  > {"op":"yank","name":"log","version":"1.3.0"}
  > end
  $ registryd serve --workers 1 --save team.journal < some.lines > told
  $ registry log --journal team.journal
  1 - publish log 1.3.0
  2 - publish app 1.0.0 log@^1.2 zlib@*
  3 - yank log 1.3.0
  $ diff <(registry log --journal team.journal) <(registry log --journal team.journal --after 0)
  $ registry log --journal team.journal --after 2
  3 - yank log 1.3.0
  $ registry log --journal team.journal --after 3
  $ registry log --journal team.journal --after 4
  registry: team.journal is at revision 3
  [3]
  $ registry log --journal none.journal 2> /dev/null
  [3]
  $ registry log --journal team.journal --json | /usr/bin/python3 -m json.tool --json-lines --sort-keys --compact
  {"name":"log","needs":[],"op":"publish","revision":1,"time":null,"version":"1.3.0"}
  {"name":"app","needs":[["log","^1.2"],["zlib","*"]],"op":"publish","revision":2,"time":null,"version":"1.0.0"}
  {"name":"log","op":"yank","revision":3,"time":null,"version":"1.3.0"}

A file that is followed, and gone on with.

  $ follow() {
  >   rm -f followed
  >   registry log --follow "$@" > followed 2>&1 &
  >   following=$!
  > }
  $ until_lines() { until [ "$(wc -l 2> /dev/null < followed)" = "$1" ]; do sleep 0.05; done; }
  $ head -n 1 some.lines | registryd serve --workers 1 --save file.journal > told
  $ follow --journal file.journal
  $ until_lines 1
  $ registry publish app 1.0.0 log@^1.2 zlib --journal file.journal > told 2>&1
  $ until_lines 2
  $ registry yank log 1.3.0 --journal file.journal > told
  $ until_lines 3
  $ kill $following
  $ cat followed
  1 - publish log 1.3.0
  2 20\d\d-\d\d-\d\dT\d\d:\d\d:\d\d\.\d{3}Z publish app 1\.0\.0 log@\^1\.2 zlib@\* (re)
  3 20\d\d-\d\d-\d\dT\d\d:\d\d:\d\d\.\d{3}Z yank log 1\.3\.0 (re)

A service knows when it accepted what.

  $ head -n 1 some.lines | registryd serve --workers 1 --save team.journal > told
  $ begin --socket socket --port 0
  $ follow --connect socket
  $ until_lines 1
  $ ask "$(sed -n 2p some.lines)" "$(sed -n 1p some.lines)"
  {"ok":true,"revision":2}
  {"error":7,"name":"AlreadyPublished","revision":2}
  $ until_lines 2
  $ ask "$(sed -n 3p some.lines)"
  {"ok":true,"revision":3}
  $ until_lines 3
  $ cat followed
  1 - publish log 1.3.0
  2 20\d\d-\d\d-\d\dT\d\d:\d\d:\d\d\.\d{3}Z publish app 1\.0\.0 log@\^1\.2 zlib@\* (re)
  3 20\d\d-\d\d-\d\dT\d\d:\d\d:\d\d\.\d{3}Z yank log 1\.3\.0 (re)
  $ registry log --connect socket | diff - followed

The times stay, whatever becomes of the program that keeps the journal. A command waits for the next one.

  $ keeper=$(for it in $(cat /proc/$service/task/*/children); do grep -lsz ^--journal= /proc/$it/cmdline; done | head -n 1)
  $ kill -9 "$(basename "${keeper%/cmdline}")"
  $ while [ -e "$keeper" ] && grep -qsz ^--journal= "$keeper"; do sleep 0.05; done
  $ ask '{"op":"publish","name":"zlib","version":"1.0.0","needs":[]}'
  {"ok":true,"revision":4}
  $ until_lines 4
  $ tail -n 1 followed
  4 20\d\d-\d\d-\d\dT\d\d:\d\d:\d\d\.\d{3}Z publish zlib 1\.0\.0 (re)
  $ registry log --connect socket --after 2 | diff - <(tail -n 2 followed)
  $ registry log --connect socket --after 5 2> /dev/null
  [3]

One that is begun again is waited for, and knows no times of what it finds.

  $ kill "$service" && wait "$service"
  $ begin --socket socket --port 0
  $ ask '{"op":"publish","name":"web","version":"1.0.0","needs":[]}'
  {"ok":true,"revision":5}
  $ until_lines 5
  $ tail -n 1 followed
  5 20\d\d-\d\d-\d\dT\d\d:\d\d:\d\d\.\d{3}Z publish web 1\.0\.0 (re)
  $ registry log --connect socket --after 3 | head -n 1
  4 - publish zlib 1.0.0
  $ kill $following
  $ end
