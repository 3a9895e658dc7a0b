`registry import` at the limits of a session, and over files that have no end. An entry of an index is given its name, its version, its dependencies and whether it is yanked; `wide` writes entries with 64 dependencies, each given its file, its name, its version and what these names begin with.

  $ data=$TESTDIR/../support/data
  $ entry() { printf '{"name":"%s","vers":"%s","deps":[%s],"cksum":"","features":{},"yanked":%s}\n' "$1" "$2" "$3" "${4:-false}"; }
  $ deps() { seq -f '{"name":"n%.0f","req":"^1","kind":"normal","optional":false}' $1 $2 | paste -sd ,; }
  $ wide() {
  >   awk '{
  >     printf("{\"name\":\"%s\",\"vers\":\"%s\",\"deps\":[", $2, $3) >> $1
  >     for (i = 0; i < 64; i++) printf("%s{\"name\":\"%s-%d\",\"req\":\"*\",\"kind\":\"normal\",\"optional\":false}", i ? "," : "", $4, i) >> $1
  >     print "],\"cksum\":\"\",\"features\":{},\"yanked\":false}" >> $1
  >     close($1)
  >   }'
  > }

What Cargo keeps of an index gives the same: a byte 3, the number 2 in four bytes, a mark of the index, then each version and its line.

  $ (cd $data/crates-io; find . -type f ! -name config.json ! -name pad_left) | while read -r name; do
  >   mkdir -p kept/.cache/$(dirname $name)
  >   (printf '\003\002\000\000\000'; printf '9a36937bc2c91ed769\000'; grep '}$' $data/crates-io/$name | while IFS= read -r row; do
  >     printf '%s\000%s\000' "$(sed 's/.*"vers":"\([^"]*\)".*/\1/' <<< "$row")" "$row"
  >   done) > kept/.cache/$name
  > done
  $ registry import crates-io --lines kept 2> counts | cmp - <(registry import crates-io --lines $data/crates-io 2> /dev/null)
  $ head -n 1 counts
  written: 13 versions of 6 crates, 1 of them yanked

What is past a limit is left out.

  $ mkdir -p past/3/l past/2
  $ (entry low 1.0.0 "$(deps 0 64)"; entry low 1.0.1 "$(deps 1 64)") > past/3/l/low
  $ seq -f '{"name":"up","vers":"0.0.%.0f","deps":[],"cksum":"","features":{},"yanked":false}' 4097 -1 1 > past/2/up
  $ registry import crates-io past --lines 2> counts > lines
  $ head -n 3 counts
  written: 4097 versions of 2 crates, 0 of them yanked
  left out: versions below the 4096 newest ones of their crate: 1 (first: up 0.0.1)
  left out: versions with more than 64 dependencies: 1 (first: low 1.0.0)
  $ head -n 1 lines | cmp - <(echo "{\"op\":\"publish\",\"name\":\"low\",\"version\":\"1.0.1\",\"needs\":[$(seq -f '["n%.0f","^1"]' 64 | paste -sd ,)]}")
  $ tail -n +2 lines | cmp - <(seq -f '{"op":"publish","name":"up","version":"0.0.%.0f","needs":[]}' 4097 -1 2)

Of more than a session takes the newest are written. A yanked version takes two lines: of 3,511 versions that are all
yanked but one, 7 crates have 7 times 7,021 lines.

  $ mkdir -p many/3/c
  $ for name in c{a..g}0; do
  >   (seq -f '{"name":"'$name'","vers":"0.0.%.0f","deps":[],"cksum":"","features":{},"yanked":true}' 0 3598; entry $name 0.1.0) > many/3/c/$name
  > done
  $ registry import crates-io many --lines > lines
  written: 24577 versions of 7 crates, 24570 of them yanked
  left out: versions below the 3511 newest ones of their crate: 623 (first: ca0 0.0.0)
  $ wc -l < lines
  49147
  $ sed -n '1,2p;7021,7022p' lines
  {"op":"publish","name":"ca0","version":"0.0.89","needs":[]}
  {"op":"yank","name":"ca0","version":"0.0.89"}
  {"op":"publish","name":"ca0","version":"0.1.0","needs":[]}
  {"op":"publish","name":"cb0","version":"0.0.89","needs":[]}

Of more names than a session takes the newest are written. Each version names 64 crates more; beside its own there are
65,534 names left: 1,023 times 64.

  $ mkdir -p names/3/r
  $ seq 0 1024 | sed 's|.*|names/3/r/row row 1.0.& n&|' | wide
  $ registry import crates-io names --lines 2> counts > lines
  $ head -n 1 counts
  written: 1023 versions of 1 crates, 0 of them yanked
  $ grep -o '"version":"[^"]*"' lines | cmp - <(seq -f '"version":"1.0.%.0f"' 2 1024)

Where the newest alone are too many nothing is written: 1,030 that name 64 each.

  $ mkdir -p alone/{a..j}1/{00..99} alone/{a..j}2/{00..02}
  $ for name in {a..j}{100..202}; do echo alone/${name:0:2}/${name:2}/$name $name 1.0.0 $name; done | wide
  $ registry import crates-io alone --lines 2> told
  [1]
  $ wc -l < told
  1
  $ grep -o 'are more than .*' told
  are more than the 49152 lines and 65535 names of one session: name the crates to begin with by --from

What the registry refuses is told. 49,151 versions are there: the first one more is the last that a journal takes.

  $ (echo registry-journal 2; seq 0 49150 | awk '{ printf "{\"name\":\"n%d\",\"needs\":[],\"op\":\"publish\",\"version\":\"1.0.%d\"}\n", $1 / 4096, $1 % 4096 }'; echo end 49151) > registry.journal
  $ registry import debian $data/debian.txt 2> counts
  imported: 7 versions of 6 crates, 0 of them yanked (revision 49152)
  [1]
  $ grep refused: counts
  refused: the journal is full: `registry journal renew` begins a smaller one: 6 (first: fog 1.4.2)

A file that may have no end is told, and a pipe that is named itself is read.

  $ for place in "crates-io 1/a" "cargo Cargo.toml" "cargo in/Cargo.toml" "cargo Cargo.lock"; do
  >   for make in mkfifo "ln -s /dev/zero"; do
  >     set -- $place
  >     mkdir -p top/$(dirname $2)
  >     $make top/$2
  >     timeout 60 registry import $1 --lines $PWD/top 2>&1 | sed "s,$PWD/,,"
  >     echo ${PIPESTATUS[0]}
  >     rm -r top
  >   done
  > done
  registry: top/1/a is no plain file
  3
  registry: top/1/a is no plain file
  3
  registry: top/Cargo.toml is no plain file
  3
  registry: top/Cargo.toml is no plain file
  3
  registry: top/in/Cargo.toml is no plain file
  3
  registry: top/in/Cargo.toml is no plain file
  3
  registry: top/Cargo.lock is no plain file
  3
  registry: top/Cargo.lock is no plain file
  3
  $ registry import debian --lines <(cat $data/debian.txt) 2> /dev/null | wc -l
  7

A reader that has enough ends it.

  $ registry import crates-io past --lines 2> told | head -n 1 | cut -c 1-26
  {"op":"publish","name":"lo
  $ cat told
