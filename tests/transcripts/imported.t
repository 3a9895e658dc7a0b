What `registry import` puts into a journal, and what it can't do.

  $ data=$TESTDIR/../support/data
  $ told() { registry import "$@" 2>&1 | grep -E "^(imported|skipped|resolve alone|in the way|registry)"; }
  $ told crates-io $data/crates-io --from io
  imported: 12 versions of 5 crates, 1 of them yanked (revision 13)
  resolve alone: 5 of 5 crates

What is there already is passed over. solitary needs gone, which is not there; each other one has a selection.

  $ told crates-io $data/crates-io
  imported: 13 versions of 6 crates, 1 of them yanked (revision 14)
  skipped: commands that were carried out before: 13
  resolve alone: 5 of 6 crates
  in the way: no version of gone meets "^5": 1 (first: solitary)
  $ registry list
  fog       0.3.2  2 versions
  io        1.1.0  2 versions
  maker     1.2.3  3 versions
  pad-left  1.0.1  1 version
  q         0.2.0  4 versions, 1 yanked
  solitary  2.0.0  1 version
  $ cp registry.journal sample.journal
  $ registry import crates-io $data/crates-io --json | grep -oE '"(accepted|passed_over|refused|revision|alone)":[0-9]+'
  "accepted":0
  "passed_over":14
  "refused":0
  "revision":14
  $ rm registry.journal
  $ registry import crates-io $data/crates-io --json | grep -oE '"(accepted|passed_over|refused|revision|alone)":[0-9]+'
  "accepted":14
  "passed_over":0
  "refused":0
  "revision":14
  $ cmp registry.journal sample.journal

Names that the journal spells otherwise: of pad-left an own package is there, under the spelling that crates.io takes for
the same.

  $ rm registry.journal
  $ registry --quiet shell > /dev/null << end
  > publish pad_left 1.0.0
  > publish maker 9.0.0
  > end
  $ cp registry.journal before
  $ registry import crates-io $data/crates-io --from fog
  registry: nothing is imported: 1 name differs from the journal's only in - and _ (first: pad-left, which is pad_left there): import into another journal, which --journal FILE names, or add --both-spellings
  [1]
  $ cmp registry.journal before
  $ registry import crates-io $data/crates-io --from fog --both-spellings 2> /dev/null
  imported: 12 versions of 5 crates, 1 of them yanked (revision 15)

By then both are there.

  $ registry import crates-io $data/crates-io --from fog 2> /dev/null
  imported: 12 versions of 5 crates, 1 of them yanked (revision 15)

What stands in the way of a selection: one needs two versions of log, as two that it needs do. Crates that resolve are not
told.

  $ rm registry.journal
  $ entry() { printf '{"name":"%s","vers":"%s","deps":[%s],"cksum":"","features":{},"yanked":false}\n' "$@"; }
  $ need() { printf '{"name":"%s","req":"%s","kind":"normal","optional":false}' "$@"; }
  $ mkdir -p index/3/l index/3/o index/3/n index/bo/th index/us/er
  $ (entry log 1.0.0 ""; entry log 2.0.0 "") > index/3/l/log
  $ entry old 1.0.0 "$(need log ^1)" > index/3/o/old
  $ entry new 1.0.0 "$(need log ^2)" > index/3/n/new
  $ entry both 1.0.0 "$(need old ^1),$(need new ^1)" > index/bo/th/both
  $ entry user 1.0.0 "$(need both "*")" > index/us/er/user
  $ registry import crates-io index
  imported: 6 versions of 5 crates, 0 of them yanked (revision 6)
  resolve alone: 3 of 5 crates
  in the way: two versions of log are needed, and a selection has one: 2 (first: both)

What Cargo locked is kept as a lock file.

  $ rm registry.journal
  $ told cargo $data/cargo --index $data/crates-io --write mine.lock
  imported: 14 versions of 7 crates, 1 of them yanked (revision 15)
  resolve alone: 7 of 7 crates
  registry: mine.lock and mine.needs are written
  $ cat mine.needs
  app =0.3.0
  lib =0.1.0
  $ registry resolve --lock mine.lock --locked
  app 0.3.0
  fog 0.3.2
  io 1.1.0
  lib 0.1.0
  maker 1.2.3
  pad-left 1.0.1
  q 0.1.1

What can't be done.

  $ mkdir bare
  $ import() { registry import $1 --lines "${@:2}"; }
  $ import crates-io bare
  registry: bare has no file at the place that the index of crates.io has for it, as se/rd/serde
  [1]
  $ import cargo bare
  registry: bare has neither a Cargo.toml that can be read nor a Cargo.lock
  [1]
  $ import crates-io $data/crates-io --from zed
  registry: there is no crate zed in the index
  [1]
  $ import debian $data/debian.txt --from padleft
  registry: there is no crate padleft in the index; did you mean pad-left?
  [1]
  $ import crates-io $data/crates-io --from io@new
  registry: io@new: expected the major number of the requirement "new", not "n"
  [1]
  $ import crates-io $data/crates-io --from "io>=1"
  registry: "io>=1" has no @ between the package and the requirement; did you mean "io@>=1"?
  [2]
  $ import crates-io $data/crates-io --ask
  registry: there is nothing to ask for: name it by --from
  [1]
  $ import debian none
  registry: none: No such file or directory
  [3]
  $ import crates-io $data/crates-io --newest 0
  registry: argument --newest: 0 is no number from 1 to 4096: see `registry import crates-io --help`
  [2]
  $ import crates-io
  registry: the following arguments are required: DIR: see `registry import crates-io --help`
  [2]
  $ import npm bare
  registry: import needs one of crates-io, cargo, debian, not npm: see `registry --help`
  [2]
  $ registry import
  registry: import needs one of crates-io, cargo, debian: see `registry --help`
  [2]
  $ registry import debian $data/debian.txt --ask
  registry: --ask needs --lines: `registry resolve` asks the registry
  [2]
  $ for form in crates-io cargo debian; do registry import $form --help | grep -m 1 "^  registry import"; done
    registry import crates-io ~/.cargo/registry/index/index.crates.io-* --from rand@^0.8
    registry import cargo ~/mine --index ~/.cargo/registry/index/index.crates.io-* --write mine.lock
    registry import debian --from reqwest
