`registry import`: the lines and counts of each sample are worked by hand from what the pages of crates.io's index, of Cargo
and of Debian say.

  $ data=$TESTDIR/../support/data
  $ entry() { printf '{"name":"%s","vers":"%s","deps":[%s],"cksum":"","features":{},"yanked":false}\n' "$@"; }
  $ changes() { diff -U 0 "$@" | grep '^[-+][^-+]'; }
  $ need() { printf '{"name":"%s","req":"%s","kind":"normal","optional":false}' "$@"; }

A copy of crates.io's index. fog 0.3.1 is a cut line, io 1.2.0 asks ">0.1 <0.4" without a comma, pad-left 1.0.0 needs
pad-left ^0.9, maker 1.2.0+second equals 1.2.0+first, and pad_left is pad-left's name but for `_`.

  $ registry import crates-io --lines $data/crates-io 2> counts | tee lines
  {"op":"publish","name":"fog","version":"0.3.0","needs":[["q","^0.1, >=0.1.1"]]}
  {"op":"publish","name":"fog","version":"0.3.2","needs":[["pad-left","^1"],["q","^0.1"]]}
  {"op":"publish","name":"io","version":"1.0.0","needs":[]}
  {"op":"publish","name":"io","version":"1.1.0","needs":[["fog","^0.3"],["maker","~1.2"]]}
  {"op":"publish","name":"maker","version":"1.2.0+first","needs":[]}
  {"op":"publish","name":"maker","version":"1.3.0-beta.1","needs":[]}
  {"op":"publish","name":"maker","version":"1.2.3","needs":[]}
  {"op":"publish","name":"pad-left","version":"1.0.1","needs":[]}
  {"op":"publish","name":"q","version":"0.1.0","needs":[]}
  {"op":"publish","name":"q","version":"0.1.1","needs":[]}
  {"op":"publish","name":"q","version":"0.1.2","needs":[]}
  {"op":"yank","name":"q","version":"0.1.2"}
  {"op":"publish","name":"q","version":"0.2.0","needs":[["io","^1"]]}
  {"op":"publish","name":"solitary","version":"2.0.0","needs":[["gone","^5"]]}
  $ cat counts
  written: 13 versions of 6 crates, 1 of them yanked
  left out: crates named as another one but for `-`, `_` and capitals: 1 (first: pad_left, as pad-left)
  left out: dependencies from another registry: 1 (first: solitary 2.0.0 needs away)
  left out: dependencies of a version on itself: 1 (first: solitary 2.0.0 needs solitary "^2")
  left out: dev dependencies: 1 (first: io 1.1.0 needs tester)
  left out: lines that are of no known form: 1 (first: 3/f/fog:2: {"name":"fog","vers":"0.3.1","deps":)
  left out: optional dependencies: 1 (first: io 1.1.0 needs helper)
  left out: versions that need another version of their own crate: 1 (first: pad-left 1.0.0 needs pad-left "^0.9")
  left out: versions that need what is refused as a name or a requirement: 1 (first: io 1.2.0 needs fog ">0.1 <0.4")
  left out: versions whose precedence another one has: 1 (first: maker 1.2.0+second)
  missing: requirements on crates that are not there: 1 (first: solitary 2.0.0 needs gone "^5")
  rewritten: crates needed by several requirements, all of which have to be met: 1 (first: fog 0.3.0 needs q "^0.1, >=0.1.1")
  rewritten: versions of crates with capitals in their names, in small letters: 2 (first: Pad-Left)

The program accepts every line.

  $ registryd serve --workers 1 --save sample.journal < lines | grep -c '{"ok":true'
  14

Only what is reached is written and asked for.

  $ registry import crates-io --lines $data/crates-io --from io@^1 Pad_Left --ask 2> reached | changes lines -
  -{"op":"publish","name":"solitary","version":"2.0.0","needs":[["gone","^5"]]}
  +{"op":"resolve","needs":[["io","^1"],["pad-left","*"]],"explain":true}
  $ changes counts reached
  -written: 13 versions of 6 crates, 1 of them yanked
  +written: 12 versions of 5 crates, 1 of them yanked
  -left out: dependencies from another registry: 1 (first: solitary 2.0.0 needs away)
  -left out: dependencies of a version on itself: 1 (first: solitary 2.0.0 needs solitary "^2")
  -missing: requirements on crates that are not there: 1 (first: solitary 2.0.0 needs gone "^5")

Only the newest are written, the yanked ones last.

  $ registry import crates-io --lines $data/crates-io --from q maker --newest 2 2> newest | cut -d '"' -f 8,12
  fog"0.3.0
  fog"0.3.2
  io"1.0.0
  io"1.1.0
  maker"1.3.0-beta.1
  maker"1.2.3
  pad-left"1.0.1
  q"0.1.1
  q"0.2.0
  $ grep -E "^written|newest ones" newest
  written: 9 versions of 5 crates, 0 of them yanked
  left out: versions below the 2 newest ones of their crate: 3 (first: maker 1.2.0+first)

Entries without a requirement, with names or versions that are refused, under another name, of no known form, or that
nest too deeply.

  $ mkdir -p index/1 index/2
  $ try() { cat > index/1/a; registry import crates-io --lines index; }
  $ (entry a 1.0.0 "$(need b "")"; entry a 1.0.1 "$(need b " *")") | try
  {"op":"publish","name":"a","version":"1.0.1","needs":[["b","*"]]}
  written: 1 versions of 1 crates, 0 of them yanked
  left out: versions that need what is refused as a name or a requirement: 1 (first: a 1.0.0 needs b "")
  missing: requirements on crates that are not there: 1 (first: a 1.0.1 needs b "*")
  $ entry 9a 1.0.0 "" > index/2/9a
  $ (entry a 1.0 ""; entry a 1.0.0 ""; entry a 01.0.0 "") | try
  {"op":"publish","name":"a","version":"1.0.0","needs":[]}
  written: 1 versions of 2 crates, 0 of them yanked
  left out: versions whose text, or whose crate's name, is refused: 3 (first: 9a 1.0.0)
  $ rm index/2/9a
  $ (entry b 1.0.0 ""; entry A 1.0.0 ""; entry a 1.1.0 "") | try
  {"op":"publish","name":"a","version":"1.0.0","needs":[]}
  {"op":"publish","name":"a","version":"1.1.0","needs":[]}
  written: 2 versions of 1 crates, 0 of them yanked
  left out: lines that are of no known form: 1 (first: 1/a:1: {"name":"b","vers":"1.0.0","deps":[],"cksum":"","features":{)
  rewritten: versions of crates with capitals in their names, in small letters: 1 (first: A)
  $ deep=$(printf %0100000d 0 | tr 0 [)
  $ (entry a 1.1.0 ""; echo "$deep"; echo '{"name":"a","vers":"1.0.0","deps":'"$deep") | try
  {"op":"publish","name":"a","version":"1.1.0","needs":[]}
  written: 1 versions of 1 crates, 0 of them yanked
  left out: lines that are of no known form: 2 (first: 1/a:2: [[[[[[[[[[[[[[[[[[[[[[[[[[[[[[[[[[[[[[[[[[[[[[[[[[[[[[[[[[[[)
  $ (entry a 1.1.0 ""; entry a 1.0.0 '{"name":7,"req":"^1"}'; entry a 1.0.0 '{"name":"b","req":[]}') | try
  {"op":"publish","name":"a","version":"1.1.0","needs":[]}
  written: 1 versions of 1 crates, 0 of them yanked
  left out: lines that are of no known form: 2 (first: 1/a:2: {"name":"a","vers":"1.0.0","deps":[{"name":7,"req":"^1"}],"c)

The sample workspace selects what Cargo 1.95.0 wrote into its Cargo.lock, with the lock and without it.

  $ registry import cargo --lines $data/cargo --index $data/crates-io --ask 2> counts > asked
  $ head -n 1 counts
  written: 14 versions of 7 crates, 1 of them yanked
  $ changes lines asked
  +{"op":"publish","name":"app","version":"0.3.0","needs":[["lib","=0.1.0"],["io","1"],["fog","0.3"]]}
  +{"op":"publish","name":"lib","version":"0.1.0","needs":[["pad-left","1"],["maker",">=1.2, <1.3"]]}
  -{"op":"publish","name":"solitary","version":"2.0.0","needs":[["gone","^5"]]}
  +{"op":"resolve","needs":[["app","=0.3.0"],["lib","=0.1.0"]],"lock":[["app","0.3.0"],["fog","0.3.2"],["io","1.1.0"],["lib","0.1.0"],["maker","1.2.3"],["pad-left","1.0.1"],["q","0.1.1"]],"explain":true}
  $ (cat asked; tail -n 1 asked | sed 's/"lock":.*]]/"lock":[]/') | registryd serve --workers 1 | tail -n 2 | sort -u
  {"revision":15,"selected":[["app","0.3.0"],["fog","0.3.2"],["io","1.1.0"],["lib","0.1.0"],["maker","1.2.3"],["pad-left","1.0.1"],["q","0.1.1"]]}
  $ grep -A 1 ^name $data/cargo/Cargo.lock | grep -o '"[^"]*"' | tr -d '"' | paste -d ' ' - - | tr A-Z a-z | sort
  app 0.3.0
  fog 0.3.2
  io 1.1.0
  lib 0.1.0
  maker 1.2.3
  pad-left 1.0.1
  q 0.1.1

Without an index a locked crate needs what was taken for it.

  $ registry import cargo --lines $data/cargo
  {"op":"publish","name":"app","version":"0.3.0","needs":[["lib","=0.1.0"],["io","1"],["fog","0.3"]]}
  {"op":"publish","name":"fog","version":"0.3.2","needs":[["pad-left","=1.0.1"],["q","=0.1.1"]]}
  {"op":"publish","name":"io","version":"1.1.0","needs":[["fog","=0.3.2"],["maker","=1.2.3"]]}
  {"op":"publish","name":"lib","version":"0.1.0","needs":[["pad-left","1"],["maker",">=1.2, <1.3"]]}
  {"op":"publish","name":"maker","version":"1.2.3","needs":[]}
  {"op":"publish","name":"pad-left","version":"1.0.1","needs":[]}
  {"op":"publish","name":"q","version":"0.1.1","needs":[]}
  written: 7 versions of 7 crates, 0 of them yanked
  rewritten: versions that only Cargo.lock has, with the dependencies that it locks: 5 (first: fog 0.3.2)

A lock with two versions of a crate.

  $ mkdir two
  $ cat > two/Cargo.lock << end
  > version = 3
  > [[package]]
  > name = "mine"
  > version = "1.0.0"
  > dependencies = ["syn 1.0.9", "two"]
  > [[package]]
  > name = "syn"
  > version = "1.0.9"
  > source = "registry+https://example.org/index"
  > [[package]]
  > name = "syn"
  > version = "1.0.10"
  > source = "registry+https://example.org/index"
  > [[package]]
  > name = "two"
  > version = "0.1.0"
  > source = "registry+https://example.org/index"
  > dependencies = ["syn 1.0.10 (registry+https://example.org/index)"]
  > end
  $ registry import cargo --lines two --ask > lines
  written: 4 versions of 3 crates, 0 of them yanked
  left out: lower versions of a crate that Cargo.lock has several times: 1 (first: syn 1.0.9, 1.0.10)
  rewritten: versions that only Cargo.lock has, with the dependencies that it locks: 4 (first: mine 1.0.0)
  $ cat lines
  {"op":"publish","name":"mine","version":"1.0.0","needs":[["syn","=1.0.9"],["two","=0.1.0"]]}
  {"op":"publish","name":"syn","version":"1.0.9","needs":[]}
  {"op":"publish","name":"syn","version":"1.0.10","needs":[]}
  {"op":"publish","name":"two","version":"0.1.0","needs":[["syn","=1.0.10"]]}
  {"op":"resolve","needs":[["mine","=1.0.0"]],"lock":[["mine","1.0.0"],["syn","1.0.10"],["two","0.1.0"]],"explain":true}
  $ registryd serve --workers 1 < lines | tail -n 1 | grep -o '"refused":true'
  "refused":true

Each form of a dependency.

  $ mkdir -p forms/in/inner forms/in/beside forms/in/out forms/bad forms/vendor/plain forms/target/far
  $ cat > forms/Cargo.toml << end
  > [package]
  > name = "root"
  > [workspace]
  > members = ["in/*"]
  > exclude = ["in/out"]
  > [workspace.dependencies]
  > shared = { version = "2", features = ["x"] }
  > beside = { path = "in/beside" }
  > [dependencies]
  > plain = "1.2"
  > renamed = { package = "Long_Name", version = "~3" }
  > chosen = { version = "1", optional = true }
  > shared.workspace = true
  > [target.'cfg(unix)'.build-dependencies]
  > shared = { workspace = true }
  > far = { git = "https://example.org/far" }
  > [dev-dependencies]
  > tests = "*"
  > end
  $ cat > forms/in/inner/Cargo.toml << end
  > [package]
  > name = "inner"
  > version = "0.1.0-pre"
  > [dependencies]
  > beside.workspace = true
  > shared = { workspace = true, optional = true }
  > away = { path = "../../../away" }
  > end
  $ printf '[package]\nname = "beside"\nversion = "4.0.0"\n' > forms/in/beside/Cargo.toml
  $ printf '[package]\nname = "out"\nversion = "1.0.0"\n' > forms/in/out/Cargo.toml
  $ echo '[package' > forms/bad/Cargo.toml
  $ printf '[package]\nname = "plain"\nversion = "1.2.5"\n[dependencies]\nshared = "=2.0.0"\n' > forms/vendor/plain/Cargo.toml
  $ touch forms/target/CACHEDIR.TAG
  $ printf '[package]\nname = "far"\nversion = "9.0.0"\n' > forms/target/far/Cargo.toml
  $ registry import cargo --lines forms --ask 2>&1 | sed 's/Cargo.toml: .*/Cargo.toml)/'
  {"op":"publish","name":"beside","version":"4.0.0","needs":[]}
  {"op":"publish","name":"inner","version":"0.1.0-pre","needs":[["beside","=4.0.0"],["away","*"]]}
  {"op":"publish","name":"plain","version":"1.2.5","needs":[["shared","=2.0.0"]]}
  {"op":"publish","name":"root","version":"0.0.0","needs":[["plain","1.2"],["long_name","~3"],["shared","2"],["far","*"]]}
  {"op":"resolve","needs":[["beside","=4.0.0"],["inner","=0.1.0-pre"],["root","=0.0.0"]],"explain":true}
  written: 4 versions of 4 crates, 0 of them yanked
  left out: dev dependencies: 1 (first: root 0.0.0 needs tests)
  left out: manifests that can't be read: 1 (first: bad/Cargo.toml)
  left out: optional dependencies: 2 (first: inner 0.1.0-pre needs shared)
  missing: requirements on crates that are not there: 5 (first: inner 0.1.0-pre needs away "*")
  rewritten: dependencies without a version, of git or on a path outside, as dependencies on any version: 2 (first: inner 0.1.0-pre needs away)

What nests too deeply.

  $ mkdir -p nested/deep
  $ printf '[package]\nname = "plain"\nversion = "1.2.5"\n' > nested/Cargo.toml
  $ (echo 'a = "b"'; printf 'c = '; printf %05000d 0 | tr 0 [; printf %05000d 0 | tr 0 ]; echo) > nested/deep/Cargo.toml
  $ registry import cargo --lines nested
  {"op":"publish","name":"plain","version":"1.2.5","needs":[]}
  written: 1 versions of 1 crates, 0 of them yanked
  left out: manifests that can't be read: 1 (first: deep/Cargo.toml: its values nest too deeply)
  $ cp nested/deep/Cargo.toml nested/Cargo.lock
  $ registry import cargo --lines nested 2>&1 | sed "s,$PWD/,,"
  registry: nested/Cargo.lock can't be read: its values nest too deeply

What Debian packages.

  $ registry import debian --lines $data/debian.txt
  {"op":"publish","name":"big","version":"0.3.60","needs":[["none","^9.1"]]}
  {"op":"publish","name":"fog","version":"1.4.2","needs":[["q","^0.3.2"],["pad-left",">=1.5, <3"]]}
  {"op":"publish","name":"pad-left","version":"1.5.0","needs":[]}
  {"op":"publish","name":"pad-left","version":"2.0.0","needs":[["big","<0.4"],["sha-1","^0.9"],["io","~1.2, =1.2.3"]]}
  {"op":"publish","name":"q","version":"0.3.7","needs":[]}
  {"op":"publish","name":"really","version":"0.4.1","needs":[["big",">=0.3.5"],["q","=0.3.7"]]}
  {"op":"publish","name":"sha-1","version":"0.9.8","needs":[["fog","^1"],["q","^0.2"]]}
  written: 7 versions of 6 crates, 0 of them yanked
  left out: alternatives after the first: 2 (first: sha-1 0.9.8 needs librust-either-1-dev | librust-fog-1-dev)
  left out: dependencies on packages that are no crates: 1 (first: fog 1.4.2 needs libfog3-dev (>= 3))
  left out: packages of features, with what they need: 1 (first: librust-fog+net-dev)
  missing: requirements on crates that are not there: 2 (first: big 0.3.60 needs none "^9.1")
  missing: requirements that no version there meets: 1 (first: sha-1 0.9.8 needs q "^0.2")
  rewritten: crates needed by several requirements, all of which have to be met: 1 (first: pad-left 2.0.0 needs io "~1.2, =1.2.3")
  rewritten: pre-releases, which Debian provides by their numbers alone: 1 (first: pad-left 2.0.0~rc.1)
  $ registry import debian --lines $data/debian.txt --from sha_1 --ask 2> /dev/null | registryd serve --workers 1 | tail -n 1 | grep -o '"1\. never[^,]*,[^,]*'
  "1. never (the request), because sha-1 {0.9.8} needs q \"^0.2\" in {} and the request needs sha-1 \"*\" in {0.9.8}"

A machine without apt, or without its index.

  $ mkdir bare
  $ ln -s $(readlink -f $(which python3)) bare/python3
  $ registry=$(which registry)
  $ (PATH=$PWD/bare; $registry import debian)
  registry: apt-cache can't be asked: [Errno 2] No such file or directory: 'apt-cache'
  [1]
  $ printf '#!/bin/sh\necho Package: fog\n' > bare/apt-cache
  $ chmod +x bare/apt-cache
  $ (PATH=$PWD/bare; $registry import debian)
  registry: there are no packages librust-..-dev: on a Debian machine `apt-get update` fetches the index
  [1]
