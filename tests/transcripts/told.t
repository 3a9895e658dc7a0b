How much `registry` tells besides: what `--quiet` leaves out, and what `--verbose` says of each request.

  $ registry --quiet shell > /dev/null << end
  > publish log 1.0.0
  > publish log 1.2.0
  > publish app 1.0.0 log@^1
  > publish web 1.0.0 'log@>=2, <3'
  > end
  $ registry publish x 1.0.0 y -q
  published x 1.0.0 (revision 5)
  $ registry resolve app --write app.lock --quiet
  app 1.0.0
  log 1.2.0
  $ registry -q yank app 2.0.0
  registry: app 2.0.0 is not published; there is 1.0.0
  [1]
  $ registry -q resolve web 2>&1 | grep -o 'resolving failed'
  resolving failed
  $ for word in -v --verbose; do registry $word resolve app 2>&1 | sed -E 's/[0-9]+\.[0-9]{3} s$/SECONDS/'; done
  registry: asking {"op":"resolve","needs":[["app","*"]],"lock":[],"explain":true}
  registry: answered in SECONDS
  app 1.0.0
  log 1.2.0
  registry: asking {"op":"resolve","needs":[["app","*"]],"lock":[],"explain":true}
  registry: answered in SECONDS
  app 1.0.0
  log 1.2.0

What is long is cut off.

  $ registry -v resolve $(seq -f a-name-that-is-long-%g 20) 2>&1 | sed -n '1s/^registry: asking //p' | sed 's/..$/[&]/' | tee shown | grep -o '\[\.\.\]$'
  [..]
  $ wc -m < shown
  205

The help of a subcommand.

  $ registry help resolve | cmp - <(registry resolve --help)
  $ registry help journal verify | cmp - <(registry journal verify --help)
  $ registry help | cmp - <(registry --help)
  $ registry help publsh
  registry: there is no subcommand publsh; did you mean publish? See `registry --help`
  [2]
