What fish is offered for the last word.

  $ command -v fish > /dev/null || exit 80
  $ registry --quiet shell > /dev/null << end
  > publish log 1.0.0
  > publish log 1.1.0
  > publish lock 2.0.0
  > publish app 1.0.0
  > end
  $ registry --completion fish > script
  $ offered() { fish --no-config -c "source script; complete -C '$1'" | sort; }
  $ offered "registry sho"
  show
  $ offered "registry show lo"
  lock
  log
  $ offered "registry yank log 1.1"
  1.1.0
  $ offered "registryd serve --workers 6"
  64
  $ offered "registryd serve --workers=6"
  --workers=64
  $ offered "registryd race reg"
  registry.journal
