What zsh is offered for the last word.

  $ command -v zsh > /dev/null || exit 80
  $ registry --quiet shell > /dev/null << end
  > publish log 1.0.0
  > publish log 1.1.0
  > publish lock 2.0.0
  > publish app 1.0.0
  > end
  $ echo '[]' > app.lock
  $ registry --completion zsh > script
  $ cat > offer << 'end'
  > compdef() { echo told: $@ }
  > _files() { echo files: $@ }
  > compadd() { print -rl -- ${@:2} }
  > . ./script
  > words=("$@") CURRENT=$#words
  > _registry
  > end
  $ offered() { zsh -f offer "$@"; }
  $ offered registry sho
  told: _registry registry registryd
  show
  $ offered registry show l | tail -n +2
  lock
  log
  $ offered registry diff app | tail -n +2
  files:
  $ offered registry import cargo '' | tail -n +2
  files: -/
  $ offered registryd serve --workers 6 | tail -n +2
  64
