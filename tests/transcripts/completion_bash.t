What bash is offered for the last word.

  $ registry --quiet shell > /dev/null << end
  > publish log 1.0.0
  > publish log 1.1.0
  > publish lock 2.0.0
  > publish app 1.0.0
  > end
  $ echo '[]' > app.lock
  $ registry --completion bash > script
  $ . ./script
  $ compopt() { echo "options: $*"; }
  $ offered() { COMP_WORDS=("$@") COMP_CWORD=$(($# - 1)); _registry "$1"; printf '%s\n' "${COMPREPLY[@]}"; }
  $ offered registry sho
  show
  $ offered registry show l
  lock
  log
  $ offered registry show x | cat -A
  $
  $ offered registry diff app
  options: -o filenames
  app.lock
  $ offered registryd serve --workers = 6
  64
  $ complete -p registry registryd
  complete -F _registry registry
  complete -F _registry registryd
