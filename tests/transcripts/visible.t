Names, versions, words and files that have controls of terminals in them: nothing is shown that a terminal obeys. They
have the title of a terminal's window, a bell, colours by ESC [ and by U+009B, what follows from right to left, and what
ends a line.

  $ evil=$'\e]0;x\a\e[31m\xc2\x9b32m\xe2\x80\xae\x7f\r\n'
  $ told='\x1b]0;x\x07\x1b[31m\x9b32m\u202e\x7f\x0d\x0a'
  $ shown() { "$@" > said 2>&1; LC_ALL=C.UTF-8 grep -P '[\p{C}\p{Zl}\p{Zp}]' said; }
  $ escaped() { shown "$@"; grep -qE '\\x1b|\\u001b' said || echo "no escapes: $@"; }
  $ told() { shown "$@"; grep -qF -- "$told" said || echo "not told: $@"; }

Words.

  $ registry --quiet publish a 1.0.0
  published a 1.0.0 (revision 1)
  $ echo '[]' > a.lock
  $ printf '\nPackage: librust-a-dev\nProvides: librust-a-1.0.0-dev\n' > packages
  $ escaped registry show "$evil"
  $ escaped registry search "$evil"
  $ escaped registry tree a --invert "$evil"
  $ escaped registry "publsh$evil"
  $ escaped registry "--wrong$evil"
  $ escaped registry list "--wrong$evil"
  $ escaped registry import "$evil"
  $ escaped registry resolve a --budget "$evil"
  $ escaped registry serve --mode "$evil"
  $ escaped registry upgrade "$evil" --lock a.lock
  $ escaped registry why a --not "$evil" "$evil"
  $ escaped registry import debian packages --from "$evil"
  $ shown registry publish "$evil" 1.0.0
  [1]
  $ shown registry publish b "$evil"
  [1]
  $ shown registry publish b 1.0.0 "a@$evil"
  [1]
  $ shown registry yank a "$evil"
  [1]
  $ shown registry unyank "$evil" 1.0.0
  [1]
  $ shown registry resolve "a@$evil"
  [1]
  $ shown registry resolve "$evil" --json
  [1]

Files.

  $ told registry list --journal "$evil"
  $ told registry resolve a --lock "$evil"
  $ told registry diff "$evil" "$evil"
  $ told registry check "$evil"
  $ told registry journal verify "$evil"
  $ told registry journal renew "$evil" x
  $ told registry import crates-io "$evil"
  $ told registry import cargo "$evil"
  $ told registry import debian "$evil"
  $ told registry why --asked "$evil"
  $ told registry outdated --lock "$evil"
  $ told registry publish a 1.0.0 --journal "$evil/j"
  $ told registry resolve a --write "$evil.lock"
  $ told registry journal renew registry.journal "${evil}2"
  $ told registry why a --picture "$evil/x"
  $ echo '{"op":"lst"}' > "$evil"
  $ told registry check "$evil"
  $ grep -cF "$told:1:7: error 19" said
  1

A damaged journal.

  $ cat > registry.journal << 'end'
  > registry-journal 2
  > {"op": "publish", "name": "a\u001b]0;x\u0007\u001b[31m\u009b32m\u202e\u007f\r\n", "version": "1.0.0", "needs": []}
  > {"op": "publish", "name": "a", "version": "1\u001b]0;x\u0007\u001b[31m\u009b32m\u202e\u007f\r\n", "needs": []}
  > {"op": "yank\u001b]0;x\u0007\u001b[31m\u009b32m\u202e\u007f\r\n", "name": "a", "version": "1.0.0", "needs": []}
  > end
  $ printf 'raw\033\302\233\342\200\256\nend 4\n' >> registry.journal
  $ for words in "" --json; do
  >   shown registry journal verify registry.journal $words
  >   shown registry journal repair registry.journal --output "new$evil$words" $words
  > done
  [1]
  $ rm "new$evil"
  $ told registry journal repair registry.journal --output "new$evil"
  $ grep -oE '^.* is written|^  line.*' said
  new\x1b]0;x\x07\x1b[31m\x9b32m\u202e\x7f\x0d\x0a is written
    line 2: publish a\x1b]0;x\x07\x1b[31m\x9b32m\u202e\x7f\x0d\x0a 1.0.0
    line 3: publish a 1\x1b]0;x\x07\x1b[31m\x9b32m\u202e\x7f\x0d\x0a
    line 4: yank\x1b]0;x\x07\x1b[31m\x9b32m\u202e\x7f\x0d\x0a a 1.0.0
    line 5: "raw\u001b\u009b\u202e"
