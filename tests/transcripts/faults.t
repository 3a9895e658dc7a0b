Journals at fault: what `registry journal verify` says of the line that is, and which line the program names.

  $ a='{"name":"a","needs":[["b","^1.0.0"]],"op":"publish","version":"1.0.0"}'
  $ b='{"name":"b","needs":[["c","^1.0.0"]],"op":"publish","version":"1.0.0"}'
  $ c='{"name":"c","needs":[],"op":"publish","version":"1.0.0"}'
  $ learn='{"derivation":[{"causes":[{"fact":"premise","name":"a","need":"^1.0.0","target":"b","versions":[0],"within":[0]},{"fact":"premise","name":"b","need":"^1.0.0","target":"c","versions":[0],"within":[0]}],"conclusion":[["a",true,[0]],["c",false,[0]]],"pivot":"b"}],"op":"learn"}'
  $ yank='{"name":"c","op":"yank","version":"1.0.0"}'
  $ lines() { printf '%s\n' "$@"; }
  $ whole() { lines "registry-journal 2" "$@" "end $#"; }
  $ c1='{"name":"c","needs":[],"op":"publish","version":"1.1.0"}'
  $ fault() {
  >   cat > x.journal
  >   registry journal verify x.journal | sed -n 's/^x.journal://p'
  >   registryd serve --workers 1 --load x.journal < /dev/null
  > }

  $ lines hello | fault
  1: at fault: the first line is "hello": a journal begins with registry-journal 1 or registry-journal 2
  registryd: journal line 1
  [1]
  $ printf %s hello | fault
  1: at fault: the first line is "hello" without a line feed: a journal begins with registry-journal 1 or registry-journal 2
  registryd: journal line 1
  [1]
  $ whole "$c" | sed '1s/^/\xef\xbb\xbf/' | fault
  1: at fault: the first line is "\ufeffregistry-journal 2": a journal begins with registry-journal 1 or registry-journal 2
  registryd: journal line 1
  [1]
  $ lines 'registry-journal 3' "$a" 'end 1' | fault
  1: at fault: the first line is "registry-journal 3": a journal begins with registry-journal 1 or registry-journal 2
  registryd: journal line 1
  [1]
  $ lines 'registry-journal 2' "$a" 'end 2' | fault
  3: at fault: it is "end 2", where end 1 should stand
  registryd: journal line 3
  [1]
  $ lines 'registry-journal 2' "$a" 'end 01' | fault
  3: at fault: it is "end 01", where end 1 should stand
  registryd: journal line 3
  [1]
  $ lines 'registry-journal 2' "$a" 'end 1' "$b" | fault
  4: at fault: there is something after the end line
  registryd: journal line 4
  [1]
  $ (lines 'registry-journal 2' "$a" 'end 1'; printf x) | fault
  4: at fault: there is something after the end line
  registryd: journal line 4
  [1]
  $ whole '{"name":"a", "needs":[["b","^1.0.0"]],"op":"publish","version":"1.0.0"}' | fault
  2: at fault: column 13: there is white space here, and the program writes it differently
  registryd: journal line 2
  [1]
  $ whole "$c"$'\r' | fault
  2: at fault: column 57: there is white space here, and the program writes it differently
  registryd: journal line 2
  [1]
  $ whole '{"name":"\u0063","needs":[],"op":"publish","version":"1.0.0"}' | fault
  2: at fault: column 10: there is an escape here, and the program writes it differently
  registryd: journal line 2
  [1]
  $ whole "$c" '{"op":"yank","name":"c","version":"1.0.0"}' | fault
  3: at fault: column 3: the members are not once each in the order of their names, and the program writes it differently
  registryd: journal line 3
  [1]
  $ whole "$c" '{"name":"c","name":"c","op":"yank","version":"1.0.0"}' | fault
  3: at fault: column 14: the members are not once each in the order of their names, and the program writes it differently
  registryd: journal line 3
  [1]
  $ whole "$c" '{"name":"c","op":"yank","version":"1.0.0"' | fault
  3: at fault: column 42: the line ends and the object that begins at column 1 is not closed: a request must be on one line
  registryd: journal line 3
  [1]
  $ whole "$c" "$c" | fault
  3: at fault: 7 AlreadyPublished: c 1.0.0 is published already, and a publication is permanent: choose another version
  registryd: journal line 3
  [1]
  $ whole "$yank" | fault
  2: at fault: 11 NoSuchVersion: no version of c is published
  registryd: journal line 2
  [1]
  $ whole "$c" "$yank" "$yank" | fault
  4: at fault: 12 AlreadyYanked: c 1.0.0 is yanked already
  registryd: journal line 4
  [1]
  $ whole '{"name":"C","needs":[],"op":"publish","version":"1.0.0"}' | fault
  2: at fault: column 10: 1 BadName: the capital letter "C", byte 1 of the name "C", is not one of a-z, 0-9, - and _; did you mean "c"?
  registryd: journal line 2
  [1]
  $ whole '{"name":"a","needs":[["b","~> 1"]],"op":"publish","version":"1.0.0"}' | fault
  2: at fault: column 28: 3 BadRequirement: the operator ~> of Ruby is not one of Cargo's, which are ^ ~ = > >= < <=; did you mean "^1"?
  registryd: journal line 2
  [1]
  $ whole '{"op":"list"}' | fault
  2: at fault: it is not a publication, yank, unyank or learnt line
  registryd: journal line 2
  [1]
  $ whole '{"name":"c","needs":[],"op":"yank","version":"1.0.0"}' | fault
  2: at fault: column 13: 19 BadLine: a yank line has no member "needs"; it has "op", "name" and "version"
  registryd: journal line 2
  [1]
  $ whole '[]' | fault
  2: at fault: it is no object
  registryd: journal line 2
  [1]
  $ whole $(printf %01048577d 0) | fault
  2: at fault: the line has more than 1,048,576 bytes
  registryd: journal line 2
  [1]
  $ whole "$a" "$b" "$c" "$(sed 's/\[0]]],/[1]]],/' <<< "$learn")" | fault
  5: at fault: line 1 of it: the conclusion is not what the causes give on b
  registryd: journal line 5
  [1]
  $ whole "$a" "$learn" "$b" "$c" | fault
  3: at fault: no package is named c at its place
  registryd: journal line 3
  [1]
  $ whole "$a" "$b" "$c" "$learn" "$learn" | fault
  6: at fault: what it concludes is stored already, by line 5
  registryd: journal line 6
  [1]
  $ whole "$a" "$b" "$c" "$c1" "$learn" | fault
  6: at fault: line 1 of it: a version of c that meets "^1.0.0" is left out
  registryd: journal line 6
  [1]
  $ lines 'registry-journal 1' "$a" "$b" "$c" "$learn" 'end 4' | fault
  5: at fault: a journal of the first format has nothing that was learnt
  registryd: journal line 5
  [1]
  $ whole "$a" "$b" "$c" "$(sed 's/"fact":"premise","name":"b"[^}]*/"fact":"root"/' <<< "$learn")" | fault
  5: at fault: line 1 of it rests on a request
  registryd: journal line 5
  [1]
  $ whole "$a" "$b" "$c" "$(sed 's/"pivot":"b"/"pivot":1/' <<< "$learn")" | fault
  5: at fault: column 256: "pivot" is a package name, not a number
  registryd: journal line 5
  [1]
  $ whole "$a" "$b" "$c" '{"derivation":[],"op":"learn"}' | fault
  5: at fault: it has 0 lines, and 1 to 256 are allowed
  registryd: journal line 5
  [1]

What is whole, and what is cut: in the midst of its end, of a line or of the first one, and behind each.

  $ state() { cat > x.journal; registry journal verify x.journal | sed -E 's/^x.journal: (whole|cut): (format ., )?/\1: /; s/, which is not finished.*//'; }
  $ whole "$a" "$b" "$c" "$learn" "$yank" > held
  $ state < held
  whole: 4 commands and 1 learnt, revision 4
  $ whole | state
  whole: 0 commands and 0 learnt, revision 0
  $ whole "$a" "$c" | sed '1s/2/1/' | state
  whole: 2 commands and 0 learnt, revision 2
  $ head -c -1 held | state
  cut: 4 commands and 1 learnt, revision 4; its last line is 7
  $ head -c -6 held | state
  cut: 4 commands and 1 learnt, revision 4; its last line is 7
  $ head -c -7 held | state
  cut: 3 commands and 1 learnt, revision 3; its last line is 6
  $ echo registry-journal 2 | state
  cut: 0 commands and 0 learnt, revision 0; its last line is 2
  $ printf 'registry-journal 2\nend' | state
  cut: 0 commands and 0 learnt, revision 0; its last line is 2
  $ for beginning in 'registry-journal 2' regis ''; do printf %s "$beginning" | state; done
  cut: no items, revision 0; its last line is 1
  cut: no items, revision 0; its last line is 1
  cut: no items, revision 0; its last line is 1
  $ (lines 'registry-journal 2' "$a"; printf '\0\0') | state
  cut: 1 command and 0 learnt, revision 1; its last line is 3
