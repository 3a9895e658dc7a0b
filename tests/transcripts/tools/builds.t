How `./registryd` and `tools/build` compile, over a small checkout with a kit of scripts.

  $ . "$TESTDIR/fake_tree.sh"

Of two first starts at once one compiles, and the other waits for its end: the compilation goes on until that is told.

  $ make_kit 'while ! cat "${0%/bin/*}"/said.* | grep -q "waits for its end"; do sleep 0.05; done'
  $ registryd a > "$kit/one" 2> "$kit/said.one" &
  $ registryd a > "$kit/two" 2> "$kit/said.two" &
  $ wait; cat "$kit/one" "$kit/two"; cat "$kit"/said.* | grep -c 'waits for its end'; compilations
  checked
  registryd a
  low a
  checked
  registryd a
  low a
  1
  1

Of the sources of the static library the front end is given a copy with a `main` that calls each export with all that it takes. The
exports are found by their names, and the rest is not.

  $ make_tree
  $ build embedded
  embedded: it is compiled first, * (glob)
  embedded: compiled in [0-9]+ s (re)
  */it's a $top/out/compiled/libembedded.a (glob)
  $ grep -E '^define|@begin\(ptr null\)|    begin\(' out/compiled/libembedded.a
  define noundef i32 @begin(ptr noundef %a0) {
  define internal i64 @within() {
    call i32 @begin(ptr null)
      begin(rt.alloc(), &mut slot, b"", &mut first, &mut second, 0);
  $ grep -c 'fn main' crates/embedded/src/lib.rt
  0
  [1]
  $ build embedded
  */it's a $top/out/compiled/libembedded.a (glob)
  $ echo 'echo lower' > crates/low/src/lib.rt
  $ build embedded 2>&1 | head -n 1
  embedded: its sources have changed, so it is compiled first, * (glob)
  $ left

Sources with errors, and no kit: nothing is left of that.

  $ make_tree
  $ echo broken > crates/registryd/src/main.rt
  $ registryd a
  registryd: it is compiled first, * (glob)
  1:broken
  src/main.rt: error[broken]: no program
  registryd: it was not built: its sources cannot be compiled, for the errors above
  [1]
  $ state
  The program is not built yet: its first use compiles it, which takes minutes.
  $ left; ls out/compiled
  $ rm "$kit/bin/rt"
  $ registryd a 2>&1 | grep "kit's command"
  *the kit's command rt is not on the path* (glob)
  $ left; ls out/compiled

A compilation that is broken off leaves nothing, and what it began ends with it.

  $ for number in INT TERM HUP; do
  >   make_tree
  >   make_kit 'exec sleep 30'
  >   env --default-signal "$top/tools/build" > "$kit/output" 2> /dev/null < /dev/null &
  >   while [ "$(compilations)" = 0 ]; do sleep 0.05; done
  >   kill -$number $!
  >   wait $!; echo $?
  >   left; cat "$kit/output"
  >   while [ -e /proc/$(cat "$log")/exe ]; do sleep 0.05; done
  > done
  130
  143
  129
  $ make_kit
  $ registryd 2> /dev/null
  checked
  registryd
  low

Another kit proves it and tells why.

  $ why() {
  >   registryd a 2>&1 | grep -E 'this kit|^proved'
  >   state | cut -c -22
  >   left
  >   build --compiled 2>&1 | grep 'this kit'
  >   return ${PIPESTATUS[0]}
  > }
  $ make_tree
  $ rm "$kit/c/asan.a"
  $ why
  registryd: this kit cannot compile it without a proof, so it is proved: it has no */c/asan.a* (glob)
  proved a
  The program is proved:
  registryd: this kit cannot compile it without a proof; tools/build --proved builds it: it has no */c/asan.a* (glob)
  [1]
  $ make_tree
  $ printf 'class Crate:\n    pass\n' > "$kit/bin/rtlib.py"
  $ why
  registryd: this kit cannot compile it without a proof, so it is proved: its module of crates is another* (glob)
  proved a
  The program is proved:
  registryd: this kit cannot compile it without a proof; tools/build --proved builds it: its module of crates is another* (glob)
  [1]
  $ make_tree
  $ make_kit '' 'case "$*" in *fsanitize*) ;; *) exit 3;; esac'
  $ why
  registryd: this kit cannot compile it without a proof, so it is proved: * gives no module to clang* (glob)
  proved a
  The program is proved:
  registryd: this kit cannot compile it without a proof; tools/build --proved builds it: * gives no module to clang* (glob)
  [1]
  $ make_tree
  $ make_kit '' 'case "$*" in *O1*) echo other; exit 1;; esac'
  $ why
  registryd: this kit cannot compile it without a proof, so it is proved: * does not compile the module: other* (glob)
  proved a
  The program is proved:
  registryd: this kit cannot compile it without a proof; tools/build --proved builds it: * does not compile the module: other* (glob)
  [1]
