Which programs `./test` notes as proved, which it compiles, and which ones its tests in Python run: over a small checkout with a kit of
scripts, and two files of tests, which tell which programs they ran.

  $ . "$TESTDIR/fake_tree.sh"
  $ make_two() {
  >   make_tests
  >   echo 'def test_b(): pass' | tests_in program/test_written_lines.py
  >   tests_in program/test_first.py << end
  > from dev.building.programs import TOP, path_for_tests
  > PATHS = {name.upper(): path_for_tests(name) for name in ("registryd", "probe", "embedded")}
  > def test_a():
  >     with open(TOP / "told", "w") as file:
  >         for name in ("REGISTRYD", "PROBE"):
  >             print(subprocess.run([PATHS[name]], stdout=subprocess.PIPE, text=True).stdout, file=file)
  >         if os.path.exists(PATHS["EMBEDDED"]):
  >             print("library of", open(PATHS["EMBEDDED"]).readline(), file=file)
  > end
  > }

A gate that failed notes nothing, and neither does one whose sources were changed meanwhile.

  $ make_two
  $ cp dev/building/proof_seconds.txt "$kit/seconds"
  $ FAIL=1 tested > "$kit/said" 2>&1
  [1]
  $ state; cmp dev/building/proof_seconds.txt "$kit/seconds"
  The program is not built yet: its first use compiles it, which takes minutes.
  $ CHANGE=$top/crates/low/proofs/Lib.antt tested 2>&1 | grep -o 'its sources were changed while they were proved' | sort -u
  its sources were changed while they were proved
  $ state
  The program is not built yet: its first use compiles it, which takes minutes.

A quick run compiles, and says that nothing was proved. The library is left to a whole run.

  $ make_tree; make_two
  $ printf 'import pytest\npytestmark = pytest.mark.not_quick("it is long")\ndef test_d(): pass\n' > tests/program/test_long.py
  $ tested --quick 2>&1 | tail -n 4
  left to ./test: 1 of 2 files of tests
  left to ./test (it is long): test_long.py
  nothing was proved in this run: ./test proves everything
  2 passed, 0 failed, 0 skipped
  $ grep -c ^checked told; compilations
  2
  2
  $ state
  The program is compiled from these sources, with checks as it runs. It is not proved on this machine: ./test does that.
  $ tested --quick > /dev/null 2>&1; compilations
  2

`--tools` takes what stands of just these sources.

  $ tested --tools 2>&1 | grep -o 'no .* stands of just these sources'
  no embedded stands of just these sources
  $ build embedded > /dev/null 2>&1
  $ tested --tools > /dev/null 2>&1
  $ echo 'echo lower' > crates/low/src/lib.rt
  $ tested --tools 2>&1 | grep -o 'no .* stands of just these sources'
  no registryd or probe or embedded stands of just these sources

What asks for no program runs while they are compiled: no compilation ends before.

  $ make_tree; make_two
  $ echo 'def test_c(): open("note", "w").close()' | tests_in in_process/test_asks_none.py
  $ make_kit "while [ ! -e '${top//\'/\'\\\'\'}/note' ]; do sleep 0.1; done"
  $ tested --quick 2>&1 | tail -n 1
  3 passed, 0 failed, 0 skipped

The gate notes what it proved, and what each proof took.

  $ make_tree; make_two
  $ tested > "$kit/said" 2>&1
  $ grep -F 'embedded: the static library' "$kit/said"; tail -n 1 "$kit/said" | cut -d , -f 1,2
  embedded: the static library is proved and built
  5 passed, 0 failed
  $ grep . told
  proved
  proved
  library of proved
  $ state
  The program is proved: just these sources were proved before it was built.
  $ build embedded
  */it's a $top/out/proved/libembedded.a (glob)
  $ registryd a
  proved a
  $ cut -d ' ' -f 1 dev/building/proof_seconds.txt
  #
  #
  low
  registryd
  probe
  other
  embedded
