How `./test` counts the tests in Python, whichever process runs them, and that the last one sees what the others noted: over a small
checkout with a kit of scripts. It ends with the count, with the reason for each test that was skipped.

  $ . "$TESTDIR/fake_tree.sh"
  $ passing() { echo 'def test_l(): pass' | tests_in program/test_written_lines.py; }

Each test is counted once. What passed whole was measured.

  $ make_tests
  $ tests_in program/test_first.py << end
  > def test_a():
  >     said.REQUESTS["a"] = 1
  > def test_b():
  >     pass
  > end
  $ tests_in program/test_second.py << end
  > def test_c():
  >     said.REPLIES["c"] = 1
  > def test_d():
  >     assert False
  > @pytest.mark.skip(reason="here")
  > def test_e():
  >     pass
  > end
  $ tests_in program/test_written_lines.py << end
  > def test_g():
  >     said.take()
  >     assert (said.REQUESTS, said.REPLIES) == ({"a": 1}, {"c": 1})
  > end
  $ ends 2
  skipped: tests.program.test_second.test_e: here
  4 passed, 1 failed, 1 skipped
  [1]
  $ cut -d ' ' -f 1 tests/seconds.txt
  test_first.py

Files that cannot be run, and that have no test, fail; so does a process that ends, and what fails when it is cleaned up.

  $ make_tests; passing
  $ echo 'import no_such_module' | tests_in program/test_broken.py
  $ echo 'def nothing(): pass' | tests_in program/test_none.py
  $ ends 2; grep -o no_such_module "$kit/said" | sort -u
  no test ran of tests/program/test_none.py
  1 passed, 2 failed, 0 skipped
  no_such_module
  $ make_tests; passing
  $ echo 'def test_f(): os._exit(3)' | tests_in program/test_ends.py
  $ ends 2
  pytest ended with status 3 and left no report
  1 passed, 1 failed, 0 skipped
  [1]
  $ make_tests; passing
  $ tests_in program/test_cleans.py << end
  > class Case(unittest.TestCase):
  >     @classmethod
  >     def setUpClass(cls):
  >         cls.addClassCleanup(os.rmdir, "/none")
  >     def test_v(self):
  >         pass
  > end
  $ ends 1
  1 passed, 1 failed, 0 skipped
  [1]

A test that waits for ever fails; each of two is run once more, alone. What one file allows itself does not fail there.

  $ make_tests; passing
  $ tests_in program/test_waits.py << end
  > def test_m():
  >     subprocess.run(["sleep", "1000"])
  > def test_n():
  >     pass
  > end
  $ echo 'time.sleep(1000)' | tests_in in_process/test_waits_imported.py
  $ tests_in program/test_longer.py << end
  > class TestLonger:
  >     LONGEST = 100
  >     def test_r(self):
  >         time.sleep(5)
  > end
  $ TEST_SECONDS=4 ends 1; grep -c '^E *AssertionError: it was not answered in 4.0 seconds' "$kit/said"
  3 passed, 2 failed, 0 skipped
  4

A file that fails once is run again, and that is told, with how it failed.

  $ make_tests; passing
  $ tests_in program/test_once.py << end
  > def test_s():
  >     if not os.path.exists("note"):
  >         open("note", "w").close()
  >         assert False, "once"
  > end
  $ ends 2; grep -cE '^E +AssertionError: once' "$kit/said"; grep 'run again, alone:' "$kit/said"
  failed once, passed when run again: test_once.py
  2 passed, 0 failed, 0 skipped
  1
  tests/program/test_once.py failed, so it is run again, alone:

A file that asks for no program finds none.

  $ make_tests; passing
  $ echo 'def test_t(): assert os.environ["PROBE"] == "/a/probe"' | tests_in program/test_asks.py
  $ PROBE=/a/probe ends 1
  2 passed, 0 failed, 0 skipped
  $ mv tests/program/test_asks.py tests/in_process
  $ PROBE=/a/probe ends 1
  1 passed, 1 failed, 0 skipped
  [1]

What could not run is skipped and told, and where nothing may be skipped, it fails.

  $ make_tests; passing
  $ tests_in program/test_skips.py << end
  > class Case(unittest.TestCase):
  >     def test_h(self):
  >         self.skipTest("no etcd")
  >     def test_i(self):
  >         pass
  > end
  $ ends 2
  skipped: tests.program.test_skips.Case.test_h: no etcd
  2 passed, 0 failed, 1 skipped
  $ ends 2 --nothing-skipped
  skipped: tests.program.test_skips.Case.test_h: no etcd
  2 passed, 0 failed, 1 skipped
  [1]
  $ make_tests
  $ tests_in program/test_written_lines.py << end
  > class Case(unittest.TestCase):
  >     @classmethod
  >     def setUpClass(cls):
  >         raise unittest.SkipTest("no rustc")
  >     def test_k(self):
  >         self.fail()
  > end
  $ ends 2
  skipped: tests.program.test_written_lines.Case.test_k: no rustc
  0 passed, 0 failed, 1 skipped
  [1]

Those that take longest, and those that were not measured, begin first.

  $ make_tests; passing
  $ for name in a b c; do cp tests/program/test_written_lines.py tests/program/test_$name.py; done
  $ printf '# seconds\ntest_a.py 1\ntest_b.py 20\ntest_written_lines.py 300\n' > tests/seconds.txt
  $ python3 -m pytest -q --collect-only < /dev/null | grep -o 'test_.*py::' | cut -d / -f 2
  test_c.py::
  test_b.py::
  test_a.py::
  test_written_lines.py::
