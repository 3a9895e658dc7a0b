"""How pytest runs the tests of this repository: in which order, how long each may take, and that what was said in them
is kept."""
import contextlib
import os
import shutil
import sys
import tempfile
import unittest

import pytest

from dev import measured
from tests.support import said
from tests.support.time_limit import limited

# What each file took, so that those that take longest begin first, and those that nobody has measured.
MEASURED = os.path.join(os.path.dirname(os.path.abspath(__file__)), "tests", "seconds.txt")
# The seconds of a test, in case that it waits for what never comes; a class may have others, and says why: LONGEST.
SECONDS = float(os.environ.get("TEST_SECONDS", 120))


def pytest_configure(config):
    """The commands that tests begin are run by the Python that runs the tests."""
    if os.path.realpath(shutil.which("python3") or "") != os.path.realpath(sys.executable):
        folder = tempfile.TemporaryDirectory()
        config.add_cleanup(folder.cleanup)
        os.symlink(sys.executable, os.path.join(folder.name, "python3"))
        os.environ["PATH"] = os.pathsep.join([folder.name, os.environ["PATH"]])


def pytest_collection_modifyitems(items):
    """Files that take longest come first, and what judges all others last."""
    took = measured.read(MEASURED)
    items.sort(key=lambda it: (it.path.name == said.LAST, -took.get(it.path.name, float("inf")), it.path))


@pytest.hookimpl(optionalhook=True)
def pytest_xdist_make_scheduler(config, log):
    """The files go to the workers in this order, each as a whole, and each transcript as if it were a file of tests."""
    from xdist.scheduler import LoadFileScheduling

    class Files(LoadFileScheduling):
        def _split_scope(self, nodeid):
            return nodeid if "::test_transcript[" in nodeid else super()._split_scope(nodeid)

        def remove_node(self, node):
            """A test in which its worker has ended is not run again: else it would end one worker after the other."""
            begun = self.assigned_work[node].values()
            left = [(tests, test) for tests in begun for test, is_done in tests.items() if not is_done]
            for tests, test in left[:1]:
                tests[test] = True
            super().remove_node(node)
            return left[0][1] if left else None

        def _reschedule(self, node):
            """A worker begins a test when it knows the next one: so it gets files until it has two tests to run. Of one
            that has ended it may get files that are done. What can't be sent, since it has just ended, goes to another
            once that is noticed."""
            with contextlib.suppress(OSError):
                super()._reschedule(node)
                if self.workqueue and not node.shutting_down and self._pending_of(self.assigned_work[node]) < 2:
                    self._reschedule(node)

    return Files(config, log)


@pytest.hookimpl(hookwrapper=True)
def pytest_make_collect_report():
    """A file that waits for ever while it is imported fails, too."""
    with limited(SECONDS):
        yield


@pytest.hookimpl(hookwrapper=True)
def pytest_runtest_protocol(item):
    """What a test has begun that takes too long is ended, again and again until the test has: so none hangs others."""
    with limited(getattr(item.cls, "LONGEST", SECONDS)):
        yield


@pytest.fixture(scope="class", autouse=True)
def class_cleanups(request):
    """What fails in the cleanups of a class, unittest only notes, and pytest below 8.2 does not look there."""
    yield
    for _, fault, _ in getattr(request.cls, "__dict__", {}).get("tearDown_exceptions", []):
        raise fault


@pytest.hookimpl(hookwrapper=True)
def pytest_runtest_teardown(item, nextitem):
    """What was said in a file is kept at its end, in case that a later one ends the process."""
    yield
    if nextitem is None or nextitem.path != item.path:
        said.keep()


def pytest_sessionfinish():
    said.keep()
    # pytest does what tests have asked for at the end of a class, but not of a module
    unittest.doModuleCleanups()
