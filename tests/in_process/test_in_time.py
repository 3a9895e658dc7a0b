"""A limit ends what a test started, and nothing else. `transcripts/tools/tested.t` shows that each test has one."""
import signal
import subprocess
import time

import pytest

from tests.support.program import in_time

LATEST = 30  # seconds that what is quick does not take, on a busy machine too


def alarm():
    """What is done after how many seconds, again and again."""
    return signal.getsignal(signal.SIGALRM), signal.getitimer(signal.ITIMER_REAL)[1]


def test_what_is_in_time_is_left_alone():
    before = alarm()
    with in_time(LATEST), subprocess.Popen(["sleep", "0"]) as quick:
        assert alarm() != before
        assert quick.wait() == 0
    # nothing comes later, but for a limit that there was before
    assert alarm() == before


def test_what_a_test_has_started_is_ended():
    with subprocess.Popen(["sleep", "1000"]) as running:
        with pytest.raises(AssertionError, match="in 0.3 seconds"), in_time(0.3):
            running.wait()
        assert running.wait(LATEST) == -signal.SIGKILL


def test_a_limit_within_another_leaves_that_as_it_was():
    with pytest.raises(AssertionError, match="in 0.3 seconds"), in_time(0.3):
        with in_time(100):
            pass
        time.sleep(10)
