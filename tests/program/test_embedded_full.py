"""What a session in process tells, and when, where its disk is full, where calls fail, and where all is well: with the
program's own tests."""

import pytest

from tests.program import test_durable_full, test_durable_replies
from tests.support.in_process import InProcess, in_process
from tests.support.program import LIST

pytestmark = pytest.mark.not_quick("the static library")
Full = in_process(test_durable_full.Full)
Failing = in_process(test_durable_full.Failing)


class Replies(InProcess, test_durable_replies.Replies):
    """A call that feeds lines returns when all of them are answered."""
    TAUGHT = [0, 0], [1, 0], [0, 1]

    def test_a_reply_does_not_wait_for_what_it_taught(self):
        # the reply to a later line does
        _, calls, more = self.steps([test_durable_replies.CLASHING, [test_durable_replies.TEACHING], [LIST]])
        written = [[(call.number == 1, b'"selected":[[' in call.given, b'{"derivation":' in call.given) for call in step
                    if call.name == "write"] for step in (calls, more)]
        self.assertEqual(written, [[(True, True, False)], [(False, False, True), (True, False, False)]])
