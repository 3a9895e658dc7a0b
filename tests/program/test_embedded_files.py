"""A session in process keeps and saves its journal as the program does, in files that are cut, damaged, held or
changed, and by calls that fail; it is killed at each call and under load, crashes with its machine, and has its file
moved: with the program's own tests, each with the judge that it has."""

import pytest

from tests.program import (
    test_durable_files, test_durable_kills, test_kill_sessions, test_move_journals, test_saved_files)
from tests.support.in_process import in_process

pytestmark = pytest.mark.not_quick("the static library")
Cuts = in_process(test_durable_files.Cuts)
Others = in_process(test_durable_files.Others)
Places = in_process(test_durable_files.Places)
SavedPlaces = in_process(test_saved_files.Places)
SavedBySeveral = in_process(test_saved_files.Several)
SavedByCalls = in_process(test_saved_files.Calls)
Kills = in_process(test_durable_kills.Kills)
UnderLoad = in_process(test_kill_sessions.Kills)
Moves = in_process(test_move_journals.Moves)
