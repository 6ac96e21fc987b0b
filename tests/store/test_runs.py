"""tests_of_runs prints what is counted from its transcripts. (It finds the errors that data/wrong.txt has on purpose, which the gate plays.)"""
from pathlib import Path

from office_kit.gate.transcripts import CRATE, counts


def test_counts():
    """After a change of the transcripts: `python3 -m office_kit.gate.transcripts > crates/tests_of_runs/stdout`."""
    assert counts().encode() == Path(CRATE, "stdout").read_bytes()
