# All image cases in order: a name with the ids of its sentences, the bytes, and the expected output where it was written by hand.
# Called: imported by tests/images/make and run; it does nothing when run.
# Reads: runs.py, interrupts.py, memory.py, edges.py, long.py and carry.py of tests/images.
import sys

sys.dont_write_bytecode = True
import carry
import edges
import interrupts
import long
import memory
import runs

PARTS = [part for group in (runs, interrupts, memory, edges, long, carry) for part in group.PARTS]


def cases():
    """[(name, image, text or None)]; a name begins with its number, so that the files sort in this order; then ids of docs/CLAIMS.md."""
    rows = [row for part in PARTS for row in part()]
    named = [(f'{at:03}-{name}', image, text) for at, (name, image, text) in enumerate(rows, 1)]
    assert len({name for name, _, _ in rows}) == len(rows), 'two cases of one name'
    return named
