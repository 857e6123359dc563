"""Stores of format 1, made by hand from docs/formats.md, as an earlier program left them: in their first epoch, or in their third one,
which two checkpoints went before."""

from stores import FRONT, commit, paged, record, text, u32

EPOCHS = (1, 3)

# The columns id:int,name:text,score:int with the key id.
COLUMNS = b"\x03" + text("id") + b"\x01" + text("name") + b"\x02" + text("score") + b"\x01"
KEY = b"\x01\0"

# Each list and segment on a page of its own: versions 1 and 2, with the records of ann, of bob, of bob as he is later, and of cy.
LISTS = [u32(1, 2), u32(1, 1, 3, 2)]
ANN = u32(1, 23, 0, 1) + text("ann") + u32(0, 10)
BOB = u32(2, 23, 0, 2) + text("bob") + u32(0, 20)
RAISED_BOB = u32(3, 23, 0, 2) + text("bob") + u32(0, 25)
CY = u32(4, 22, 0, 3) + text("cy") + u32(0, 30)
PAGES = paged([LISTS[0], ANN + BOB, LISTS[1], RAISED_BOB + CY])
LIST_1, SEGMENT_1, LIST_2, SEGMENT_2 = ((page, length) for page, length in enumerate((8, 62, 16, 61)))

BEGUN = b"\x01" + text("people") + COLUMNS + KEY + u32(2, *LIST_1, *SEGMENT_1)
RAISED = commit(2, [(1, 1)], (3, 2, 2), (*LIST_2, *SEGMENT_2), message="raise")


def base(following):
    """Gives the event that tells the number of the next dataset."""
    return b"\x07" + u32(following)


def version(parents, message, rows, fresh, run):
    """Gives a version of a snapshot. Its list is this run."""
    edges = len(parents).to_bytes(2, "big") + b"".join(u32(*edge) for edge in parents)
    return edges + text(message) + u32(rows, fresh, *run)


# The people as they stand: four records, no threshold, the next partition's number 2, two versions, partition 1 that serves and holds
# both, and no plan.
STANDING = (
    b"\x08" + u32(1) + text("people") + COLUMNS + KEY + u32(4, 0, 0, 2)
    + u32(2) + version([], "init", 2, 2, LIST_1) + version([(1, 1)], "raise", 3, 2, LIST_2)
    + u32(1, 1, 2, 1, 2, 2, 1, 2, 4, 2, *SEGMENT_1, *SEGMENT_2)
    + b"\0"
)


def journal(epoch, payloads):
    """Gives a journal of format 1 in this epoch, of one half with these records. In the third epoch the second one's slot is open
    still, and its half lies behind."""
    half = b"".join(map(record, payloads)) + b"\0"
    if epoch == 1:
        return b"\xa5orpheus-cvd\xa5" + u32(1, FRONT, 1) + bytes(13) + half
    slots = b"\xa5" + u32(3, FRONT, 1) + b"\xa5" + u32(2, FRONT + len(half), 1)
    return b"\xa5orpheus-cvd" + slots + half + record(base(1)) + b"\0"


def empty(epoch):
    """Gives the two files of a store of no datasets."""
    return journal(epoch, [] if epoch == 1 else [base(1)]), b""


def people(epoch):
    """Gives the two files of a store of two versions of a few people."""
    return journal(epoch, [BEGUN, RAISED] if epoch == 1 else [base(2), STANDING]), PAGES
