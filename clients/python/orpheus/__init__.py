"""orpheus from Python: stores of versioned tables, by the program of that name.

    from orpheus import Store
    store = Store.create("people")
    store.init("people", "people.csv")
    store.commit("people", "more.csv", parents=1, message="more")
    store.diff("people", 1, 2)
"""

from .comparing import Change, Conflict, Diff
from .faults import (
    Busy,
    Damaged,
    Ended,
    InputFault,
    Killed,
    NoProgram,
    NoStore,
    NotAStore,
    OrpheusError,
    OutOfMemory,
    Refused,
    ScriptTooLong,
    StoreFault,
    UnknownFormat,
    UsageFault,
)
from .keeping import Verified, verify
from .program import version
from .replies import Advice, Generated, Layout, Listed, Made, Partition, Plan, Split, Staged, Steps, Threshold, Version, Written
from .store import Answer, Store
from .values import Column, Rows, Scaled, Schema, guess
from .words import Unsayable

__version__ = version()
__all__ = [name for name in dir() if name[0].isupper()] + ["guess", "verify"]
