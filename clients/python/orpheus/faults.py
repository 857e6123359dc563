"""What can go wrong, each kind as an exception of its own."""


class OrpheusError(Exception):
    """Anything that the program or this package answers in place of a result."""


class Refused(OrpheusError):
    """The program refused a command, and changed nothing. `number` and `text` are those of its reply."""

    def __init__(self, number, text, line="", about=None):
        super().__init__(f"error {number}: {text}")
        self.number = number
        self.text = text
        self.line = line
        self._about = about

    def explain(self):
        """Says in a few lines what is behind the refusal: the place in the file, the value, the two headers, the usual fix."""
        from . import explaining

        return explaining.of_refusal(self, self._about)


class NoStore(OrpheusError):
    """The folder has no store. `Store.create` makes one."""


class NoProgram(OrpheusError):
    """The program isn't found."""


class Ended(OrpheusError):
    """A run ended before its end. `found` says what was found out about the reason; what was replied before stands."""

    exit = None

    def __init__(self, said, replies="", found=()):
        super().__init__("; ".join([said, *found]))
        self.said = said
        self.replies = replies
        self.found = list(found)

    def explain(self):
        return "\n".join([self.said, *(f"- {it}" for it in self.found)])


class UsageFault(Ended):
    exit = 2


class StoreFault(Ended):
    exit = 3


class Busy(StoreFault):
    """Another run has the folder."""


class InputFault(Ended):
    exit = 4


class OutOfMemory(Ended):
    exit = 5


class NotAStore(Ended):
    exit = 6


class UnknownFormat(NotAStore):
    """A newer program made the store."""


class Damaged(NotAStore):
    """Bytes of the store are off. `area` is `journal` or `pages`, `at` the place."""

    area = None
    at = None


class ScriptTooLong(Ended):
    exit = 7


class Killed(Ended):
    """The program was killed by a signal. The command that it served is there whole or not at all."""
