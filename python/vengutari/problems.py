"""What a user can put right, said in one line, with the status that the command then ends with."""


class Error(Exception):
    """All that this package raises of its own; the command says it in one line on standard error."""

    status = 1


class BadInput(Error):
    """A file, a point or a setting that cannot be used."""


class BadUse(BadInput):
    """A setting, or a word of the command line, that can never be used."""

    status = 2


class Refused(Error):
    """A call that the library refuses: by the number of the papers' table, and the record where that is 7."""

    def __init__(self, number, words, record=None):
        super().__init__(f"refused {number}, {words}" + ("" if record is None else f", record {record}"))
        self.number = number
        self.record = record
