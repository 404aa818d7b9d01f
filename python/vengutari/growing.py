"""A call that searches otherwise than a plain search, made again with twice the splits until it is done, as a search is.

So there is a certified answer at any time: a time limit or a request to end leaves the running call behind, and the answer is that of the
last one that came to its end. The first has no split and is always waited for.
"""

from types import SimpleNamespace

from . import run


class Growing(run.Runs):
    """call(splits, rows) is the call with so many splits and rows of the table; done(made) says why no more are made, or None.

    Limits, progress and requests to end are those of the runs of a search; its job and tolerance are not used.
    """

    def __init__(self, call, done, limits, progress=None, stop=None):
        super().__init__(SimpleNamespace(cost=lambda *given: 0), run.Job(b"", None, [], [], []), limits, progress, stop)
        self.call, self.done = call, done

    def one(self, splits):
        return self.waited(lambda: self.call(splits, max(1, min(splits + 1, self.rows))), splits)

    def run(self):
        """What the last call gave, why no more were made, and the seconds."""
        splits, why = 0, None
        try:
            while why is None:
                made = self.one(splits)
                if made is None:
                    why = self.over()
                    break
                self.best = made
                why = self.done(made) or ("splits" if splits >= self.limits.splits else self.over())
                if why is None:
                    splits = self.next_splits(splits)
                    why = "time" if splits is None else None
        except KeyboardInterrupt:
            if self.best is None:
                raise
            why = "interrupt"
        return self.best, why, self.seconds()


def ended(kinds):
    """Why no more calls are made, by the kinds of all searches of one: solved, or a full table; None to go on."""
    if all(kind == "solved" for kind in kinds):
        return "solved"
    return "rows" if "full" in kinds else None


def marked(answer, gap):
    """The answer with its kind by the gap, where there is one: the tolerance that it was searched with may be another."""
    if not gap:
        return answer
    near = answer.cost - answer.bound <= int(gap * answer.cost)
    return answer._replace(kind="solved" if near else "spent" if answer.kind == "solved" else answer.kind)


def tolerance(answers, gap):
    """What the gap allows for each of the answers; 0, the first of the best, where one of 1 would end again outside the gap."""
    if not gap or any(answer.cost - answer.bound == 1 and gap * answer.cost < 1 for answer in answers):
        return 0
    return max(1, int(gap * min((answer.cost for answer in answers if answer.cost), default=0)))
