"""A line of progress on standard error."""

from .outputs import tell


def told(seconds, words, splits):
    """What was found so far by a call that is made again with more splits."""
    tell(f"{seconds:7.1f} s  {words}  (now running {splits:,} splits)\n")
