"""What a fit is asked for, in the user's units."""

from dataclasses import dataclass, field
from fractions import Fraction

from .library import LOSSES, MOST_SPLITS
from .problems import BadUse

MARGIN = Fraction(4)


@dataclass
class Limits:
    """gap is a part of the cost, not a percentage; seconds and rows, of the table of open boxes, may be None."""

    gap: Fraction = Fraction(0)
    seconds: float = None
    rows: int = None
    splits: int = MOST_SPLITS


@dataclass
class Settings:
    """Steps, origin, scale, box and start may be None: they are then found. ranges is a part of the cost, or None where none are asked for.

    Either epsilon or spoiled, the number of samples that may be spoiled, is given; the loss is with epsilon alone. The origin is the x at
    which the offsets of box and start are a line's y.
    """

    x: list
    y: str
    frame: str = None
    lines: int = 1
    epsilon: Fraction = None
    spoiled: int = None
    loss: str = "square"
    offset: bool = None
    x_steps: list = None
    y_step: Fraction = None
    origin: list = None
    scale: int = None
    box: tuple = None
    start: list = None
    margin: Fraction = MARGIN
    wide: bool = False
    ranges: Fraction = None
    limits: Limits = field(default_factory=Limits)

    def __post_init__(self):
        if self.offset is None:
            self.offset = len(self.x) == 1
        if self.x_steps is None:
            self.x_steps = [None] * len(self.x)

    @property
    def d(self):
        return len(self.x) + self.offset

    @property
    def origins(self):
        """Where each x is counted from, None where that is found: a box stands for the lines that it names, so it is not moved."""
        if self.origin is not None:
            return self.origin
        return [None if self.offset and self.box is None else Fraction(0)] * len(self.x)

    @property
    def told(self):
        """The x at which the user's own offsets are a line's y."""
        return self.origin or [Fraction(0)] * len(self.x)

    def each(self, values, what):
        """One value for each coefficient of a line, the same for all lines, or one for each coefficient of each line."""
        if len(values) == self.d:
            values = values * self.lines
        if len(values) != self.d * self.lines:
            each = f"{self.d} coefficients a line" + (", the offset last" if self.offset else "")
            more = f" or {self.d * self.lines}" if self.lines > 1 else ""
            raise BadUse(f"{what}: {len(values)} values where there are {each}: give {self.d}{more}")
        return values

    def check(self):
        """What can be said without the points."""
        check_shape(self)
        if (self.epsilon is None) == (self.spoiled is None):
            raise BadUse("--epsilon, --spoiled: give one of the two")
        if self.spoiled is not None:
            if self.spoiled < 0:
                raise BadUse(f"--spoiled: {self.spoiled} is less than 0")
        elif self.epsilon < 0 or (self.epsilon == 0 and self.loss != "count"):
            raise BadUse("--epsilon: a threshold is more than 0; about 3 to 4 times the noise is a good choice")
        if self.loss not in LOSSES:
            raise BadUse(f"--loss: {self.loss} is none of {', '.join(LOSSES)}")
        if self.scale is not None and not 0 <= self.scale <= 15:
            raise BadUse(f"--scale: {self.scale} is not from 0 to 15")
        if self.origin is not None and not self.offset:
            raise BadUse("--origin: lines without an offset are counted from 0")
        for name, values in (("--x-step", self.x_steps), ("--origin", self.origin)):
            if values is not None and len(values) != len(self.x):
                raise BadUse(f"{name}: {len(values)} values where --x names {len(self.x)} columns")


def check_shape(settings):
    if not 1 <= settings.lines <= 4:
        raise BadUse(f"--lines: {settings.lines} is not from 1 to 4")
    if settings.d > 4:
        raise BadUse(f"--x: {len(settings.x)} columns{' and an offset' if settings.offset else ''} are over 4 coefficients of a line")
    if settings.lines * settings.d > 8:
        count = settings.lines * settings.d
        raise BadUse(f"--lines, --x: {settings.lines} lines of {settings.d} coefficients are {count}, at most 8 are taken")
