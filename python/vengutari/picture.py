"""A plot as SVG: axes with round numbers, bands, lines, bars and marks that say what they are when pointed at."""

import html
import math

RIGHT, TOP, BOTTOM = 16, 30, 48
# Room for a character of an axis, with the larger letters of a small screen.
CHARACTER = 10.5
FONT = "font-family: system-ui, sans-serif; font-size: 13px; fill: #333"


def reach(values):
    """The range of some values with a little room on both sides."""
    values = list(values) or [0.0]
    low, high = float(min(values)), float(max(values))
    room = 0.04 * (high - low) or max(1.0, 0.04 * abs(high))
    return low - room, high + room


def ticks(low, high, most):
    """Round numbers between two ends, not more than so many: multiples of 1, 2 or 5 times a power of ten, and their text."""
    power = 10.0 ** math.floor(math.log10((high - low) / most))
    step = next(power * k for k in (1, 2, 5, 10) if (high - low) / (power * k) <= most)
    places = max(0, -math.floor(math.log10(step) + 1e-9))
    numbers = range(math.ceil(low / step), math.floor(high / step) + 1)
    return [(k * step, f"{k * step:,.{places}f}".replace("-", "−")) for k in numbers]


def fitting_ticks(low, high, room):
    """As many as their text leaves room for, eight at most."""
    for most in range(8, 1, -1):
        made = ticks(low, high, most)
        if sum(CHARACTER * len(text) + 12 for _, text in made) <= room:
            return made
    return made[:1]


class Picture:
    """A plot of one range against another, with the names of both axes; shapes are kept in units of the two ranges."""

    def __init__(self, x, y, names, title, size=(720, 400), y_ticks=None):
        self.x, self.y = x, y
        self.names, self.title = names, title
        self.width, self.height = size
        self.y_ticks = y_ticks or ticks(*y, max(3, (self.height - TOP - BOTTOM) // 32))
        self.left = 38 + max(30, CHARACTER * max(len(text) for _, text in self.y_ticks))
        self.parts = []

    def place(self, x, y):
        across, down = self.width - self.left - RIGHT, self.height - TOP - BOTTOM
        return self.left + across * (x - self.x[0]) / (self.x[1] - self.x[0]), TOP + down * (self.y[1] - y) / (self.y[1] - self.y[0])

    def mark(self, x, y, colour, shape, tip):
        self.parts.append(f"<g>{drawn(*self.place(x, y), colour, shape)}<title>{html.escape(tip)}</title></g>")

    def band(self, ends, epsilon, colour, tip):
        """A straight line between two ends and what lies within epsilon of it."""
        (x0, y0), (x1, y1) = ends
        corners = [self.place(x0, y0 - epsilon), self.place(x1, y1 - epsilon), self.place(x1, y1 + epsilon), self.place(x0, y0 + epsilon)]
        area = " ".join(f"{a:.2f},{b:.2f}" for a, b in corners)
        (a, b), (c, d) = self.place(x0, y0), self.place(x1, y1)
        line = f'<line x1="{a:.2f}" y1="{b:.2f}" x2="{c:.2f}" y2="{d:.2f}" stroke="{colour}" stroke-width="1.5"/>'
        self.parts.append(f'<g><polygon points="{area}" fill="{colour}" fill-opacity="0.16"/>{line}<title>{html.escape(tip)}</title></g>')

    def area(self, corners, colour, tip):
        """What lies between some corners: lighter than a band, and with an edge."""
        places = " ".join("{:.2f},{:.2f}".format(*self.place(x, y)) for x, y in corners)
        light = f'fill="#fff" fill-opacity="0.6" stroke="{colour}" stroke-opacity="0.6" stroke-width="0.8"'
        self.parts.append(f'<g><polygon points="{places}" {light}/><title>{html.escape(tip)}</title></g>')

    def path(self, places, colour):
        """Straight lines from place to place."""
        points = " ".join("{:.2f},{:.2f}".format(*self.place(x, y)) for x, y in places)
        self.parts.append(f'<polyline points="{points}" fill="none" stroke="{colour}" stroke-width="1.5"/>')

    def bar(self, x, y, colour, tip):
        """A bar between two x and two y."""
        (a, b), (c, d) = self.place(x[0], y[1]), self.place(x[1], y[0])
        place = f'x="{a + 0.5:.2f}" y="{b:.2f}" width="{max(0.5, c - a - 1):.2f}" height="{d - b:.2f}"'
        shape = f'<rect {place} fill="{colour}" fill-opacity="0.8"/>'
        self.parts.append(f"<g>{shape}<title>{html.escape(tip)}</title></g>")

    def axes(self):
        parts, (left, width, height) = [], (self.left, self.width, self.height)
        for value, text in fitting_ticks(*self.x, width - left - RIGHT):
            a, _ = self.place(value, self.y[0])
            inside = min(a, width - CHARACTER * len(text) / 2)
            parts.append(f'<path d="M{a:.2f} {TOP}V{height - BOTTOM}" stroke="#e6e6e6"/>'
                         f'<text x="{inside:.2f}" y="{height - BOTTOM + 18}" text-anchor="middle">{text}</text>')
        for value, text in self.y_ticks:
            _, b = self.place(self.x[0], value)
            parts.append(f'<path d="M{left:.2f} {b:.2f}H{width - RIGHT}" stroke="#e6e6e6"/>'
                         f'<text x="{left - 7:.2f}" y="{b + 4.5:.2f}" text-anchor="end">{html.escape(text)}</text>')
        across, down = (left + width - RIGHT) / 2, (TOP + height - BOTTOM) / 2
        parts.append(f'<text x="{across:.2f}" y="{height - 9}" text-anchor="middle">{html.escape(self.names[0])}</text>')
        parts.append(f'<text transform="translate(16 {down:.2f}) rotate(-90)" text-anchor="middle">{html.escape(self.names[1])}</text>')
        parts.append(f'<text x="{left:.2f}" y="{TOP - 11}" font-weight="600">{html.escape(self.title)}</text>')
        return "".join(parts)

    def inside(self):
        """All of the drawing, without the element around it."""
        clip = "clip-" + "".join(c if c.isalnum() else "-" for c in self.title) + f"-{self.left:.0f}-{self.height}"
        frame = f'x="{self.left:.2f}" y="{TOP}" width="{self.width - self.left - RIGHT:.2f}" height="{self.height - TOP - BOTTOM}"'
        return (f'<clipPath id="{clip}"><rect {frame}/></clipPath>{self.axes()}<rect {frame} fill="none" stroke="#999"/>'
                f'<g clip-path="url(#{clip})">{"".join(self.parts)}</g>')

    def svg(self, kind="", place=""):
        """The drawing as an element of a page or, with a place, of a larger drawing."""
        words = place + (f' class="{kind}"' if kind else "")
        return (f'<svg{words} viewBox="0 0 {self.width} {self.height}" role="img" '
                f'aria-label="{html.escape(self.title)}">{self.inside()}</svg>')


def range_bar(ends, most, colour, size=(200, 16)):
    """A range around 0 as a bar, of which so much is shown to either side, for a row of a table."""
    (width, height), tip = size, " to ".join(f"{end:+}".replace("-", "−") for end in ends)
    a, b, c = (2 + (width - 4) * (end + most) / (2 * most) for end in (*ends, 0))
    head = f'<svg viewBox="0 0 {width} {height}" role="img" aria-label="{tip} steps">'
    return (f'{head}<path d="M2 {height / 2:g}H{width - 2}" stroke="#bbb"/>'
            f'<g><rect x="{a - 1:.2f}" y="4" width="{b - a + 2:.2f}" height="{height - 8}" fill="{colour}" fill-opacity="0.5"/>'
            f'<title>{tip} steps</title></g><path d="M{c:.2f} 1v{height - 2}" stroke="{colour}" stroke-width="2"/></svg>')


def drawn(a, b, colour, shape):
    """One mark at a place of the drawing."""
    filled = f'fill="{colour}" fill-opacity="0.75"'
    lines = f'fill="none" stroke="{colour}" stroke-width="1.6"'
    if shape == "circle":
        return f'<circle cx="{a:.2f}" cy="{b:.2f}" r="3.2" {filled}/>'
    if shape == "square":
        return f'<rect x="{a - 3:.2f}" y="{b - 3:.2f}" width="6" height="6" {filled}/>'
    if shape == "triangle":
        return f'<path d="M{a:.2f} {b - 4.1:.2f}l3.9 6.9h-7.8z" {filled}/>'
    if shape == "diamond":
        return f'<path d="M{a:.2f} {b - 4.4:.2f}l4 4.4l-4 4.4l-4 -4.4z" {filled}/>'
    if shape == "ring":
        return f'<circle cx="{a:.2f}" cy="{b:.2f}" r="4.2" {lines}/>'
    if shape == "tick":
        return f'<path d="M{a:.2f} {b:.2f}v-9" {lines}/>'
    return f'<path d="M{a - 3.2:.2f} {b - 3.2:.2f}l6.4 6.4m0 -6.4l-6.4 6.4" {lines}/>'


def figure(pictures, width=960):
    """Pictures in one SVG file: the wide ones by themselves, the others two in a row."""
    parts, top, column, row = [], 0.0, 0, 0.0
    for picture in pictures:
        wide = picture.width > width / 2
        if column and wide:
            top, column, row = top + row, 0, 0.0
        across = width if wide else width / 2
        height = picture.height * across / picture.width
        place = f' x="{column * width / 2:g}" y="{top:.2f}" width="{across:g}" height="{height:.2f}"'
        parts.append(picture.svg(place=place))
        row = max(row, height)
        column = 0 if wide or column else 1
        if not column:
            top, row = top + row, 0.0
    total = top + row
    return (f'<svg xmlns="http://www.w3.org/2000/svg" width="{width}" height="{math.ceil(total)}" viewBox="0 0 {width} {math.ceil(total)}">'
            f'<style>text {{ {FONT} }}</style><rect width="100%" height="100%" fill="#fff"/>{"".join(parts)}</svg>\n')
