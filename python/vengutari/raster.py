"""PNG of an SVG, by a program that draws SVG well: the first that is there."""

import os
import pathlib
import re
import shutil
import subprocess
import tempfile

from .problems import BadInput

# So many pixels stand for one of the drawing, for a sharp print.
SHARPNESS = 2
BROWSERS = ("chromium", "chromium-browser", "google-chrome", "google-chrome-stable")
PROGRAMS = ("rsvg-convert", "inkscape", *BROWSERS)


def command(program, source, target, width, height):
    if program == "rsvg-convert":
        return [program, "--zoom", str(SHARPNESS), "--output", target, source]
    if program == "inkscape":
        return [program, f"--export-filename={target}", f"--export-width={SHARPNESS * width}", source]
    sandbox = ["--no-sandbox"] if hasattr(os, "geteuid") and os.geteuid() == 0 else []
    return [program, "--headless", *sandbox, "--disable-gpu", "--hide-scrollbars", f"--force-device-scale-factor={SHARPNESS}",
            f"--window-size={width},{height}", f"--screenshot={target}", pathlib.Path(source).as_uri()]


def program_here():
    """The program that is used; said before a long search where there is none."""
    found = next((program for program in PROGRAMS if shutil.which(program)), None)
    if found is None:
        raise BadInput(f"no program here makes a PNG of a drawing: install one of {', '.join(PROGRAMS[:3])}, or name a file that ends in "
                       ".svg")
    return found


def png(svg):
    """The drawing as PNG."""
    program = program_here()
    width, height = map(int, re.search(r'width="(\d+)" height="(\d+)"', svg).groups())
    with tempfile.TemporaryDirectory() as folder:
        source, target = os.path.join(folder, "picture.svg"), os.path.join(folder, "picture.png")
        pathlib.Path(source).write_text(svg, encoding="utf-8")
        try:
            done = subprocess.run(command(program, source, target, width, height), capture_output=True, timeout=120, check=False)
            if done.returncode == 0:
                return pathlib.Path(target).read_bytes()
        except (OSError, subprocess.TimeoutExpired):
            pass
    raise BadInput(f"{program} made no PNG of the drawing; name a file that ends in .svg")
