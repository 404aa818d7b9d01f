"""The manual pages: of the command from the same source as --help, and of the programs fit and bus
from what stands here.

python3 -m vengutari.manual > vengutari.1; with the word fit or bus, that of the program. A program
has no --help: with any argument it writes its line of usage, which is that of its page.
"""

import argparse
import re
import sys

from . import __version__
from .library import MESSAGES
from .options import GUIDE, parser

STATUSES = [("0", "solved"), ("1", "the file or job is refused, or a file could not be written"), ("2", "the command line is wrong"),
            ("3", "spent or full: not solved, with a bound that holds"), ("4", "there is a warning, and --strict was given"),
            ("130", "interrupted before there was an answer")]


def plain(text):
    """Text that means nothing else to the formatter."""
    text = text.replace("\\", "\\e").replace("-", "\\-")
    return re.sub(r"(?m)^([.'])", r"\\&\1", text)


def option(action):
    """An option, or a place in the line, with its help."""
    if action.option_strings:
        value = "" if action.nargs == 0 or action.metavar is None else f" \\fI{plain(action.metavar)}\\fR"
        value = f" [{value.strip()}]" if action.nargs == "?" else value
        name = ", ".join(f"\\fB{plain(word)}\\fR" for word in action.option_strings) + value
        if action.choices:
            name += " " + " | ".join(plain(str(choice)) for choice in action.choices)
    else:
        name = f"\\fI{plain(action.metavar or action.dest)}\\fR"
    return [".TP", name, plain((action.help or "").replace("%%", "%"))]


def command(name, made, help_text):
    """One sub-command: its line and all of its options, by their groups."""
    usage = re.sub(r"\s+", " ", made.format_usage().removeprefix("usage: ")).strip()
    lines = [f'.SH "{name.upper()}"', plain(help_text), ".PP", plain(usage)]
    if made.description and made.description != GUIDE:
        lines += [".PP", ".nf", plain(made.description.strip()), ".fi"]
    for group in made._action_groups:
        actions = [action for action in group._group_actions if not isinstance(action, argparse._HelpAction)]
        if not actions:
            continue
        if group.title not in ("positional arguments", "options"):
            lines.append(f'.SS "{group.title}"')
        if group.description:
            lines.append(plain(group.description))
        for action in actions:
            lines += option(action)
    return lines


def page():
    top = parser()
    commands = next(action for action in top._actions if isinstance(action, argparse._SubParsersAction))
    helps = {choice.dest: choice.help for choice in commands._choices_actions}
    summary, *rest = GUIDE.split("\n\n")
    lines = [f'.TH VENGUTARI 1 "" "vengutari {__version__}"', ".SH NAME", "vengutari \\- certified line fitter", ".SH SYNOPSIS",
             "\\fBvengutari\\fR \\fICOMMAND\\fR ..", ".SH DESCRIPTION", plain(summary)]
    for part in rest:
        lines += [".PP", *([".nf", plain(part), ".fi"] if part.startswith(" ") else [plain(part)])]
    for name, made in commands.choices.items():
        lines += command(name, made, helps[name])
    lines.append(".SH EXIT STATUS")
    for number, words in STATUSES:
        lines += [".TP", f"\\fB{number}\\fR", plain(words)]
    also = "fit(1), bus(1); USERS.md, the operator's guide, in the folder of documents of the package."
    return "\n".join([*lines, ".SH SEE ALSO", also, ""])


# Of each program: what it is, its own line of usage, and its sections, each with paragraphs; one
# that begins with a space is shown as it is.
PROGRAMS = {
    "fit": (
        "search one job for its best lines, with a certified bound",
        "usage: fit < INPUT, a job record and a store; fit takes no argument",
        {
            "DESCRIPTION": [
                "Reads a job record of 72 bytes and behind it a store, 1 to 4,096 point records of 12 bytes, from standard input, searches "
                "the job's box in a table of at most 2,048 rows, and writes one line. All that it computes is proved; that it reads its "
                "input and writes that line is tested. The layouts of both records stand in vengutari.h; vengutari job makes such an input "
                "from a file of numbers.",
            ],
            "THE LINE": [
                "  solved cost=2 bound=2 splits=1 open=0 peak=1 w=2",
                "The word says how the search ended: solved, within the job's tolerance; spent, its splits were over first; full, its table "
                "was. Behind it stand the cost of the vector found, a bound that no vector of the box costs less than, the splits made, the "
                "boxes still open, the most that were open at once, and the vector's used coordinates, each a multiple of 1 / 2^S. The cost "
                "and the bound hold whichever word it is.",
                "  refused 4",
                "No search was made; the number says why.",
            ],
        },
        range(1, 9),
    ),
    "bus": (
        "play a driver's accesses to the fitter's 136 registers on the data bus",
        "usage: bus < INPUT, a store's number of records, the store, and accesses of 4 bytes; bus takes no argument",
        {
            "DESCRIPTION": [
                "Reads from standard input the number of records of a store in two bytes, the first the higher, then the store, then "
                "accesses of four bytes: 0 to read or 1 to write, the offset of the register, the value to write, and a byte that is not "
                "looked at. Writes a byte for each read. All that it computes is proved; that it reads and writes is tested.",
                "An access of another kind is none, nor are bytes at the end that are no whole one. An input of more than 114,690 bytes, "
                "4,096 records and 16,384 accesses, gets no reply.",
            ],
            "REGISTERS": [
                "  0         command: 2 runs a search, 3 clears flags and interrupt; reads 0\n"
                "  1         flags: bit 0 done, bit 1 refused, bit 2 interrupt pending\n"
                "  2         bit 0 enables the interrupt\n"
                "  3         the last run's refusal number, 0 if it was done\n"
                "  8 to 47   the answer record, zeros after a refusal\n"
                "  64 to 135 the job record",
                "All are 0 after reset. Only 0, 2 and 64 to 135 take writes; offsets that are not listed read 0. The table of a run has the "
                "rows that the job record asks for; for more than 2,048 the run is refused by 8.",
            ],
        },
        range(1, 9),
    ),
}


def program_page(name):
    """The page of one of the programs."""
    summary, usage, sections, refusals = PROGRAMS[name]
    lines = [f'.TH {name.upper()} 1 "" "vengutari {__version__}"', ".SH NAME", f"{name} \\- {plain(summary)}", ".SH SYNOPSIS",
             plain(usage.removeprefix("usage: "))]
    for title, paragraphs in sections.items():
        lines.append(f'.SH "{title}"')
        for part in paragraphs:
            lines += [".PP", *([".nf", plain(part), ".fi"] if part.startswith(" ") else [plain(part)])]
    lines.append(".SH REFUSALS")
    for number in refusals:
        lines += [".TP", f"\\fB{number}\\fR", plain(MESSAGES[number])]
    others = ", ".join(f"{other}(1)" for other in ["vengutari", *sorted(PROGRAMS)] if other != name)
    lines += [".SH EXIT STATUS", "0, for a refusal too.", ".SH SEE ALSO", f"{others}; vengutari.h, which has the layouts of the records.", ""]
    return "\n".join(lines)


if __name__ == "__main__":
    print(program_page(sys.argv[1]) if sys.argv[1:] else page(), end="")
