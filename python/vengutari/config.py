"""Options that a station uses every pass, from a TOML file: a key for each, by its name without the dashes.

    x = "adc_raw"
    y = "current_mA"
    lines = 2
    epsilon = 3
    offset = true
    box = ["0.7:0.9", "-50:50"]

A list stands for its values between commas, true for the option by itself. They stand before those of the command line, which thereby win.
"""

from .problems import BadUse

# What the command line gives of these takes the place of the others.
INSTEAD = [{"epsilon", "spoiled"}, {"box", "margin"}, {"spoiled", "loss"}]


def named(words):
    """The file that --config names, and the other words."""
    paths, others = [], []
    rest = iter(words)
    for word in rest:
        if word == "--config":
            paths.append(next(rest, ""))
        elif word.startswith("--config="):
            paths.append(word.partition("=")[2])
        else:
            others.append(word)
    if len(paths) > 1:
        raise BadUse("--config: give one file")
    return (paths or [None])[0], others


def load(path, option="--config"):
    """What a TOML file says."""
    import tomllib

    try:
        with open(path, "rb") as file:
            return tomllib.load(file)
    except (OSError, ValueError) as error:
        raise BadUse(f"{option}: {path}: {getattr(error, 'strerror', None) or error}") from None


def text_of(value, what):
    """A value as a word; a float by its shortest decimals."""
    if isinstance(value, (str, int, float)) and not isinstance(value, bool):
        return str(value)
    raise BadUse(f"{what}: {value!r} is no number or text")


def word_of(path, key, value):
    """An option as a word of the command line, or nothing for one that is off."""
    what = f"--config: {path}: {key}"
    if value is True:
        return [f"--{key}"]
    if value is False:
        return ["--no-offset"] if key == "offset" else []
    values = value if isinstance(value, list) else [value]
    return [f"--{key}=" + ",".join(text_of(one, what) for one in values)]


def known_keys(command):
    from .options import options_of

    return {option[2:] for option in options_of(command) if option.startswith("--") and not option.startswith("--no-")} - {"config", "help"}


def with_config(words):
    """The words of a command with those of its file of options before them."""
    path, words = named(words)
    if path is None:
        return words
    settings = load(path)
    known = known_keys(words[0])
    strange = [key for key in settings if key not in known]
    if strange:
        raise BadUse(f"--config: {path}: '{strange[0]}' is no option of {words[0]}")
    given = {word[2:].partition("=")[0] for word in words if word.startswith("--")}
    replaced = {other for group in INSTEAD for other in group if group & given} | given
    made = [word for key, value in settings.items() if key not in replaced for word in word_of(path, key, value)]
    return [words[0], *made, *words[1:]]
