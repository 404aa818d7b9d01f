"""Files that appear whole or not at all, and never in place of another without leave; and standard output, which may be closed."""

import os
import stat
import sys
import tempfile

from .problems import BadInput, BadUse, Error

# For a terminal that has no such letters.
PLAIN = str.maketrans({"·": "*", "−": "-", "²": "^2", "ε": "epsilon", "±": "+-", "≤": "<="})


def same_file(a, b):
    try:
        return os.path.samefile(a, b)
    except OSError:
        return os.path.abspath(a) == os.path.abspath(b)


def is_plain(path):
    """Whether a path is a file, or nothing yet: what a whole file can be put in place of."""
    try:
        return stat.S_ISREG(os.stat(path).st_mode)
    except OSError:
        return True


class Outputs:
    """The files of one command. They are checked before the work, and each is then written beside its place and put there whole."""

    def __init__(self, inputs, force=False):
        self.inputs = [path for path in inputs if path != "-"]
        self.force = force
        self.paths = {}

    def check(self, option, path):
        """A place that can be written, said before a long search and not after it."""
        for other in self.inputs:
            if same_file(path, other):
                raise BadUse(f"{option}: {path} is the input")
        for name, other in self.paths.items():
            if same_file(path, other):
                raise BadUse(f"{option}: {path} is also the file of {name}")
        self.paths[option] = path
        if path == "-":
            return
        folder = os.path.dirname(os.path.abspath(path))
        if os.path.isdir(path):
            raise BadUse(f"{option}: {path} is a folder")
        if not os.path.isdir(folder):
            raise BadUse(f"{option}: there is no folder {folder}")
        if is_plain(path) and os.path.lexists(path) and not self.force:
            raise BadUse(f"{option}: {path} is there already; --force writes over it")
        if is_plain(path) and not os.access(folder, os.W_OK):
            raise BadUse(f"{option}: {folder} cannot be written")

    def write_all(self, makers, complain):
        """Makes and writes each file by itself. One that cannot be made or written costs its own line; says whether all were written."""
        whole = True
        for option in self.paths:
            try:
                self.write(option, makers[option]())
            except (Error, OSError, MemoryError) as problem:
                complain(f"{option}: {problem or 'not enough memory'}")
                whole = False
        return whole

    def write(self, option, data):
        """One file, whole or not at all; what is no plain file, such as a device, is written through."""
        path = self.paths[option]
        data = data.encode("utf-8") if isinstance(data, str) else data
        try:
            if path == "-":
                say(data)
            elif not is_plain(path):
                with open(path, "wb") as file:
                    file.write(data)
            else:
                self.write_whole(path, data)
        except FileExistsError:
            raise BadUse(f"{path} is there already; --force writes over it") from None
        except OSError as error:
            raise BadInput(f"{path}: {error.strerror}") from None

    def write_whole(self, path, data):
        """A file beside its place, which is then given its name."""
        mask = os.umask(0)
        os.umask(mask)
        handle, beside = tempfile.mkstemp(prefix=".vengutari-", dir=os.path.dirname(os.path.abspath(path)))
        try:
            with os.fdopen(handle, "wb") as file:
                file.write(data)
                file.flush()
                os.fsync(file.fileno())
            os.chmod(beside, 0o666 & ~mask)
            put(beside, path, self.force)
        finally:
            if os.path.exists(beside):
                os.unlink(beside)


def put(beside, path, force):
    """Gives a staged file its name. A link never takes the place of a file that has come meanwhile; not every disk has them."""
    if not force:
        try:
            os.link(beside, path)
            os.unlink(beside)
            return
        except FileExistsError:
            raise
        except OSError:
            if os.path.lexists(path):
                raise FileExistsError from None
    os.replace(beside, path)


def say(data):
    """Text or bytes on standard output, now. Where it cannot be written, that is said."""
    if sys.stdout is None:
        raise BadInput("standard output is closed")
    try:
        if isinstance(data, str):
            encoding = sys.stdout.encoding or "ascii"
            try:
                data = data.encode(encoding)
            except UnicodeEncodeError:
                data = data.translate(PLAIN).encode(encoding, "replace")
        sys.stdout.buffer.write(data)
        sys.stdout.flush()
    except (OSError, ValueError) as error:
        silence()
        raise BadInput(f"standard output: {getattr(error, 'strerror', None) or error}") from None


def tell(text):
    """Text on standard error, as far as that takes it."""
    try:
        if sys.stderr is not None:
            encoding = sys.stderr.encoding or "ascii"
            try:
                text.encode(encoding)
            except UnicodeEncodeError:
                text = text.translate(PLAIN).encode(encoding, "replace").decode(encoding)
            sys.stderr.write(text)
            sys.stderr.flush()
    except (OSError, ValueError):
        pass


def silence():
    """Nothing more goes to standard output, not even when the program ends."""
    try:
        nowhere = os.open(os.devnull, os.O_WRONLY)
        os.dup2(nowhere, 1)
        os.close(nowhere)
    except OSError:
        pass
