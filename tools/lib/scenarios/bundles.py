"""Bundles: a design, the line %%%, and a scenario; and places in them."""

DIVIDER = b"%%%"
MOST_BYTES = 16_777_216
BYTE_ORDER_MARK = b"\xef\xbb\xbf"


class Refused(Exception):
    """What a tool cannot do, in words for its user."""


def read(path):
    """The bytes of a file."""
    try:
        with open(path, "rb") as file:
            return file.read()
    except OSError as error:
        raise Refused(f"{path}: {error.strerror}") from error


def without_mark(data):
    """The bytes without a byte order mark before them."""
    return data[len(BYTE_ORDER_MARK) :] if data.startswith(BYTE_ORDER_MARK) else data


def join(path, model, scenario):
    """The bundle of a design and a scenario: byte order marks are taken off, and a line end that is missing added."""
    model, scenario = without_mark(model), without_mark(scenario)
    found = divider_at(model + b"\n")
    if found:
        line = model.count(b"\n", 0, found[0]) + 1
        raise Refused(f"{path}:{line}:1: a line %%% would end the design here; remove it")
    if model and not model.endswith(b"\n"):
        model += b"\n"
    bundle = model + DIVIDER + b"\n" + scenario
    if len(bundle) > MOST_BYTES:
        raise Refused(f"{path}: the bundle would have {len(bundle):,} bytes; it may have {MOST_BYTES:,}")
    return bundle


def divider_at(data):
    """Where the first line begins that is exactly %%%, and where the next one does; or None."""
    start = 0
    while start <= len(data):
        end = data.find(b"\n", start)
        end = len(data) if end < 0 else end
        line = data[start:end]
        if line == DIVIDER or (line == DIVIDER + b"\r" and end < len(data)):
            return start, min(end + 1, len(data))
        start = end + 1
    return None


class Bundle:
    """A bundle with its two parts, the places in it, and the file or the two files that it is made of."""

    def __init__(self, path, data, scenario_path=None):
        self.path, self.scenario_path = path, scenario_path
        self.data = data
        found = divider_at(data)
        self.has_divider = found is not None
        self.design_end, self.scenario_start = found or (len(data), len(data))
        self.starts = [0]
        for number, line in enumerate(data.split(b"\n")[:-1]):
            self.starts.append(self.starts[number] + len(line) + 1)

    @property
    def design(self):
        """The bytes of the design."""
        return self.data[: self.design_end]

    @property
    def scenario(self):
        """The bytes of the scenario."""
        return self.data[self.scenario_start :]

    def place(self, offset):
        """Line and column of a byte, both from 1, the column in bytes."""
        low, high = 0, len(self.starts)
        while high - low > 1:
            middle = (low + high) // 2
            low, high = (middle, high) if self.starts[middle] <= offset else (low, middle)
        return low + 1, offset - self.starts[low] + 1

    def file_and_line(self, number):
        """The file that has a line of the bundle, and the line's number there."""
        first = self.place(self.scenario_start)[0]
        if self.scenario_path is None or number < first:
            return self.path, number
        return self.scenario_path, number - first + 1

    def line(self, number):
        """The text of a line, from 1, without its end."""
        if not 1 <= number <= len(self.starts):
            return b""
        start = self.starts[number - 1]
        end = self.data.find(b"\n", start)
        return self.data[start : len(self.data) if end < 0 else end].rstrip(b"\r")


def read_design(path):
    """The bytes of a file with a design, without a byte order mark."""
    return without_mark(read(path))


def bundle_of(path, scenario_path=None):
    """The bundle in a file, or that of a design and a scenario in two. A byte order mark of a design is removed; in a
    bundle the program refuses it."""
    if scenario_path is None:
        return Bundle(path, read_design(path) if path.endswith(".aadl") else read(path))
    return Bundle(path, join(path, read(path), read(scenario_path)), scenario_path)
