"""The version of the program and its tools: the first line of the file VERSION."""

import os

from ..explaining.page import TOP, lines_of

VERSION = (lines_of(os.path.join(TOP, "VERSION")) or ["0"])[0].strip() or "0"
