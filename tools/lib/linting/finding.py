"""What is accepted and likely not meant: a rule, the name that it is about, its place, a sentence, and what to do."""

from collections import namedtuple

# A replacement of a text at an offset by a new one; an insertion replaces the empty text.
Edit = namedtuple("Edit", "offset old new")
# The only change that removes a finding: its title in the imperative, and its edits.
Fix = namedtuple("Fix", "title edits")


class Found:
    """One finding; its fix is None if several changes remove it."""

    def __init__(self, rule, about, offset, what, *more, fix=None):
        self.rule, self.about, self.offset, self.what, self.more, self.fix = rule, about, offset, what, more, fix
