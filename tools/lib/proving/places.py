"""The positions in a design's text that the instructions of step code come from.

The instructions of a behaviour are laid out again from its tokens, in the order of docs/step_code.md. If the listing
has the same names, each place of the code has the position of its token."""

from ..language.tokens import word_of
from ..language.tree import behaviour_of

COMPARING = {"=": "Eq", "!=": "Ne", "<": "Lt", "<=": "Le", ">": "Gt", ">=": "Ge"}
ADDING = {"+": "Add", "-": "Sub"}
MULTIPLYING = {"*": "Mul", "/": "Quot", "mod": "Mod", "rem": "Rem"}
LOGICAL = {"and": "And", "or": "Or", "xor": "Xor"}


class Place:
    """An instruction with the offset of its token, and its part in the text: guard, if, and then, or else, transition,
    or nothing."""

    def __init__(self, name, offset, part=""):
        self.name, self.offset, self.part = name, offset, part


class Layout:
    """Lays out the code of one behaviour. `decisions` has the tree of each guard and each condition of an `if`, by the
    place of its `JumpZero`: ("leaf", place) for a condition, else a logical operator with its parts."""

    def __init__(self, tokens, behaviour, component):
        self.tokens, self.behaviour = tokens, behaviour
        self.numbers = {token.offset: at for at, token in enumerate(tokens)}
        self.ins, self.outs = ({it.name.lower() for it in ports} for ports in (component.ins, component.outs))
        self.complete = {it.name.text.lower() for it in behaviour.states if it.complete}
        self.at, self.found, self.decisions = 0, [], {}
        for state in self.order():
            for transition in behaviour.transitions:
                if transition.source.text.lower() == state:
                    self.transition(transition)

    def order(self):
        """The states by the order of their blocks: complete ones, then each that no remaining one leads to."""
        names = [it.name.text.lower() for it in self.behaviour.states]
        found = [name for name in names if name in self.complete]
        left = [name for name in names if name not in self.complete]
        while left:
            into = {it.target.text.lower() for it in self.behaviour.transitions if it.source.text.lower() in left}
            free = [name for name in left if name not in into]
            if not free:
                break
            found.append(free[0])
            left.remove(free[0])
        return found

    def emit(self, name, offset, part=""):
        """Adds an instruction."""
        self.found.append(Place(name, offset, part))

    def word(self):
        """The next token's text, in lower case."""
        return word_of(self.tokens[self.at]).lower()

    def next(self):
        """Takes a token."""
        self.at += 1
        return self.tokens[self.at - 1]

    def may(self, *words):
        """Takes the next token if it is one of some words: its text and its offset."""
        if self.word() in words:
            token = self.next()
            return word_of(token).lower(), token.offset
        return None

    def transition(self, transition):
        """A transition: its guard, its actions, and where it leads to."""
        self.at = self.numbers[transition.offset]
        while self.word() != "-[":
            self.next()
        self.next()
        if transition.guard not in ("dispatch", "otherwise", "none"):
            offset = self.tokens[self.at].offset
            self.decide(self.expression(), offset, "guard")
        self.at = self.numbers[transition.target.offset] + 1
        if self.may("{"):
            self.actions("}")
        target = transition.target.text.lower()
        self.emit("End" if target in self.complete else "Jump", transition.offset, "transition")

    def decide(self, tree, offset, part):
        """The jump of a decision."""
        self.decisions[len(self.found)] = tree
        self.emit("JumpZero", offset, part)

    def actions(self, *ends):
        """Actions up to a word that ends them."""
        while self.word() not in ends:
            if not self.may(";"):
                self.action()

    def action(self):
        """One action."""
        token = self.next()
        word = word_of(token).lower()
        if word == "if":
            self.choice(token.offset)
        elif word == "for":
            self.loop(token.offset)
        else:
            if self.may("!"):
                self.next()
                self.expression()
                self.next()
            else:
                self.next()
                self.expression()
            self.emit("Emit" if word in self.outs else "Store", token.offset)

    def choice(self, offset):
        """`if` to `end if`."""
        branch = offset
        while branch is not None:
            self.next()
            tree = self.expression()
            self.next()
            self.decide(tree, branch, "if")
            self.actions("elsif", "else", "end")
            self.emit("Jump", branch)
            taken = self.may("elsif")
            branch = taken[1] if taken else None
        if self.may("else"):
            self.actions("end")
        self.next()
        self.next()

    def loop(self, offset):
        """A loop: its numbers are part of its instructions."""
        self.emit("LoopStart", offset)
        while self.word() != "{":
            self.next()
        self.next()
        self.actions("}")
        self.next()
        self.emit("LoopNext", offset)

    def expression(self):
        """Relations with logical operators between them; gives the tree."""
        tree = self.relation()
        while self.word() in LOGICAL:
            word, offset = self.may(*LOGICAL)
            if word == "and" and self.may("then"):
                self.emit("JumpZero", offset, "and then")
                tree = ("and then", tree, self.relation())
                self.emit("Jump", offset)
                self.emit("Push", offset)
            elif word == "or" and self.may("else"):
                self.emit("JumpZero", offset, "or else")
                self.emit("Push", offset)
                self.emit("Jump", offset)
                tree = ("or else", tree, self.relation())
            else:
                tree = (word, tree, self.relation())
                self.emit(LOGICAL[word], offset)
        return tree

    def leaf(self):
        """The tree of a condition whose value the last instruction has left."""
        return "leaf", len(self.found) - 1

    def binary(self, operators, part):
        """Parts with operators between them, from the left; gives the tree of a part by itself."""
        tree = part()
        taken = self.may(*operators)
        while taken:
            part()
            self.emit(operators[taken[0]], taken[1])
            tree, taken = self.leaf(), self.may(*operators)
        return tree

    def relation(self):
        """A comparison, or a sum by itself."""
        tree = self.sum()
        taken = self.may(*COMPARING)
        if taken:
            self.sum()
            self.emit(COMPARING[taken[0]], taken[1])
            tree = self.leaf()
        return tree

    def sum(self):
        """Terms that are added; a sign belongs to the first one."""
        sign = self.may("+", "-")

        def first():
            return self.binary(MULTIPLYING, self.factor)

        tree = first()
        if sign and sign[0] == "-":
            self.emit("Neg", sign[1])
        taken = self.may(*ADDING)
        while taken:
            first()
            self.emit(ADDING[taken[0]], taken[1])
            tree, taken = self.leaf(), self.may(*ADDING)
        return tree

    def factor(self):
        """A literal, a name or a part in parentheses, perhaps with `abs` or `not`."""
        prefix, tree = self.may("abs", "not"), None
        token = self.next()
        word = word_of(token).lower()
        if word == "(":
            tree = self.expression()
            self.next()
        elif token.kind == "whole" or word in ("true", "false"):
            self.emit("Push", token.offset)
        elif self.may("'"):
            self.next()
            self.emit("Fresh", token.offset)
        else:
            self.emit("Port" if word in self.ins else "Load", token.offset)
        tree = tree or self.leaf()
        if prefix:
            self.emit({"abs": "Abs", "not": "Not"}[prefix[0]], prefix[1])
            tree = ("not", tree) if prefix[0] == "not" else self.leaf()
        return tree


def layout_of(tokens, impl, component):
    """The layout of a component's code, or None if the code is not laid out as it is here."""
    try:
        found = Layout(tokens, behaviour_of(impl), component)
    except (IndexError, KeyError):
        return None
    return found if [it.name for it in found.found] == [it[0] for it in component.code] else None
