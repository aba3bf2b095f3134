"""A step by the C that tools/code2c made of it, as terms: its statements are read from the text."""

import re

from ..scenarios.bundles import Refused
from .terms import ONE, ZERO, Paths

MOST_TURNS = 20_000
NAME, NUMBER = r"[A-Za-z_]\w*", r"-?INT64_C\(\d+\)|INT64_MIN|-?\d+"
VALUE = rf"f->{NAME}|in\[\d+\]\.number|{NAME}|{NUMBER}"
SIGN = r"==|!=|<=|>=|<|>"
FORMS = [(kind, re.compile(form)) for kind, form in (
    ("label", rf"({NAME}):"),
    ("held", rf"if \(in\[(\d+)\]\.present\) {{ ({VALUE}) = in\[\d+\]\.number; }}"),
    ("return_if", r"if \(halt != PALS_GOES\) { return halt; }"),
    ("goto_if", rf"if \(({VALUE}) ({SIGN}) ({VALUE})\) {{ goto ({NAME}); }}"),
    ("break_if", rf"if \(({VALUE}) >= ({VALUE})\) {{ break; }}"),
    ("case", rf"case (\d+): goto ({NAME});"),
    ("otherwise", r"default: halt = PALS_BAD_STATE; goto trap;"),
    ("end", r"f->state = (\d+); goto done;"),
    ("goto", rf"goto ({NAME});"),
    ("present", rf"({NAME}) = in\[(\d+)\]\.present \? 1 : 0;"),
    ("compare", rf"({NAME}) = \(({VALUE}) ({SIGN}) ({VALUE})\) \? 1 : 0;"),
    ("connect", rf"({NAME}) = \(\(({VALUE}) != 0\) (&&|\|\||!=) \(({VALUE}) != 0\)\) \? 1 : 0;"),
    ("call", rf"halt = pals_(\w+)\(({VALUE})(?:, ({VALUE}))?, &({NAME})\);"),
    ("emit", rf"(?:pals_value )?({NAME}) = (?:\(pals_value\))?{{({VALUE}), (true|false)}};"),
    ("show", rf"(out\[\d+\]) = ({NAME});"),
    ("increment", rf"({NAME}) \+= 1;"),
    ("assign", rf"(?:int32_t |int64_t )?({NAME}|f->{NAME}) = ({VALUE});"),
    ("back", r"return (PALS_GOES|halt);"),
    ("nothing", r"(?:\(void\)\w+;|switch \(f->state\) {|})?"),
)]


def statements(text, name):
    """The statements of the step in a source, with the statements of a loop as a list."""
    begin = text.find(f"int32_t {name}_step(")
    end = text.find("\n}", begin)
    if begin < 0 or end < 0:
        raise Refused(f"{name}.c has no step")
    stack = [[]]
    for line in text[begin:end].split("\n")[2:]:
        bare = re.sub(r"\s*/\*.*?\*/\s*$", "", line).strip()
        if bare == "for (;;) {":
            stack.append([])
        elif bare == "}" and len(stack) > 1:
            body = stack.pop()
            stack[-1].append(body)
        else:
            stack[-1].append(bare)
    return stack[0]


class ByC:
    """A step by its statements."""

    def __init__(self, terms, component, values, text, name):
        self.terms, self.component, self.turns, self.broken = terms, component, 0, False
        self.paths = Paths(terms, True, dict(values))
        self.entry = values["f->state"]
        self.run(statements(text, name))

    def value(self, word):
        """The value of a word."""
        number = re.fullmatch(r"(-?)(?:INT64_C\()?(\d+)\)?", word)
        if number:
            return int(number[2]) * (-1 if number[1] else 1)
        fixed = {"INT64_MIN": -(2**63), "PALS_GOES": ZERO}
        return fixed[word] if word in fixed else self.paths.values.get(word, ZERO)

    def set(self, name, value):
        """Sets a value."""
        self.paths.values[name] = value

    def run(self, lines):
        """Some statements."""
        for line in lines:
            if isinstance(line, list):
                self.loop(line)
                continue
            found = next(((kind, form.fullmatch(line)) for kind, form in FORMS if form.fullmatch(line)), None)
            if found is None:
                raise Refused(f"{self.component.path}: a statement of the C cannot be read: {line[:80]}")
            if found[0] == "label" or self.paths.condition is not False:
                getattr(self, f"do_{found[0]}")(*found[1].groups())

    def loop(self, body):
        """A loop, turn by turn, up to its break."""
        self.broken = False
        while self.paths.condition is not False and not self.broken:
            self.turns += 1
            if self.turns > MOST_TURNS:
                raise Refused(f"{self.component.path}: its loops have more than {MOST_TURNS:,} turns")
            for line in body:
                if not self.broken or isinstance(line, list):
                    self.run([line])
        self.broken = False

    def do_label(self, name):
        self.paths.reach(name)

    def do_held(self, at, name):
        self.set(name, self.terms.choice(self.value(f"in[{at}].present"), self.value(f"in[{at}].number"),
                                         self.value(name)))

    def do_return_if(self):
        self.paths.leave("back", self.terms.compare("!=", self.value("halt"), ZERO))

    def do_goto_if(self, left, sign, right, label):
        self.paths.leave(label, self.terms.compare(sign, self.value(left), self.value(right)))

    def do_break_if(self, left, right):
        found = self.terms.compare(">=", self.value(left), self.value(right))
        if not isinstance(found, bool):
            raise Refused(f"{self.component.path}: the end of a loop depends on more than its counter")
        self.broken = found

    def do_case(self, number, label):
        self.paths.leave(label, self.terms.compare("==", self.entry, int(number)))

    def do_otherwise(self):
        self.set("halt", 3)
        self.paths.leave("trap")

    def do_end(self, state):
        self.set("f->state", int(state))
        self.paths.leave("done")

    def do_goto(self, label):
        self.paths.leave(label)

    def do_present(self, name, at):
        self.set(name, self.terms.number(self.value(f"in[{at}].present")))

    def do_compare(self, name, left, sign, right):
        self.set(name, self.terms.number(self.terms.compare(sign, self.value(left), self.value(right))))

    def do_connect(self, name, left, sign, right):
        terms = self.terms
        one, other = (terms.compare("!=", self.value(word), ZERO) for word in (left, right))
        if sign == "&&":
            found = terms.both(one, other)
        elif sign == "||":
            found = terms.either(one, other)
        else:
            found = terms.either(terms.both(one, terms.negated(other)), terms.both(terms.negated(one), other))
        self.set(name, terms.number(found))

    def do_call(self, name, left, right, to):
        words = [left] if right is None else [left, right]
        result, trap = self.terms.operator(name, *map(self.value, words))
        self.set("halt", trap)
        self.set(to, self.terms.choice(self.terms.compare("==", trap, ZERO), result, self.value(to)))

    def do_emit(self, name, number, present):
        self.set(f"{name}.present", present == "true")
        self.set(f"{name}.number", self.value(number))

    def do_show(self, name, shown):
        self.set(f"{name}.present", self.paths.values.get(f"{shown}.present", False))
        self.set(f"{name}.number", self.value(f"{shown}.number"))

    def do_increment(self, name):
        value = self.value(name)
        if not isinstance(value, int):
            raise Refused(f"{self.component.path}: the counter of a loop is set in its body")
        self.set(name, value + ONE)

    def do_assign(self, name, word):
        self.set(name, self.value(word))

    def do_back(self, _):
        self.paths.leave("back")

    def do_nothing(self):
        pass

    def after(self):
        """The values after the step."""
        self.paths.condition = False
        self.paths.reach("back")
        return self.paths.values


