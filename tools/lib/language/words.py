"""Words that are not names: keywords of a behaviour annex, and AADL keywords that this subset omits."""

BEHAVIOUR = "behavior_specification"
# Keywords inside of a behaviour annex, including the keywords of properties.
ANNEX = frozenset(
    "abs and applies classifier complete constant dispatch else elsif end false fresh for if in initial mod not on or "
    "otherwise reference rem state states then to transitions true variables xor".split()
)
# Keywords outside of behaviour annexes.
DECLARATIONS = frozenset(
    "annex applies classifier connections constant data end features implementation in none out package port process "
    "properties public reference subcomponents system thread to with".split()
)
# Words that begin what AADL or its annex has, and this subset leaves out.
LEFT_OUT = frozenset(
    "abstract access bus calls computation data device event extends feature final flows frozen group inverse memory "
    "modes parameter private processor property prototypes provides renames requires stop subprogram timeout virtual "
    "while".split()
)
