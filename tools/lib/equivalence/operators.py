"""Whether each operator of pals_step.h computes its definition (docs/language.md), as questions to cvc5 over whole
numbers: for all operands of 64 bits, no operation is undefined in C, the trap is right, and so is the result."""

from .c_functions import Ways, functions_in
from .terms import TRAPPING

PRELUDE = f"""(set-logic QF_NIA)
(define-fun fits ((x Int)) Bool (and (<= (- {2**63}) x) (<= x {2**63 - 1})))
(define-fun quotient ((x Int) (y Int)) Int
  (ite (= (>= x 0) (> y 0)) (div (abs x) (abs y)) (- (div (abs x) (abs y)))))
(define-fun remainder ((x Int) (y Int)) Int (- x (* y (quotient x y))))
(define-fun with_sign_of ((y Int) (r Int)) Int (ite (or (= r 0) (= (< r 0) (< y 0))) r (+ r y)))
(declare-const a Int)
(declare-const b Int)
(declare-const before Int)
(assert (and (fits a) (fits b) (fits before)))
"""
# The exact result of each operator (crates/pals_base/specs/Arithmetic.antt); those that divide trap at 0.
EXACT = {"add": "(+ a b)", "sub": "(- a b)", "mul": "(* a b)", "quot": "(quotient a b)", "rem": "(remainder a b)",
         "mod": "(with_sign_of b (remainder a b))", "neg": "(- a)", "abs": "(abs a)"}
DIVIDING = ("quot", "rem", "mod")


def trap_of(name):
    """The trap of an operator by its definition."""
    overflow = f"(ite (fits {EXACT[name]}) 0 1)"
    return f"(ite (= b 0) 2 {overflow})" if name in DIVIDING else overflow


def questions(header):
    """For each operator its questions: each is unsatisfiable if the operator is right on one way through it."""
    ways = Ways(functions_in(header))
    for name, count in TRAPPING.items():
        found = []
        for way in ways.of(name, ["a", "b"][:count], "before"):
            found.append([way.condition, f"(not (and true {' '.join(way.defined)}))"])
            found.append([way.condition, f"(distinct {way.trap} {trap_of(name)})"])
            if way.trap == "0":
                found.append([way.condition, f"(distinct {way.to} {EXACT[name]})"])
        yield name, [PRELUDE + "".join(f"(assert {it})\n" for it in lines) + "(check-sat)\n" for lines in found]
