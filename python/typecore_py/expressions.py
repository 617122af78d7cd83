"""Expressions of Python as forms of the machine's language."""

from __future__ import annotations

import ast
from typing import Callable

from . import calls, definitions, loops
from .refusal import refuse, refuse_kind
from .scope import Form, Scope
from .words import BINARY, COMPARISONS, DENIED, UNARY

LOWEST, HIGHEST = -(2**63), 2**63 - 1

# Variables that no source can name: they hold what is evaluated once and used twice.
KEPT, MIDDLE = "(kept)", "(middle)"

CONVERSIONS = {ord("s"): "str", ord("r"): "repr"}


class Given(ast.expr):
    """An expression whose form is given."""

    def __init__(self, form: Form) -> None:
        super().__init__()
        self.form = form


def form_of(node: ast.expr, scope: Scope) -> Form:
    """The form that gives what the expression gives."""
    made = MAKERS.get(type(node))
    return made(node, scope) if made else refuse_kind(node)


def forms_of(nodes: list[ast.expr], scope: Scope) -> list[Form]:
    """The forms of expressions, in order."""
    return [form_of(node, scope) for node in nodes]


def constant(node: ast.Constant, _scope: Scope) -> Form:
    value = node.value
    if value is None or isinstance(value, bool):
        return value
    if isinstance(value, int):
        return integer(node, value)
    if isinstance(value, str):
        if any("\ud800" <= letter <= "\udfff" for letter in value):
            refuse(node, "a text with half a character can't be said")
        return value
    refuse(node, f"a constant of the class {type(value).__name__} can't be said")


def integer(node: ast.expr, value: int) -> Form:
    if not LOWEST <= value <= HIGHEST:
        refuse(node, "an integer in a source has 64 bits")
    return value


def name(node: ast.Name, scope: Scope) -> Form:
    return scope.read(node)


def named(node: ast.NamedExpr, scope: Scope) -> Form:
    value = form_of(node.value, scope)
    return scope.bind(node, node.target.id, value)


def unary(node: ast.UnaryOp, scope: Scope) -> Form:
    operand = node.operand
    if isinstance(node.op, ast.USub) and isinstance(operand, ast.Constant) and type(operand.value) is int:
        return integer(node, -operand.value)
    return ["op", UNARY[type(node.op)], form_of(operand, scope)]


def binary(node: ast.BinOp, scope: Scope) -> Form:
    return ["op", BINARY[type(node.op)], form_of(node.left, scope), form_of(node.right, scope)]


def connected(node: ast.BoolOp, scope: Scope) -> Form:
    """`a and b`, `a or b`: the first operand is kept, since it may be the value."""
    *before, last = node.values
    if not before:
        return form_of(last, scope)
    first, rest = before[0], ast.BoolOp(node.op, node.values[1:])
    held = ["bind", KEPT, form_of(first, scope)]
    _, other = scope.apart(lambda: None, lambda: connected(rest, scope))
    kept = ["name", KEPT]
    return ["if", held, other, kept] if isinstance(node.op, ast.And) else ["if", held, kept, other]


def compared(node: ast.Compare, scope: Scope) -> Form:
    return chained(form_of(node.left, scope), node.ops, node.comparators, scope)


def chained(left: Form, words: list[ast.cmpop], operands: list[ast.expr], scope: Scope) -> Form:
    """A chain of comparisons. What stands between two of them is evaluated once, and kept."""
    right = form_of(operands[0], scope)
    if len(words) == 1:
        return one_comparison(words[0], left, right)
    held = ["bind", KEPT, one_comparison(words[0], left, ["bind", MIDDLE, right])]
    _, rest = scope.apart(lambda: None, lambda: chained(["name", MIDDLE], words[1:], operands[1:], scope))
    return ["if", held, rest, ["name", KEPT]]


def one_comparison(word: ast.cmpop, left: Form, right: Form) -> Form:
    if type(word) in DENIED:
        return ["op", "not", ["op", DENIED[type(word)], left, right]]
    return ["op", COMPARISONS[type(word)], left, right]


def chosen(node: ast.IfExp, scope: Scope) -> Form:
    test = form_of(node.test, scope)
    return ["if", test, *scope.apart(lambda: form_of(node.body, scope), lambda: form_of(node.orelse, scope))]


def attribute(node: ast.Attribute, scope: Scope) -> Form:
    return ["attr", form_of(node.value, scope), scope.mangled(node.attr)]


def item(node: ast.Subscript, scope: Scope) -> Form:
    return ["op", "slice" if isinstance(node.slice, ast.Slice) else "getitem", *place(node, scope)]


def place(node: ast.Subscript, scope: Scope) -> list[Form]:
    """The object and its index, or the object and the two bounds of a slice."""
    index = node.slice
    if not isinstance(index, ast.Slice):
        return [form_of(node.value, scope), form_of(index, scope)]
    return [form_of(node.value, scope), *bounds(index, scope)]


def bounds(index: ast.Slice, scope: Scope) -> list[Form]:
    """The two bounds of a slice. One that is left out leads no further than the end."""
    if index.step is not None and not (isinstance(index.step, ast.Constant) and index.step.value in (1, None)):
        refuse(index.step, "a slice has no step: a for loop over the items serves instead")
    lower = 0 if is_left_out(index.lower) else form_of(index.lower, scope)
    return [lower, HIGHEST if is_left_out(index.upper) else form_of(index.upper, scope)]


def is_left_out(bound: ast.expr | None) -> bool:
    """Whether a bound of a slice is left out, or None."""
    return bound is None or isinstance(bound, ast.Constant) and bound.value is None


def sequence_of(word: str) -> Callable[[ast.Tuple | ast.List, Scope], Form]:
    return lambda node, scope: displayed(word, node.elts, scope)


def displayed(word: str, items: list[ast.expr], scope: Scope) -> Form:
    """A tuple or a list of items, some of which may be starred."""
    runs = calls.runs(items, scope)
    if all(word == "tuple" for word, _ in runs):
        return [word, *(form for _, forms in runs for form in forms)]
    joined = calls.joined(runs)
    return joined if word == "tuple" else ["op", "tolist", joined]


def dictionary(node: ast.Dict, scope: Scope) -> Form:
    pairs = []
    for key, value in zip(node.keys, node.values):
        if key is None:
            refuse(value, "a dict within a dict's display can't be said")
        pairs.append([form_of(key, scope), form_of(value, scope)])
    return ["dict", *pairs]


def anonymous(node: ast.Lambda, scope: Scope) -> Form:
    """A lambda."""
    return definitions.function_of(node, "<lambda>", scope)


def formatted(node: ast.JoinedStr, scope: Scope) -> Form:
    """A formatted string: its parts are evaluated, made texts and joined in order."""
    parts = [text_of_part(it, scope) for it in node.values]
    form = parts[0] if parts else ""
    for part in parts[1:]:
        form = ["op", "concat", form, part]
    return form


def text_of_part(part: ast.expr, scope: Scope) -> Form:
    """A part of a formatted string as a text."""
    if not isinstance(part, ast.FormattedValue):
        return form_of(part, scope)
    value = form_of(part.value, scope)
    if part.conversion == ord("a"):
        refuse(part, "the conversion !a can't be said: !r serves instead")
    if part.conversion in CONVERSIONS:
        value = ["op", CONVERSIONS[part.conversion], value]
    spec = part.format_spec
    return ["op", "format", value, "" if spec is None else form_of(spec, scope)]


def kept_once(node: ast.expr, scope: Scope) -> tuple[Form, Form]:
    """The form that evaluates an expression, and the one that gives its value again at once after that."""
    form = form_of(node, scope)
    if isinstance(node, ast.Constant) or (isinstance(form, list) and form[0] == "name"):
        return form, form
    return ["bind", KEPT, form], ["name", KEPT]


def is_plain(node: ast.expr) -> bool:
    """Whether nothing that can be seen happens as the expression is evaluated, beside an unbound name's fault."""
    if isinstance(node, (ast.Tuple, ast.List)):
        return all(is_plain(part) for part in node.elts)
    return isinstance(node, (ast.Constant, ast.Name, ast.Lambda))


MAKERS: dict[type[ast.expr], Callable[..., Form]] = {
    ast.Attribute: attribute,
    ast.BinOp: binary,
    ast.BoolOp: connected,
    ast.Call: lambda node, scope: calls.called(node, scope),
    ast.Compare: compared,
    ast.Constant: constant,
    ast.Dict: dictionary,
    ast.IfExp: chosen,
    ast.JoinedStr: formatted,
    ast.Lambda: anonymous,
    ast.List: sequence_of("list"),
    ast.ListComp: lambda node, scope: loops.comprehension(node, scope),
    Given: lambda node, _scope: node.form,
    ast.Name: name,
    ast.NamedExpr: named,
    ast.Subscript: item,
    ast.Tuple: sequence_of("tuple"),
    ast.UnaryOp: unary,
}
