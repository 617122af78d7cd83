"""Assignments: to names, attributes, items and slices, several of them, also in place, and deletions."""

from __future__ import annotations

import ast

from . import expressions
from .refusal import refuse
from .scope import Form, Scope
from .words import BINARY, BUILT_IN

# Variables that no source can name: what is assigned, and the place of an operation in place.
VALUE, PLACE, INDEX = "(value)", "(place)", "(index)"


def assignment(statement: ast.Assign, scope: Scope) -> list[Form]:
    """An assignment. It gives the value where its first target is a name, and else None."""
    targets = statement.targets
    value = expressions.form_of(statement.value, scope)
    if len(targets) == 1 and is_single(targets[0]):
        return one_assignment(targets[0], statement.value, value, scope)
    if all(isinstance(target, ast.Name) and target.id not in scope.cells for target in targets):
        for target in targets:
            value = scope.bind(target, target.id, value)
        return [value]
    kept = VALUE
    forms: list[Form] = [["bind", kept, value]]
    for target in targets:
        forms += to_target(target, ["name", kept], scope)
    return [*forms, ["name", kept] if isinstance(targets[0], ast.Name) else None]


def is_single(target: ast.expr) -> bool:
    """Whether a target is one place."""
    return not isinstance(target, (ast.Tuple, ast.List, ast.Starred))


def one_assignment(target: ast.expr, node: ast.expr, value: Form, scope: Scope) -> list[Form]:
    """An assignment to one place."""
    if isinstance(target, ast.Name):
        return [scope.bind(target, target.id, value)]
    if expressions.is_plain(node):
        return [setting(target, value, scope)]
    # (Python evaluates the value before the place, and a form for setting after it)
    return [["bind", VALUE, value], setting(target, ["name", VALUE], scope)]


def to_target(target: ast.expr, value: Form, scope: Scope, depth: int = 0) -> list[Form]:
    """The forms that give a target a value, which costs nothing to evaluate."""
    if isinstance(target, ast.Name):
        return [scope.bind(target, target.id, value, is_needed=False)]
    if is_single(target):
        return [setting(target, value, scope)]
    if isinstance(target, ast.Starred):
        refuse(target, "a starred target stands among others")
    return unpacked(target, value, scope, depth)


def unpacked(target: ast.Tuple | ast.List, value: Form, scope: Scope, depth: int) -> list[Form]:
    """The forms that give each target of several its item. There have to be just as many, but for a starred one."""
    kept, parts = f"(items {depth})", target.elts
    starred = [at for at, it in enumerate(parts) if isinstance(it, ast.Starred)]
    length = ["op", "len", ["name", kept]]
    if starred:
        fits = ["op", ">=", length, len(parts) - 1]
    else:
        fits = ["op", "==", length, len(parts)]
    forms: list[Form] = [["bind", kept, ["op", "totuple", value]], ["if", fits, None, ["raise", "ValueError"]]]
    for at, part in enumerate(parts):
        if starred and at == starred[0]:
            end = ["op", "-", length, len(parts) - 1 - at]
            item = ["op", "tolist", ["op", "slice", ["name", kept], at, end]]
            part = part.value
        else:
            item = ["op", "getitem", ["name", kept], at if not starred or at < starred[0] else at - len(parts)]
        if is_single(part):
            forms += one_part(part, item, scope)
        else:
            forms += to_target(part, item, scope, depth + 1)
    return forms


def one_part(part: ast.expr, item: Form, scope: Scope) -> list[Form]:
    """The forms that give one place an item."""
    if isinstance(part, ast.Name):
        return [scope.bind(part, part.id, item, is_needed=False)]
    return [setting(part, item, scope)]


def setting(target: ast.expr, value: Form, scope: Scope) -> Form:
    """The form that sets an attribute, an item or a slice."""
    match target:
        case ast.Attribute(value=held, attr=name):
            return ["setattr", expressions.form_of(held, scope), scope.mangled(name), value]
        case ast.Subscript(slice=index):
            word = "setslice" if isinstance(index, ast.Slice) else "setitem"
            return ["op", word, *expressions.place(target, scope), value]
    refuse(target, "only names, attributes, items and slices can be assigned to")


def in_place(statement: ast.AugAssign, scope: Scope) -> list[Form]:
    """An operation in place. What holds the place is evaluated once."""
    target, word = statement.target, BINARY[type(statement.op)] + "="
    if isinstance(target, ast.Name):
        held = scope.read(ast.copy_location(ast.Name(target.id, ast.Load()), target))
        return [scope.bind(target, target.id, ["op", word, held, expressions.form_of(statement.value, scope)])]
    before, place = kept_place(target, scope)
    operand = expressions.form_of(statement.value, scope)
    if isinstance(target, ast.Attribute):
        name = scope.mangled(target.attr)
        return [*before, ["setattr", place[0], name, ["op", word, ["attr", place[0], name], operand]]]
    words = ("slice", "setslice") if isinstance(target.slice, ast.Slice) else ("getitem", "setitem")
    return [*before, ["op", words[1], *place, ["op", word, ["op", words[0], *place], operand]]]


def kept_place(target: ast.Attribute | ast.Subscript, scope: Scope) -> tuple[list[Form], list[Form]]:
    """The forms that keep what holds a place, and those that give it again."""
    if isinstance(target, ast.Attribute):
        forms = [expressions.form_of(target.value, scope)]
    else:
        forms = expressions.place(target, scope)
    before: list[Form] = []
    for at, (name, form) in enumerate(zip((PLACE, INDEX, f"{INDEX} end"), forms)):
        if isinstance(form, list) and form[0] != "name":
            before.append(["bind", name, form])
            forms[at] = ["name", name]
    return before, forms


def deletion(target: ast.expr, scope: Scope) -> list[Form]:
    """The forms that take variables, attributes, items or slices out."""
    match target:
        case ast.Attribute(value=held, attr=name):
            return [["delattr", expressions.form_of(held, scope), scope.mangled(name)]]
        case ast.Subscript(slice=index):
            word = "delslice" if isinstance(index, ast.Slice) else "delitem"
            return [["op", word, *expressions.place(target, scope)]]
        case ast.Tuple(elts=parts) | ast.List(elts=parts):
            return [form for part in parts for form in deletion(part, scope)]
        case ast.Name(id=name):
            # (reading it is a NameError where it has no value)
            read = scope.read(ast.copy_location(ast.Name(name, ast.Load()), target))
            scope.bound.discard(scope.mangled(name))
            return [read, ["delattr", *read[1:]]]
    refuse(target, "only names, attributes, items and slices can be deleted")


def annotated(statement: ast.AnnAssign, scope: Scope) -> list[Form]:
    """An assignment with an annotation, which is left out."""
    plain_annotation(statement.annotation, scope)
    if statement.value is None:
        return []
    plain = ast.copy_location(ast.Assign([statement.target], statement.value), statement)
    return assignment(plain, scope)


def plain_annotation(annotation: ast.expr, scope: Scope) -> None:
    """Refuses an annotation of which something would be seen as it is evaluated."""
    is_known = isinstance(annotation, ast.Constant) or (
        isinstance(annotation, ast.Name) and (scope.is_variable(annotation.id) or annotation.id in BUILT_IN)
    )
    if not is_known:
        refuse(annotation, "an annotation is a name, None or a text here, and is left out")
