"""Which names a piece of source binds and reads, and which variables its inner pieces share.

A loop's body, what a `try` runs and a comprehension become functions of the machine: such a piece is called a part of
the function that it stands in. What a part or an inner function shares with the function around is kept in cells.
"""

from __future__ import annotations

import ast
from collections.abc import Iterable, Iterator
from typing import Union

Function = Union[ast.FunctionDef, ast.AsyncFunctionDef, ast.Lambda]
FUNCTIONS = (ast.FunctionDef, ast.AsyncFunctionDef, ast.Lambda)
COMPREHENSIONS = (ast.ListComp, ast.SetComp, ast.DictComp, ast.GeneratorExp)


def own_nodes(nodes: Iterable[ast.AST]) -> Iterator[ast.AST]:
    """All nodes below these that belong to the same scope: what a nested function or class holds is left out."""
    for node in nodes:
        yield node
        if isinstance(node, FUNCTIONS):
            yield from own_nodes(evaluated_at_once(node))
        elif isinstance(node, ast.ClassDef):
            keywords = [keyword.value for keyword in node.keywords]
            yield from own_nodes([*node.decorator_list, *node.bases, *keywords])
            entries = [value for entry in node.body for value in values_of_entry(entry)]
            yield from (it for it in own_nodes(entries) if not is_store(it))
        else:
            yield from own_nodes(ast.iter_child_nodes(node))


def evaluated_at_once(node: Function) -> list[ast.AST]:
    """What is evaluated where a function stands: its decorators and its default values."""
    defaults = [*node.args.defaults, *(it for it in node.args.kw_defaults if it)]
    return [*getattr(node, "decorator_list", []), *defaults]


def values_of_entry(entry: ast.stmt) -> list[ast.AST]:
    """What a statement of a class's body evaluates there itself."""
    if isinstance(entry, FUNCTIONS):
        return evaluated_at_once(entry)
    if isinstance(entry, ast.ClassDef):
        return [entry]
    value = getattr(entry, "value", None)
    return [value] if isinstance(entry, (ast.Assign, ast.AnnAssign, ast.Expr)) and value else []


def is_store(node: ast.AST) -> bool:
    """Whether the node is a name that is bound."""
    return isinstance(node, ast.Name) and isinstance(node.ctx, ast.Store)


def targets_of_comprehensions(nodes: Iterable[ast.AST]) -> set[int]:
    """The nodes of names that comprehensions bind, which are the comprehensions' own."""
    own: set[int] = set()
    for node in nodes:
        if isinstance(node, COMPREHENSIONS):
            own |= {id(it) for part in node.generators for it in ast.walk(part.target)}
    return own


def names_bound(nodes: Iterable[ast.AST]) -> set[str]:
    """The names that these statements or expressions bind in their own scope."""
    every = list(own_nodes(nodes))
    own, found, elsewhere = targets_of_comprehensions(every), set[str](), set[str]()
    for node in every:
        if is_store(node) and id(node) not in own:
            found.add(node.id)
        elif isinstance(node, ast.Name) and isinstance(node.ctx, ast.Del):
            found.add(node.id)
        elif isinstance(node, (ast.FunctionDef, ast.AsyncFunctionDef, ast.ClassDef)):
            found.add(node.name)
        elif isinstance(node, (ast.Global, ast.Nonlocal)):
            elsewhere |= set(node.names)
        elif isinstance(node, ast.ExceptHandler) and node.name:
            found.add(node.name)
    return found - elsewhere


def names_deleted(nodes: Iterable[ast.AST]) -> set[str]:
    """The names whose variables are deleted in this scope."""
    return {node.id for node in own_nodes(nodes) if isinstance(node, ast.Name) and isinstance(node.ctx, ast.Del)}


def names_declared(nodes: Iterable[ast.AST]) -> set[str]:
    """The names that are declared global anywhere below these nodes."""
    walked = (it for node in nodes for it in ast.walk(node) if isinstance(it, ast.Global))
    return {name for it in walked for name in it.names}


def parts_of(node: ast.AST) -> list[ast.AST]:
    """What of a node is a part of the function around, if anything is."""
    if isinstance(node, ast.For):
        return [node.target, *node.body]
    if isinstance(node, ast.While):
        return [node.test, *node.body]
    if isinstance(node, ast.Try):
        return list(node.body)
    if isinstance(node, COMPREHENSIONS):
        first, *others = node.generators
        return [first.target, *first.ifs, *others, *(getattr(node, it, None) for it in ("elt", "key", "value"))]
    return []


def needs_cells(nodes: Iterable[ast.AST]) -> bool:
    """Whether a part stands among the nodes of this scope, or a function whose default values have to be kept."""
    every = list(own_nodes(nodes))
    defaults = (it for node in inner_functions(nodes) for it in (*node.args.defaults, *node.args.kw_defaults))
    is_kept = any(it is not None and not isinstance(it, ast.Constant) for it in defaults)
    return is_kept or any(parts_of(node) for node in every)


def in_parts(nodes: Iterable[ast.AST], is_stored: bool = False) -> set[str]:
    """The names that occur in parts of this scope, or those alone that are bound there."""
    every = list(own_nodes(nodes))
    below = [it for node in every for it in parts_of(node) if it]
    if is_stored:
        return names_bound(below)
    return {it.id for node in below for it in ast.walk(node) if isinstance(it, ast.Name)} | names_bound(below)


def inner_functions(nodes: Iterable[ast.AST]) -> Iterator[Function]:
    """The functions that stand in this scope or in classes of it, and not in another function."""
    for node in nodes:
        if isinstance(node, FUNCTIONS):
            yield node
            yield from inner_functions(evaluated_at_once(node))
        else:
            yield from inner_functions(ast.iter_child_nodes(node))


def parameters_of(node: Function) -> set[str]:
    """The names of a function's parameters."""
    given = node.args
    every = [*given.posonlyargs, *given.args, *given.kwonlyargs, given.vararg, given.kwarg]
    return {it.arg for it in every if it}


def body_of(node: Function) -> list[ast.AST]:
    """The body of a function as a list."""
    return [node.body] if isinstance(node, ast.Lambda) else list(node.body)


def free_names(node: Function) -> set[str]:
    """The names that a function reads or sets and doesn't bind itself."""
    body = body_of(node)
    read = {it.id for it in own_nodes(body) if isinstance(it, ast.Name)}
    read |= {name for it in own_nodes(body) if isinstance(it, ast.Nonlocal) for name in it.names}
    for inner in inner_functions(body):
        read |= free_names(inner)
    # (entries of a class see the function around, and its functions don't see the entries)
    return read - names_bound(body) - parameters_of(node)


def shared(nodes: list[ast.AST]) -> set[str]:
    """The names of a function's body that have to be kept in cells, where they are its variables."""
    inner = (free_names(it) for it in inner_functions(nodes))
    return in_parts(nodes) | names_deleted(nodes) | set[str]().union(*inner)
