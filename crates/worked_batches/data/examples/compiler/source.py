"""The source language, which is a part of Python, and its types.

A program is a file of functions whose parameters and results have types: `int`, `bool`, `list[..]` and `tuple[..]`. A
body assigns variables, may choose by `if`, and returns. Loops are comprehensions and recursion. Four things differ from
Python: numbers have 64 bits and wrap; an index below 0 is a fault; so is a `range` whose end is before its start; and
so is a `zip` of lists of different lengths. A text, as "abc", is the list of its codes.
"""
from __future__ import annotations

import ast
from collections.abc import Callable
from dataclasses import dataclass
from typing import Any, Generic, TypeVar, Union

T = TypeVar("T")


@dataclass(frozen=True)
class List(Generic[T]):
    """n lists: the elements of all, and the descriptor with a segment for each."""

    elements: Tree[T]
    segments: T


# A type is a tree of kinds, and n values of the type are a tree of vectors of these kinds. A tuple has its parts.
Tree = Union[T, List[T], "tuple[Tree[T], ...]"]
Type = Tree[str]


def mapped(change: Callable[..., T], *trees: Any) -> Tree[T]:
    """A tree that is made leaf by leaf from trees of one type, from the bottom of the stack up. A list adds a
    descriptor after the vectors of its elements, so the parts of a tuple in a list share it."""
    match trees[0]:
        case List():
            elements = mapped(change, *(it.elements for it in trees))
            return List(elements, change(*(it.segments for it in trees)))
        case tuple():
            return tuple(mapped(change, *parts) for parts in zip(*trees))
    return change(*trees)


def leaves(*trees: Tree[T]) -> tuple[T, ...]:
    """The kinds or vectors of trees, in the same order."""
    found: list[T] = []
    mapped(found.append, trees)
    return tuple(found)


def read_type(node: ast.expr | None) -> Type:
    match node:
        case ast.Name("int" | "bool" as name):
            return name.upper()
        case ast.Subscript(ast.Name("list"), element):
            return List(read_type(element), "SEGDES")
        case ast.Subscript(ast.Name("tuple"), ast.Tuple(parts)):
            return tuple(map(read_type, parts))
    raise SyntaxError(f"line {getattr(node, 'lineno', 0)}: no type of this language")


def names_in(node: ast.AST) -> set[str]:
    return {it.id for it in ast.walk(node) if isinstance(it, ast.Name)}


@dataclass
class Function:
    parameters: dict[str, Type]
    result: Type
    body: list[ast.stmt]
    # The functions that it may come to call, also by way of others.
    reaches: set[str]


def read_program(text: str) -> dict[str, Function]:
    """The functions of a program by their names."""
    program = {}
    for node in ast.parse(text).body:
        if isinstance(node, ast.FunctionDef):
            parameters = {it.arg: read_type(it.annotation) for it in node.args.args}
            body = node.body[ast.get_docstring(node) is not None :]
            program[node.name] = Function(parameters, read_type(node.returns), body, names_in(node))
    for _ in program:
        for function in program.values():
            function.reaches.update(*(program[it].reaches for it in function.reaches & set(program)))
    return program
