"""Runs a program of the compiler's source language directly, on Python's own lists: the compiled code must give this.
"""
from __future__ import annotations

import ast
import math
from collections.abc import Callable
from typing import Any

Values = dict[str, Any]
# So many steps are enough for a program whose code ends within the limits of a job.
MOST_STEPS = 60_000


class Faulted(Exception):
    """The program has a fault of its data."""


class TooLong(Exception):
    """The program takes more steps than are tried."""


def wrapped(number: int) -> int:
    return (number + 2**63) % 2**64 - 2**63


def needs(is_good: bool) -> None:
    if not is_good:
        raise Faulted


def quotient(a: int, b: int) -> int:
    needs(b != 0)
    return a // b


def remainder(a: int, b: int) -> int:
    needs(b != 0)
    return a % b


def shifted(a: int, b: int) -> int:
    needs(b in range(64))
    return a << b


def shifted_back(a: int, b: int) -> int:
    needs(b in range(64))
    return a >> b


OPERATIONS: dict[type[ast.AST], Callable[[Any, Any], Any]] = {
    ast.Add: lambda a, b: a + b, ast.Sub: lambda a, b: a - b, ast.Mult: lambda a, b: a * b, ast.FloorDiv: quotient,
    ast.Mod: remainder, ast.LShift: shifted, ast.RShift: shifted_back, ast.BitAnd: lambda a, b: a & b,
    ast.BitOr: lambda a, b: a | b, ast.BitXor: lambda a, b: a ^ b, ast.Lt: lambda a, b: a < b,
    ast.LtE: lambda a, b: a <= b, ast.Gt: lambda a, b: a > b, ast.GtE: lambda a, b: a >= b,
    ast.Eq: lambda a, b: a == b, ast.NotEq: lambda a, b: a != b}


def folded(choose: Callable[..., int], identity: int) -> Callable[..., int]:
    return lambda first, *rest: choose(first, *rest) if rest else choose([*first, identity])


def ranged(*ends: int) -> list[int]:
    first, last = (0, *ends)[-2:]
    needs(first <= last)
    return list(range(first, last))


def zipped(*lists: list[Any]) -> list[Any]:
    needs(len(set(map(len, lists))) == 1)
    return list(zip(*lists))


def cut(v: list[Any], lengths: list[int]) -> list[list[Any]]:
    needs(min(lengths, default=0) >= 0 and sum(lengths) == len(v))
    ends = [sum(lengths[: place + 1]) for place in range(len(lengths))]
    return [v[end - length : end] for end, length in zip(ends, lengths)]


def put(v: list[Any], pairs: list[tuple[int, Any]]) -> list[Any]:
    places = [place for place, _ in pairs]
    needs(all(place in range(len(v)) for place in places) and len(set(places)) == len(places))
    new = dict(pairs)
    return [new.get(place, it) for place, it in enumerate(v)]


BUILT_IN: dict[str, Callable[..., Any]] = {
    "len": len, "sum": sum, "prod": math.prod, "any": any, "all": all, "abs": abs, "int": int,
    "max": folded(max, -(2**63)), "min": folded(min, 2**63 - 1), "range": ranged, "zip": zipped, "partition": cut,
    "put": put,
    "enumerate": lambda v: list(enumerate(v)), "flatten": lambda rows: [it for row in rows for it in row],
    "accumulate": lambda v: [wrapped(sum(v[: place + 1])) for place in range(len(v))]}


class Evaluator:
    def __init__(self, text: str) -> None:
        self.functions = {it.name: it for it in ast.parse(text).body if isinstance(it, ast.FunctionDef)}
        self.steps = 0

    def call(self, name: str, arguments: list[Any]) -> Any:
        function = self.functions[name]
        return self.body(function.body, dict(zip([it.arg for it in function.args.args], arguments)))

    def body(self, statements: list[ast.stmt], values: Values) -> Any:
        for statement in statements:
            match statement:
                case ast.Assign([target], node) | ast.AnnAssign(target, _, ast.expr() as node):
                    self.assign(target, self.value(node, values), values)
                case ast.If(test, first, second):
                    found = self.body(first if self.value(test, values) else second, values)
                    if found is not None:
                        return found
                case ast.Return(ast.expr() as node):
                    return self.value(node, values)
        return None

    def assign(self, target: ast.expr, value: Any, values: Values) -> None:
        if isinstance(target, ast.Name):
            values[target.id] = value
        elif isinstance(target, ast.Tuple):
            for part, own in zip(target.elts, value):
                self.assign(part, own, values)

    def value(self, node: ast.expr, values: Values) -> Any:
        self.steps += 1
        if self.steps > MOST_STEPS:
            raise TooLong
        found = self.expression(node, values)
        if isinstance(found, list) and len(found) > MOST_STEPS // 20:
            raise TooLong
        return wrapped(found) if type(found) is int else found

    def expression(self, node: ast.expr, values: Values) -> Any:
        match node:
            case ast.Constant(value):
                return [ord(it) for it in value] if isinstance(value, str) else value
            case ast.Name(name):
                return values[name]
            case ast.Tuple(nodes):
                return tuple(self.value(it, values) for it in nodes)
            case ast.List(nodes):
                return [self.value(it, values) for it in nodes]
            case ast.UnaryOp(ast.Not(), inner):
                return not self.value(inner, values)
            case ast.UnaryOp(sign, inner):
                return -self.value(inner, values) if isinstance(sign, ast.USub) else ~self.value(inner, values)
            case ast.BoolOp(sign, nodes):
                ends = isinstance(sign, ast.Or)
                return ends if any(self.value(it, values) == ends for it in nodes) else not ends
            case ast.IfExp(test, first, second):
                return self.value(first if self.value(test, values) else second, values)
            case ast.BinOp(first, sign, second) | ast.Compare(first, [sign], [second]):
                return OPERATIONS[type(sign)](self.value(first, values), self.value(second, values))
            case ast.ListComp(result, generators):
                return self.comprehension(result, generators, values)
            case ast.Subscript(inner, ast.Slice()):
                return self.value(inner, values)[::-1]
            case ast.Subscript(inner, place):
                of, index = self.value(inner, values), self.value(place, values)
                needs(index in range(len(of)))
                return of[index]
            case ast.Call(ast.Name(name), nodes):
                arguments = [self.value(it, values) for it in nodes]
                return self.call(name, arguments) if name in self.functions else BUILT_IN[name](*arguments)
        raise NotImplementedError(ast.dump(node))

    def comprehension(self, result: ast.expr, generators: list[ast.comprehension], values: Values) -> list[Any]:
        if not generators:
            return [self.value(result, values)]
        first, *rest = generators
        found = []
        for element in self.value(first.iter, values):
            inner = dict(values)
            self.assign(first.target, element, inner)
            if all(self.value(test, inner) for test in first.ifs):
                found += self.comprehension(result, rest, inner)
        return found
