"""The library: the operators and built-in functions of the language. Each is one or a few instructions, or is said in
other words of the source; and some of them can't fault."""
from __future__ import annotations

import ast
from functools import cache, partial, reduce
from typing import Any

from source import List, Type, leaves, mapped
from structure import Level, Structure, Values, Vector, kinds_of

# What is one instruction, by the kinds of its operands. `Quotient` and `Rest` are those of the machine.
INSTRUCTIONS = {
    "INT INT": {"Sub": "- INT", "Mult": "* INT", "Quotient": "/ INT", "Rest": "% INT", "LShift": "LSHIFT INT",
                "RShift": "RSHIFT INT", "BitAnd": "AND INT", "BitOr": "OR INT", "BitXor": "XOR INT", "Lt": "< INT",
                "LtE": "<= INT", "Gt": "> INT", "GtE": ">= INT", "Eq": "= INT", "NotEq": "!= INT"},
    "BOOL BOOL": {"BitAnd": "AND BOOL", "BitOr": "OR BOOL", "BitXor": "XOR BOOL", "NotEq": "XOR BOOL"},
    "INT": {"Invert": "NOT INT"},
    "BOOL": {"Not": "NOT BOOL", "int": "B_TO_I"},
    "INT SEGDES": {"sum": "+_REDUCE INT", "prod": "*_REDUCE INT", "max": "MAX_REDUCE INT", "min": "MIN_REDUCE INT"},
    "BOOL SEGDES": {"any": "OR_REDUCE BOOL", "all": "AND_REDUCE BOOL"}}
FAULTING = {"Quotient", "Rest", "LShift", "RShift"}
# What is said in other words of the source. The machine rounds quotients to 0: `FloorDiv` and `Mod` round down. `Cell`
# is a[b][c], without a copy of the inner list, and `Within` is a if it is the place of one of b elements.
OTHER_WORDS = {
    "USub(a)": "0 - a", "abs(a)": "0 - a if a < 0 else a",
    "max(a, b)": "a if a > b else b", "min(a, b)": "a if a < b else b",
    "FloorDiv(a, b)": "Floor(a, b, Quotient(a, b))",
    "Floor(a, b, c)": "c - int((a - c * b ^ b) < 0 and a - c * b != 0)",
    "Mod(a, b)": "Raised(Rest(a, b), b)", "Raised(a, b)": "a + b if (a ^ b) < 0 and a != 0 else a",
    "enumerate(a)": "zip(range(len(a)), a)", "reversed(a)": "[a[len(a) - 1 - i] for i in range(len(a))]",
    "accumulate(a)": "[x + y for x, y in zip(Before(a), a)]",
    "Cell(a, b, c)": "flatten(a)[Before([len(x) for x in a])[b] + Within(c, [len(x) for x in a][b])]",
    "Within(a, b)": "Quotient(a, int(0 <= a and a < b))"}
# Functions that are elementwise, and others that can't fault. More nodes of an expression aren't cheap.
CHEAP_CALLS, MOST_NODES = {"len", "max", "min", "abs", "int"}, 16
SAFE_CALLS = CHEAP_CALLS | {"sum", "prod", "any", "all", "enumerate", "flatten", "accumulate", "Before"}


def constant_of(node: ast.AST) -> Any:
    """The value of an expression that is written as a constant; None of others."""
    try:
        return ast.literal_eval(node) if isinstance(node, (ast.Constant, ast.List, ast.Tuple, ast.UnaryOp)) else None
    except ValueError:
        return None


def type_of(constant: object) -> Type | None:
    """None if the constant has only empty lists, whose elements may have any type."""
    match constant:
        case bool():
            return "BOOL"
        case int():
            return "INT"
        case str():
            return List("INT", "SEGDES")
        case list():
            return next((List(of, "SEGDES") for of in map(type_of, constant) if of), None)
        case tuple():
            parts = tuple(of for of in map(type_of, constant) if of)
            return parts if len(parts) == len(constant) else None
    return None


@cache
def is_safe(node: ast.AST) -> bool:
    """Whether an expression can't fault and calls no function of the program, so that it may be computed although the
    source doesn't ask for it."""
    for it in ast.walk(node):
        match it:
            case ast.BinOp(_, ast.FloorDiv() | ast.Mod(), divisor) if not constant_of(divisor):
                return False
            case ast.BinOp(_, ast.LShift() | ast.RShift(), places) if constant_of(places) not in range(64):
                return False
            case ast.Subscript(_, place) if not isinstance(place, ast.Slice):
                return False
            case ast.Call(ast.Name("range"), [ast.Call(ast.Name("len"))]):
                continue
            case ast.Call(ast.Name(name)) if name not in SAFE_CALLS:
                return False
    return True


def is_cheap(way: list[ast.stmt]) -> bool:
    """Whether a body only returns what can't fault and takes a few elementwise instructions."""
    match way:
        case [ast.Return(ast.expr() as node), *_] if is_safe(node):
            nodes = [it for it in ast.walk(node) if isinstance(it, ast.expr)]
            calls = {ast.unparse(it.func) for it in nodes if isinstance(it, ast.Call)}
            is_flat = calls <= CHEAP_CALLS and not any(isinstance(it, ast.ListComp) for it in nodes)
            return is_flat and len(nodes) <= MOST_NODES
    return False


def call(function: str | ast.AST, *operands: ast.expr) -> ast.Call:
    """A call of a built-in function, or of an operator."""
    name = function if isinstance(function, str) else type(function).__name__
    return ast.Call(ast.Name(name), list(operands), [])


def simpler(node: ast.expr) -> ast.expr:
    """The same with fewer forms of the language. Operators are called as functions are."""
    match node:
        case ast.BoolOp(sign, [first, *rest]):
            second = rest[0] if len(rest) == 1 else ast.BoolOp(sign, rest)
            if is_safe(second):
                return call("BitAnd" if isinstance(sign, ast.And) else "BitOr", first, second)
            ways = (second, ast.Constant(False)) if isinstance(sign, ast.And) else (ast.Constant(True), second)
            return ast.IfExp(first, *ways)
        case ast.BinOp(first, ast.FloorDiv(), ast.Constant(int() as number)) if number & (number - 1) == 0 < number:
            return call("RShift", first, ast.Constant(number.bit_length() - 1))
        case ast.BinOp(first, ast.Mod(), ast.Constant(int() as number)) if number & (number - 1) == 0 < number:
            return call("BitAnd", first, ast.Constant(number - 1))
        case ast.BinOp(first, ast.Add() as sign, second):
            # Lists are joined by one operation.
            terms = [first, second]
            while isinstance(terms[0], ast.BinOp) and isinstance(terms[0].op, ast.Add):
                terms[:1] = [terms[0].left, terms[0].right]
            return call(sign, *terms)
        case ast.UnaryOp(sign, inner):
            return call(sign, inner)
        case ast.BinOp(first, sign, second) | ast.Compare(first, [sign], [second]):
            return call(sign, first, second)
        case ast.ListComp(result, [first, second, *more]):
            return call("flatten", ast.ListComp(ast.ListComp(result, [second, *more]), [first]))
        case ast.Subscript(inner, ast.Slice(None, None, step)) if step and constant_of(step) == -1:
            return call("reversed", inner)
    return node


class Library(Structure):
    def fault(self, text: str) -> SyntaxError:
        """What the compiler doesn't take, and its line."""
        return SyntaxError(f"line {self.line}: {text}")

    def literal(self, of: Type, values: list[Any]) -> Values:
        """Constant values of a type."""
        match of:
            case List(element, _):
                elements = self.literal(element, [it for value in values for it in value])
                return List(elements, self.constant("SEGDES", list(map(len, values))))
            case tuple(parts):
                return tuple(self.literal(part, [value[place] for value in values]) for place, part in enumerate(parts))
        return self.constant(of, values)

    def built_in(self, name: str, trees: list[Any], level: Level) -> Values:
        """An operator or a built-in function of these operands."""
        kinds, are_alike = " ".join(leaves(*map(kinds_of, trees))), len(set(map(kinds_of, trees))) == 1
        if name in INSTRUCTIONS.get(kinds, {}):
            return self.step(INSTRUCTIONS[kinds][name], *leaves(*trees), must_run=name in FAULTING)
        match name, trees:
            case "Add", [List(), *_] if are_alike:
                return self.appended(trees, level)
            case "Add", [Vector("INT") as first, *rest] if are_alike:
                return reduce(partial(self.step, "+ INT"), rest, first)
            case "Eq", [Vector("BOOL"), Vector("BOOL")]:
                return self.step("NOT BOOL", self.step("XOR BOOL", *trees))
            case "sum", [List(Vector("BOOL") as flags, segments)]:
                return self.step("+_REDUCE INT", self.step("B_TO_I", flags), segments)
            case "len", [List(_, segments)]:
                return self.step("LENGTHS", segments)
            case "flatten", [List(List(elements, inner), outer)]:
                return List(elements, self.total(inner, outer))
            case "Before", [List(Vector("INT") as words, segments)]:
                return List(self.step("+_SCAN INT", words, segments), segments)
            case "range", [Vector("INT") as length]:
                segments = self.step("MAKE_SEGDES", length, must_run=True)
                return List(self.runs(self.fill(level.whole), segments, level.whole), segments)
            case "range", [Vector("INT") as start, Vector("INT") as end]:
                segments = self.step("MAKE_SEGDES", self.step("- INT", end, start), must_run=True)
                return List(self.runs(start, segments, level.whole), segments)
            case "zip", [List(_, segments), *_] if all(isinstance(it, List) for it in trees):
                for other in (it.segments for it in trees if it.segments is not segments):
                    self.check(self.step("= INT", self.step("LENGTHS", segments), self.step("LENGTHS", other)))
                return List(tuple(it.elements for it in trees), segments)
            case "partition", [List(elements, segments), List(Vector("INT") as sizes, outer)]:
                self.check(self.step("= INT", self.step("LENGTHS", segments), self.step("+_REDUCE INT", sizes, outer)))
                return List(List(elements, self.step("MAKE_SEGDES", sizes, must_run=True)), outer)
            case "put", [List(elements, target), List((Vector("INT") as places, new), source)]:
                def put(old: Vector, it: Vector) -> Vector:
                    return self.step(f"DPERMUTE {old.kind}", it, places, old, source, target, must_run=True)
                return List(mapped(put, elements, new), target)
        raise self.fault("no function of this language, or of other types")

    def listed(self, trees: list[Values], level: Level) -> Values:
        """A list of these elements in each iteration. A single element stays where it is."""
        segments = self.step("MAKE_SEGDES", self.fill(level.whole, len(trees)))
        if len(trees) == 1:
            return List(trees[0], segments)
        spots = [(self.index(level.whole, place, len(trees)), level.whole) for place in range(len(trees))]
        return List(self.merged(trees, spots, self.total(segments, level.whole), self.one), segments)

    def check(self, flags: Vector) -> None:
        """Ends the job if a flag is F."""
        number = self.step("B_TO_I", flags)
        self.step("/ INT", number, number, must_run=True)
