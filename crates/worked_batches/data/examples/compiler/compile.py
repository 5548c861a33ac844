#!/usr/bin/env python3
"""Compiles a program to a batch with one job: compile.py PROGRAM.py [DATA.json]

`main` of the program gets the data, a JSON list of its arguments. The batch goes to standard output. First comes
flattening: a function of the source becomes steps that do its work for n iterations at once. Then come liveness and
emission: the steps become instructions on a stack. A comment after each instruction names its line of the source.
"""
from __future__ import annotations

import ast
import json
import sys
from functools import partial, reduce
from itertools import chain, groupby, repeat, takewhile
from pathlib import Path
from typing import Any

from library import OTHER_WORDS, Library, constant_of, is_cheap, is_safe, simpler, type_of
from source import Function, List, Type, leaves, mapped, names_in, read_program, read_type
from structure import Level, Spot, Step, Value, Values, Vector, Vectors, kinds_of

LIMITS = "1048576 4096 1024 1000000000"
Live = frozenset[Vector]
Variables = dict[str, Value]
# A function for one call, or for n at once: then it says which of its parameters aren't the same for all n.
Version = tuple[str, tuple[bool, ...] | None]


def name_of(version: Version) -> str:
    function, varies = version
    return function if varies is None else f"{function}.each.{''.join('01'[it] for it in varies)}"


class Flattening(Library):
    """A value belongs to the level at which it was computed, and is brought to an inner level only if an operation
    there needs it. What can't fault is computed at the outermost level that has its variables."""

    def __init__(self, program: dict[str, Function], version: Version, versions: list[Version]) -> None:
        super().__init__()
        self.program, self.version, self.versions = program, version, versions

    def code(self) -> tuple[Vectors, list[Step], Vectors]:
        """The operands, the steps and the results of the function. If it is for n calls, P is its last operand, and
        its body a level of n iterations."""
        name, varies = self.version
        function, level, whole = self.program[name], self.top, Vector("SEGDES")
        if varies is not None:
            level = Level(1, whole, whole, self.top)
        trees = [mapped(Vector, of) for of in function.parameters.values()]
        levels = (level if it else self.top for it in chain(varies or (), repeat(False)))
        variables = dict(zip(function.parameters, zip(trees, levels)))
        found = self.into(self.body(function.body, variables, level, function.result), level)
        return leaves(*trees) + (() if varies is None else (whole,)), self.steps, leaves(found)

    def body(self, statements: list[ast.stmt], variables: Variables, level: Level, wanted: Type | None) -> Value:
        self.line = getattr(statements[0], "lineno", self.line) if statements else self.line
        match statements:
            case [ast.Return(ast.expr() as node), *_]:
                return self.value(node, variables, level, wanted)
            case [ast.Assign([target], node) | ast.AnnAssign(target, _, ast.expr() as node) as line, *rest]:
                of = read_type(line.annotation) if isinstance(line, ast.AnnAssign) else None
                bound = self.bound(target, *self.value(node, variables, level, of))
                return self.body(rest, variables | bound, level, wanted)
            case [ast.If(test, first, second), *rest]:
                return self.conditional(test, [first, [*second, *rest]], variables, level, wanted)
        raise self.fault("no statement of this language, or no return")

    def bound(self, target: ast.expr, tree: Values, level: Level) -> Variables:
        """Names for a value, or for its parts."""
        match target, tree:
            case ast.Name(name), _:
                return {name: (tree, level)}
            case ast.Tuple(targets), tuple(parts) if len(targets) == len(parts):
                return {name: it for pair in zip(targets, parts) for name, it in self.bound(*pair, level).items()}
        raise self.fault("no names for this value")

    def value(self, node: ast.expr, variables: Variables, level: Level, wanted: Type | None = None) -> Value:
        """The value of an expression, at this level or at an outer one. An empty list has the wanted type."""
        if is_safe(node):
            used = [variables[it][1] for it in names_in(node) if it in variables]
            level = max(used, key=lambda it: it.depth, default=self.top)
        line, self.line, constant = self.line, getattr(node, "lineno", self.line), constant_of(node)
        of = type_of(constant) or wanted
        if constant is None:
            found = self.expression(simpler(node), variables, level, wanted)
        elif of:
            found = self.literal(of, [constant]), self.top
        else:
            raise self.fault("a constant whose type isn't known")
        if wanted and kinds_of(found[0]) != wanted:
            raise self.fault("a value of another type")
        self.line = line
        return found

    def expression(self, node: ast.expr, variables: Variables, level: Level, wanted: Type | None) -> Value:
        def here(inner: ast.expr) -> Any:
            return self.into(self.value(inner, variables, level), level)

        match node:
            case ast.Name(name) if name in variables:
                return variables[name]
            case ast.Tuple(nodes):
                return tuple(map(here, nodes)), level
            case ast.List(nodes):
                return self.listed(list(map(here, nodes)), level), level
            case ast.IfExp(test, first, second):
                return self.conditional(test, [[ast.Return(first)], [ast.Return(second)]], variables, level, wanted)
            case ast.ListComp(result, [generator]):
                return self.loop(result, generator, variables, level), level
            case ast.Subscript(inner, place):
                return self.subscript(inner, place, variables, level)
            case ast.Call(ast.Name(name), nodes) if name in self.program:
                return self.call_of(name, [self.value(it, variables, level) for it in nodes], level), level
            case ast.Call(ast.Name(name), nodes) if (form := f"{name}({', '.join('abc'[:len(nodes)])})") in OTHER_WORDS:
                return self.in_other_words(form, level, *(self.value(it, variables, level) for it in nodes))
            case ast.Call(ast.Name(name), nodes):
                return self.built_in(name, list(map(here, nodes)), level), level
        raise self.fault("no expression of this language")

    def in_other_words(self, form: str, level: Level, *values: Value) -> Value:
        node = ast.parse(OTHER_WORDS[form], mode="eval").body
        ast.increment_lineno(node, self.line - 1)
        return self.value(node, dict(zip("abc", values)), level)

    def subscript(self, of: ast.expr, place: ast.expr, variables: Variables, level: Level) -> Value:
        if isinstance(of, ast.Subscript):
            rows = self.value(of.value, variables, level)
            if isinstance(rows[0], List) and isinstance(rows[0].elements, List):
                places = [self.value(it, variables, level) for it in (of.slice, place)]
                return self.in_other_words("Cell(a, b, c)", level, rows, *places)
        tree, own = self.value(of, variables, level)
        match tree:
            case List():
                [index] = leaves(self.into(self.value(place, variables, level), level))
                return self.element(tree, own, index, level), level
            case tuple() if constant_of(place) in range(len(tree)):
                return tree[constant_of(place)], own
        raise self.fault("no list or tuple")

    def conditional(self, test: ast.expr, ways: list[list[ast.stmt]], variables: Variables, level: Level,
                    wanted: Type | None) -> Value:
        """By an IF, if all iterations go one way. Otherwise each way is a branch, except those that are cheap: these
        are computed for all iterations, and the others are written over them."""
        def way_at(level: Level, way: list[ast.stmt]) -> Values:
            nonlocal wanted
            tree = self.into(self.body(way, variables, level, wanted), level)
            wanted, self.line = kinds_of(tree), line
            return tree

        line = self.line
        flags, own = self.value(test, variables, level)
        if own is self.top:
            return self.choice(leaves(flags)[0], *(partial(way_at, level, way) for way in ways)), level
        [flag] = leaves(self.into((flags, own), level))
        cheap, branches, spots = list[Values](), list[Values](), list[Spot]()
        for way in sorted(ways, key=is_cheap):
            tree = way_at(level, way) if is_cheap(way) else None
            if tree and "SEGDES" not in leaves(kinds_of(tree)):
                cheap.append(tree)
            else:
                taken = flag if way is ways[0] else self.step("NOT BOOL", flag)
                places, inner, _ = self.branch(taken, level, level.whole, self.one)
                branches.append(way_at(inner, way))
                spots.append((places, inner.whole))
        if not branches:
            return mapped(lambda a, b: self.step(f"SELECT {a.kind}", flag, a, b), *cheap), level
        if not cheap:  # Any vectors that are there may be written over.
            cheap.append(mapped(lambda it: flag if it.kind == "BOOL" else self.index(level.whole), branches[0]))
        return self.merged(branches, spots, level.whole, self.one, cheap[0]), level

    def branch(self, flags: Vector, level: Level, segments: Vector, whole: Vector) -> tuple[Vector, Level, Vector]:
        """The places of the iterations with a T, their level, and how many of each segment these are. The whole has an
        item for each segment."""
        places, kept = self.results("PACK INT", self.index(level.whole), flags, segments)
        own = self.step("MAKE_SEGDES", self.step("B_TO_I", flags))
        return places, Level(level.depth + 1, self.total(kept, whole), own, level, places), kept

    def loop(self, result: ast.expr, generator: ast.comprehension, variables: Variables, level: Level) -> Values:
        """The elements of the list are the iterations of the body, and stay where they are."""
        rows = self.into(self.value(generator.iter, variables, level), level)
        if not isinstance(rows, List):
            raise self.fault("no list")
        elements, segments = rows.elements, rows.segments
        body = Level(level.depth + 1, self.total(segments, level.whole), segments, level)
        variables = variables | self.bound(generator.target, elements, body)
        if generator.ifs:
            test = reduce(lambda a, b: ast.BoolOp(ast.And(), [a, b]), generator.ifs)
            [flags] = leaves(self.into(self.value(test, variables, body), body))
            if isinstance(elements, Vector) and ast.unparse(result) == ast.unparse(generator.target):
                return List(*self.results(f"PACK {elements.kind}", elements, flags, segments))
            _, body, segments = self.branch(flags, body, segments, level.whole)
        return List(self.into(self.value(result, variables, body), body), segments)

    def call_of(self, name: str, arguments: list[Value], level: Level) -> Values:
        """A call in a loop is one call for all iterations. One that may come back to the function that calls is made
        only if there is an iteration, or it would never end."""
        function, is_loop = self.program[name], level is not self.top
        if [kinds_of(tree) for tree, _ in arguments] != list(function.parameters.values()):
            raise self.fault("arguments of other types")
        version = name, tuple(own is not self.top for _, own in arguments) if is_loop else None
        if version not in self.versions:
            self.versions.append(version)
        own = (it if it is self.top else level for _, it in arguments)
        operands = leaves(*map(self.into, arguments, own))
        called = partial(self.call, name_of(version), operands + ((level.whole,) if is_loop else ()), function.result)
        if not is_loop or self.version[0] not in function.reaches:
            return called()
        is_some = self.step("I_TO_B", self.step("LENGTHS", level.whole))
        return self.choice(is_some, called, lambda: mapped(lambda kind: self.constant(kind, []), function.result))


def live_before(steps: list[Step], results: Vectors, after: Live) -> tuple[Live, list[tuple[Step, Live]]]:
    """What steps and their results use of what was before them, with what is used after them; and the steps that are
    needed, each with what is used after the step."""
    live, needed = after.union(results), []
    for step in reversed(steps):
        if step.must_run or not live.isdisjoint(step.results):
            needed.append((step, live))
            live -= set(step.results)
            live = live.union(step.operands, *(live_before(*part, live)[0] for part in step.parts))
    return live, needed[::-1]


class Emission:
    """The code of a function. A vector that is used for the last time is moved by CPOP, and any other is copied."""

    def __init__(self, name: str, operands: Vectors, steps: list[Step], results: Vectors, file: str) -> None:
        self.file, self.lines, self.stack = file, [f"FUNC {name}"], list(operands)
        self.block(steps, results, frozenset(), 0)
        self.lines.append("RET")
        takes, gives = (" ".join(it.kind for it in vectors) for vectors in (operands, results))
        self.signature = f"{name} ({takes}) -> ({gives})"

    def line(self, text: str, source: int) -> None:
        self.lines.append(f"{text} {{@ {self.file}:{source}}}" if source else text)

    def block(self, steps: list[Step], results: Vectors, after: Live, source: int) -> None:
        """Leaves what is used after it, and the results above that."""
        live, needed = live_before(steps, results, after)
        self.drop(live, source)
        for step, live in needed:
            source, below = step.line, live - set(step.results)
            self.fetch(step.operands, live.union(*(live_before(*part, below)[0] for part in step.parts)), source)
            self.line(step.code, source)
            del self.stack[len(self.stack) - len(step.operands) :]
            stack = self.stack
            for word, part in zip(("ELSE", "ENDIF"), step.parts):
                self.stack = list(stack)
                self.block(*part, below, source)
                self.line(word, 0)
            self.stack = [*self.stack[: len(self.stack) - (len(step.results) if step.parts else 0)], *step.results]
            self.drop(live, source)
        self.fetch(results, after, source)

    def drop(self, live: Live, source: int) -> None:
        """Drops what isn't used any more from the top down, neighbours by one POP."""
        kept: list[Vector] = []
        for is_live, group in groupby(reversed(self.stack), live.__contains__):
            vectors = list(group)
            if is_live:
                kept += vectors
            else:
                self.line(f"POP {len(vectors)} {len(kept)}", source)
        self.stack = kept[::-1]

    def fetch(self, wanted: Vectors, live: Live, source: int) -> None:
        """Brings vectors to the top: those that are there for the last time stay, and neighbours on the stack that are
        all used again, or all used for the last time, take one motion."""
        moves = [it not in live and it not in wanted[:place] for place, it in enumerate(wanted)]
        done = max(size for size in range(len(wanted) + 1)
                   if all(moves[:size]) and self.stack[len(self.stack) - size :] == list(wanted[:size]))
        while done < len(wanted):
            start, code = self.stack.index(wanted[done]), "CPOP" if moves[done] else "COPY"
            neighbours = zip(self.stack[start:], wanted[done:], moves[done:])
            size = len(list(takewhile(lambda it: it[0] == it[1] and it[2] == moves[done], neighbours)))
            self.line(f"{code} {size} {len(self.stack) - start - size}", source)
            group = self.stack[start : start + size]
            self.stack = (self.stack[:start] + self.stack[start + size :] if moves[done] else self.stack) + group
            done += size


def compiled(text: str, data: list[object], name: str, file: str = "", limits: str = LIMITS) -> str:
    """A job: MAIN, which puts the data on the stack, and the versions of functions that are called."""
    program, start, versions = read_program(text), Library(), list[Version]([("main", None)])
    if "main" not in program:
        raise SyntaxError("there is no function main")
    main = program["main"]
    operands = leaves(*(start.literal(of, [it]) for of, it in zip(main.parameters.values(), data)))
    found = start.call("main", operands, main.result)
    functions = [Emission("MAIN", (), start.steps, leaves(found), file)]
    # The versions that a version calls come to the end of the list that is gone through.
    for version in versions:
        functions.append(Emission(name_of(version), *Flattening(program, version, versions).code(), file))
    signatures, code = [it.signature for it in functions], [line for it in functions for line in it.lines]
    return "\n".join([f"JOB {name} {limits}", "SIGNATURES", *signatures, "CODE", *code, "END", ""])


def main(path: str, data: str = "") -> None:
    arguments = json.loads(Path(data).read_text()) if data else []
    print("BATCH 2", compiled(Path(path).read_text(), arguments, Path(path).stem, Path(path).name), sep="\n", end="")


if __name__ == "__main__":
    main(*sys.argv[1:])
