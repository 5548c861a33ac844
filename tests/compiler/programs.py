"""Random programs of the compiler's source language: well typed, nested, and recursive."""
from __future__ import annotations

import random
from collections.abc import Callable
from dataclasses import dataclass, field

# Types are written as in the source.
SCALARS = ("int", "bool")
LISTS = ("list[int]", "list[bool]", "list[list[int]]", "list[tuple[int, bool]]", "list[list[list[int]]]",
         "list[tuple[int, list[int]]]", "list[list[bool]]", "list[list[tuple[bool, int]]]")
TUPLES = ("tuple[int, bool]", "tuple[int, list[int]]", "tuple[bool, list[list[int]]]")
OTHERS = (*LISTS, *TUPLES)


def element_of(of: str) -> str:
    return of.removeprefix("list[")[:-1]


def parts_of(of: str) -> list[str]:
    """The parts of a tuple: its words between the commas that are in no inner bracket."""
    parts, depth = [""], 0
    for letter in of.removeprefix("tuple[")[:-1]:
        depth += {"[": 1, "]": -1}.get(letter, 0)
        if letter == "," and depth == 0:
            parts.append("")
        else:
            parts[-1] += letter
    return [part.strip() for part in parts]


@dataclass
class Function:
    name: str
    parameters: list[tuple[str, str]]
    result: str
    # A recursive function ends by its first parameter, which is small at a call from elsewhere.
    is_recursive: bool = False


@dataclass
class Scope:
    variables: dict[str, str]
    # The function that may be called here with a smaller first parameter.
    itself: Function | None = None
    depth: int = 3

    def inner(self, *more: tuple[str, str]) -> Scope:
        return Scope({**self.variables, **dict(more)}, self.itself, self.depth - 1)


Way = Callable[[str, Scope], "str | None"]


@dataclass
class Maker:
    chance: random.Random
    functions: list[Function] = field(default_factory=list)
    names: int = 0

    def name(self) -> str:
        self.names += 1
        return f"x{self.names}"

    def any_type(self) -> str:
        return self.chance.choice(SCALARS if self.chance.random() < 0.45 else OTHERS)

    def variable(self, of: str, scope: Scope) -> str | None:
        found = [name for name, its in scope.variables.items() if its == of]
        # Those of the inner loops are the last ones.
        return self.chance.choice(found[-2:] if self.chance.random() < 0.6 else found) if found else None

    def value(self, of: str, scope: Scope) -> str:
        variable = self.variable(of, scope)
        if variable and self.chance.random() < (0.3 if scope.depth > 0 else 0.9):
            return variable
        if scope.depth <= 0:
            return self.least(of, scope)
        inner = scope.inner()
        ways: list[Way] = [self.conditional, self.called, self.taken, self.taken, *self.ways(of)]
        return self.chance.choice(ways)(of, inner) or self.least(of, inner)

    def ways(self, of: str) -> list[Way]:
        if of == "int":
            return [self.number, self.number, self.number, self.folded, self.cell]
        if of == "bool":
            return [self.flag, self.flag]
        if of.startswith("tuple"):
            return [self.tupled]
        found: list[Way] = [self.chosen, self.chosen, self.each, self.each, self.listed, self.appended, self.turned,
                            self.flattened, self.put]
        special: dict[str, list[Way]] = {
            "list[int]": [self.ranged, self.sums], "list[tuple[int, list[int]]]": [self.paired],
            "list[tuple[int, bool]]": [self.paired], "list[list[int]]": [self.cut, self.read, self.read],
            "list[list[bool]]": [self.cut]}
        return found + special.get(of, [])

    def least(self, of: str, scope: Scope) -> str:
        """A value without inner ones."""
        if of == "int":
            return str(self.chance.choice([0, 1, 2, 3, -1, 7, -5, 64, 2**62, self.chance.randrange(-20, 100)]))
        if of == "bool":
            return self.chance.choice(["True", "False"])
        if of.startswith("tuple"):
            return "(" + ", ".join(self.least(it, scope) for it in parts_of(of)) + ")"
        element = element_of(of)
        return "[" + ", ".join(self.least(element, scope) for _ in range(self.chance.randrange(1, 4))) + "]"

    # Any type.

    def conditional(self, of: str, scope: Scope) -> str:
        return f"({self.value(of, scope)} if {self.value('bool', scope)} else {self.value(of, scope)})"

    def called(self, of: str, scope: Scope) -> str | None:
        found = [it for it in self.functions if it.result == of]
        if not found:
            return None
        function = self.chance.choice(found)
        first = f"{self.value('int', scope)} % 4" if function.is_recursive else ""
        if scope.itself is function:
            first = "n - 1"
        elif function.is_recursive and scope.itself:
            return None
        rest = [self.value(its, scope) for _, its in function.parameters[function.is_recursive :]]
        return f"{function.name}({', '.join([first] * bool(first) + rest)})"

    def taken(self, of: str, scope: Scope) -> str | None:
        """An element of a list, if there is one, or a part of a tuple."""
        sources = [it for it in LISTS if element_of(it) == of]
        held = [name for name, its in scope.variables.items() if its in sources]
        if held and self.chance.random() < 0.7:
            v = self.chance.choice(held)
            place = f"{self.value('int', scope)} % len({v})"
            if self.chance.random() < 0.05:
                place = self.value("int", scope)
            if f"list[{of}]" == "list[int]" and self.chance.random() < 0.3:
                return self.cell(of, scope)
            return f"({v}[{place}] if len({v}) > 0 else {self.value(of, scope)})"
        tuples = [(name, number) for name, its in scope.variables.items() if its.startswith("tuple")
                  for number, part in enumerate(parts_of(its)) if part == of]
        if tuples:
            name, number = self.chance.choice(tuples)
            return f"{name}[{number}]"
        return None

    def cell(self, of: str, scope: Scope) -> str | None:
        """An element of a list in a list, seldom the one after the last of its row."""
        v = self.variable("list[list[int]]", scope)
        if not v:
            return None
        if self.chance.random() < 0.1:
            return f"({v}[0][len({v}[0])] if len({v}) > 1 else {self.value('int', scope)})"
        i, j = self.value("int", scope), self.value("int", scope)
        row = f"{v}[({i}) % len({v})]"
        if self.chance.random() < 0.3:
            return f"({row}[{j} & 3] if len({v}) > 0 else {self.value('int', scope)})"
        return f"({row}[({j}) % len({row})] if len({v}) > 0 and len({row}) > 0 else {self.value('int', scope)})"

    # Numbers and truth values.

    def number(self, of: str, scope: Scope) -> str:
        a, b = self.value("int", scope), self.value("int", scope)
        return self.chance.choice([
            f"({a} + {b})", f"({a} - {b})", f"({a} * {b})", f"({a} // ({b} * {b} + 1))",
            f"({a} % (abs({b} % 100) + 1))",
            f"({a} // -3)", f"({a} % -7)", f"({a} // 8)", f"({a} % 16)", f"({a} // 5)", f"({a} % 6)", f"({a} >> 3)",
            f"({a} << ({b} % 64))", f"({a} & {b})", f"({a} | {b})", f"({a} ^ {b})", f"(~{a})", f"(-{a})", f"abs({a})",
            f"max({a}, {b})", f"min({a}, {b})", f"int({self.value('bool', scope)})", f"({a} // {b})" if
            self.chance.random() < 0.1 else f"({b} + {a} + 1)", f"({a} // (0 - abs({b} % 9) - 1))",
            f"({a} % (0 - abs({b} % 9) - 1))"])

    def folded(self, of: str, scope: Scope) -> str:
        v, flags = self.value("list[int]", scope), self.value("list[bool]", scope)
        some = self.value(self.chance.choice(LISTS), scope)
        if self.chance.random() < 0.04:
            return f"len(zip({v}, {self.value('list[int]', scope)}))"
        return self.chance.choice([f"sum({v})", f"prod({v})", f"max({v})", f"min({v})", f"len({some})",
                                   f"sum({flags})"])

    def flag(self, of: str, scope: Scope) -> str:
        a, b = self.value("int", scope), self.value("int", scope)
        f, g = self.value("bool", scope), self.value("bool", scope)
        return self.chance.choice([*(f"({a} {sign} {b})" for sign in ("<", "<=", ">", ">=", "==", "!=")),
                                   f"({f} and {g})", f"({f} or {g})", f"(not {f})", f"({f} == {g})",
                                   f"({f} != {g})", f"({f} ^ {g})",
                                   f"any({self.value('list[bool]', scope)})",
                                   f"all({self.value('list[bool]', scope)})"])

    def tupled(self, of: str, scope: Scope) -> str:
        return "(" + ", ".join(self.value(it, scope) for it in parts_of(of)) + ")"

    # Lists.

    def pattern(self, of: str) -> tuple[str, list[tuple[str, str]]]:
        """Names for an element."""
        if of.startswith("tuple") and self.chance.random() < 0.7:
            names = [(self.name(), part) for part in parts_of(of)]
            return ", ".join(name for name, _ in names), names
        name = self.name()
        return name, [(name, of)]

    def each(self, of: str, scope: Scope) -> str:
        element = element_of(of)
        source = self.chance.choice([of, *LISTS])
        names, more = self.pattern(element_of(source))
        inner = scope.inner(*more)
        body = names if element == element_of(source) and self.chance.random() < 0.2 else self.value(element, inner)
        if names.count(",") and body == names:
            body = f"({body})"
        tests = "".join(f" if {self.value('bool', inner)}" for _ in range(self.chance.choice([0, 0, 1, 1, 2])))
        second = ""
        if self.chance.random() < 0.1:
            other, more = self.pattern("int")
            second = f" for {other} in {self.value('list[int]', inner)}"
            body = self.value(element, inner.inner(*more))
        return f"[{body} for {names} in {self.value(source, scope)}{tests}{second}]"

    def chosen(self, of: str, scope: Scope) -> str:
        """Some iterations go one way and some the other."""
        x = self.name()
        inner = scope.inner((x, "int"))
        first, second = self.value(element_of(of), inner), self.value(element_of(of), inner)
        return f"[({first} if {x} % 2 == 0 else {second}) for {x} in {self.value('list[int]', scope)}]"

    def listed(self, of: str, scope: Scope) -> str:
        element = element_of(of)
        return "[" + ", ".join(self.value(element, scope) for _ in range(self.chance.randrange(1, 4))) + "]"

    def appended(self, of: str, scope: Scope) -> str:
        return "(" + " + ".join(self.value(of, scope) for _ in range(self.chance.choice([2, 2, 3]))) + ")"

    def turned(self, of: str, scope: Scope) -> str | None:
        v = self.variable(of, scope)
        return v and f"{v}[::-1]"

    def flattened(self, of: str, scope: Scope) -> str | None:
        return f"flatten({self.value(f'list[{of}]', scope)})" if f"list[{of}]" in LISTS else None

    def put(self, of: str, scope: Scope) -> str | None:
        v = self.variable(of, scope)
        element = element_of(of)
        if not v or "list" in element:
            return None
        i = self.name()
        places = self.chance.choice([f"range(len({v}))", f"range(len({v}))[::-1]", f"range(len({v}) // 2)", "range(2)"])
        return f"put({v}, [({i}, {self.value(element, scope.inner((i, 'int')))}) for {i} in {places}])"

    def ranged(self, of: str, scope: Scope) -> str:
        a, b = self.value("int", scope), self.value("int", scope)
        return self.chance.choice([f"range(abs({a}) % 5)", f"range({a} % 4, {a} % 4 + {b} % 3)", f"range({a} % 9 - 1)"])

    def sums(self, of: str, scope: Scope) -> str:
        return f"accumulate({self.value(of, scope)})"

    def paired(self, of: str, scope: Scope) -> str:
        second = parts_of(element_of(of))[1]
        if self.chance.random() < 0.5:
            return f"enumerate({self.value(f'list[{second}]', scope)})"
        v, i = self.variable("list[int]", scope), self.name()
        if not v:
            return self.listed(of, scope)
        other = f"[{self.value(second, scope.inner((i, 'int')))} for {i} in {v}]"
        return f"zip({v}, {other if self.chance.random() < 0.95 else self.value(f'list[{second}]', scope)})"

    def cut(self, of: str, scope: Scope) -> str:
        v, name = self.variable(of, scope), self.name()
        flat = element_of(of)
        if not v or self.chance.random() < 0.1:
            return f"partition({self.value(flat, scope)}, {self.value('list[int]', scope)})"
        turned = self.chance.choice(["", "[::-1]"])
        return f"partition(flatten({v}), [len({name}) for {name} in {v}{turned}])"

    def read(self, of: str, scope: Scope) -> str:
        """Elements of each inner list, which is one of an outer level where they are read."""
        v, i = self.name(), self.name()
        inner = scope.inner((v, "list[int]"))
        place = self.value("int", inner.inner((i, "int")))
        return (f"[[{v}[({i} + {place}) % len({v})] for {i} in {self.value('list[int]', inner)} if len({v}) > 0]"
                f" for {v} in {self.value(of, scope)}]")

    # Functions.

    def body(self, of: str, scope: Scope) -> list[str]:
        lines = []
        for _ in range(self.chance.randrange(3)):
            name, its = self.name(), self.any_type()
            if self.chance.random() < 0.1 and its in LISTS:
                lines.append(f"{name}: {its} = []")
            else:
                lines.append(f"{name}: {its} = {self.value(its, scope)}")
            scope = Scope({**scope.variables, name: its}, scope.itself, scope.depth)
        if self.chance.random() < 0.2:
            lines += [f"if {self.value('bool', scope)}:", *(f"    {line}" for line in self.body(of, scope))]
        return [*lines, f"return {self.value(of, scope)}"]

    def function(self) -> list[str]:
        is_recursive = self.chance.random() < 0.5
        parameters = [(self.name(), self.any_type()) for _ in range(self.chance.randrange(1, 4))]
        if is_recursive:
            parameters = [("n", "int"), *parameters]
        made = Function(f"f{len(self.functions)}", parameters, self.any_type(), is_recursive)
        scope = Scope(dict(parameters), None, 3)
        lines = []
        if is_recursive:
            lines = ["if n <= 0:", f"    return {self.value(made.result, Scope(dict(parameters), None, 1))}"]
            self.functions.append(made)
            scope.itself = made
            lines += self.body(made.result, scope)
        else:
            lines = self.body(made.result, scope)
            self.functions.append(made)
        names = ", ".join(f"{name}: {of}" for name, of in parameters)
        return [f"def {made.name}({names}) -> {made.result}:", *(f"    {line}" for line in lines), "", ""]

    def called_for_each(self, function: Function, v: str, variables: dict[str, str]) -> str:
        """A call for each number of a list, with recursions of different depths."""
        x = self.name()
        scope = Scope({**variables, x: "int"}, None, 1)
        rest = [self.value(of, scope) for _, of in function.parameters[1:]]
        return f"[{', '.join([f'{function.name}({x} % 4', *rest])}) for {x} in {v}]"

    def program(self) -> tuple[str, list[object]]:
        """A program, and the arguments of its main."""
        lines = [line for _ in range(self.chance.randrange(1, 4)) for line in self.function()]
        parameters = [(self.name(), self.any_type()) for _ in range(2)]
        parameters.append((self.name(), "list[int]"))
        variables, inner = dict(parameters), []
        for _ in range(self.chance.randrange(1, 4)):
            name, of = self.name(), self.any_type()
            inner.append(f"    {name}: {of} = {self.value(of, Scope(variables, None, 4))}")
            variables = {**variables, name: of}
        for function in self.functions:
            if function.is_recursive:
                name, of = self.name(), f"list[{function.result}]"
                inner.append(f"    {name}: {of} = {self.called_for_each(function, parameters[-1][0], variables)}")
                variables = {**variables, name: of}
        names = ", ".join(f"{name}: {of}" for name, of in parameters)
        left = list(variables)[2:]
        lines += [f"def main({names}) -> tuple[{', '.join(variables[it] for it in left)}]:", *inner]
        lines.append(f"    return {', '.join(left)}")
        return "\n".join([*lines, ""]), [self.data(of) for _, of in parameters]

    def data(self, of: str) -> object:
        if of == "int":
            return self.chance.choice([0, 1, -1, 5, self.chance.randrange(-100, 100), 2**63 - 1, -(2**63)])
        if of == "bool":
            return self.chance.random() < 0.5
        if of.startswith("tuple"):
            return tuple(self.data(it) for it in parts_of(of))
        return [self.data(element_of(of)) for _ in range(self.chance.choice([0, 1, 2, 3, 5]))]


def random_program(seed: int) -> tuple[str, list[object]]:
    return Maker(random.Random(seed)).program()
