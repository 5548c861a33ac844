"""The form of the messages of vjobs-dap, by the specification of the protocol: what each has to have, and may have."""
from __future__ import annotations

from collections.abc import Iterator
from typing import Any

# A form is a type, a list of one form, or members by their names, of which those with `?` may be left out.
Form = Any
SOURCE = {"name": str, "path": str}
FRAME: Form = {"id": int, "name": str, "line": int, "column": int, "endLine?": int, "endColumn?": int, "source": SOURCE}
SCOPE: Form = {"name": str, "variablesReference": int, "indexedVariables?": int, "expensive": bool}
VALUE: Form = {"type?": str, "variablesReference": int, "indexedVariables?": int}
VARIABLE: Form = {"name": str, "value": str, "evaluateName?": str, **VALUE}
BREAKPOINT: Form = {"id": int, "verified": bool, "line?": int, "message?": str}
CAPABILITIES = ("ConfigurationDoneRequest", "FunctionBreakpoints", "StepBack", "ExceptionInfoRequest",
                "TerminateRequest", "DelayedStackTraceLoading", "BreakpointLocationsRequest", "EvaluateForHovers")
# Bodies of responses. Those of others are left out.
BODIES: dict[str, Form] = {
    "initialize": {f"supports{name}": bool for name in CAPABILITIES},
    "setBreakpoints": {"breakpoints": [BREAKPOINT]},
    "setFunctionBreakpoints": {"breakpoints": [BREAKPOINT]},
    "breakpointLocations": {"breakpoints": [{"line": int}]},
    "threads": {"threads": [{"id": int, "name": str}]},
    "stackTrace": {"stackFrames": [FRAME], "totalFrames": int},
    "scopes": {"scopes": [SCOPE]},
    "variables": {"variables": [VARIABLE]},
    "evaluate": {"result": str, **VALUE},
    "exceptionInfo": {"exceptionId": str, "description": str, "breakMode": str},
}
EVENTS: dict[str, Form] = {
    "initialized": None, "terminated": None, "exited": {"exitCode": int}, "output": {"category": str, "output": str},
    "stopped": {"reason": str, "threadId": int, "allThreadsStopped": bool, "hitBreakpointIds": [int],
                "description": str},
}


def wrong_form(form: Form, value: Any, place: str) -> Iterator[str]:
    """What of a value at a place hasn't this form."""
    if isinstance(form, dict) and isinstance(value, dict):
        names = {name.rstrip("?"): inner for name, inner in form.items()}
        yield from (f"{place} has no {name}" for name in form if not name.endswith("?") and name not in value)
        yield from (f"{place} has {name}" for name in value if name not in names)
        for name in value.keys() & names.keys():
            yield from wrong_form(names[name], value[name], f"{place}.{name}")
    elif isinstance(form, list) and isinstance(value, list):
        for inner in value:
            yield from wrong_form(form[0], inner, f"{place}[]")
    elif not isinstance(form, type) or not isinstance(value, form) or isinstance(value, bool) != (form is bool):
        yield f"{place} is {value!r}"
    elif isinstance(value, int) and value < 0:
        yield f"{place} is {value}"


def wrong_body(message: dict[str, Any], form: Form) -> Iterator[str]:
    if form is not None and "body" in message:
        yield from wrong_form(form, message["body"], "body")
    elif (form is not None) != ("body" in message):
        yield "it has a body" if form is None else "it has no body"


def faults_of_form(message: dict[str, Any]) -> Iterator[str]:
    """What is wrong with the form of a message."""
    head = {name: value for name, value in message.items() if name != "body"}
    if message.get("type") == "event":
        yield from wrong_form({"seq": int, "type": str, "event": str}, head, "the event")
        if message.get("event") not in EVENTS:
            yield "the event is unknown"
        yield from wrong_body(message, EVENTS.get(message.get("event", "")))
        return
    response: Form = {"seq": int, "type": str, "request_seq": int, "success": bool, "command": str}
    is_followed = message.get("success") is True
    yield from wrong_form(response if is_followed else {**response, "message": str}, head, "the response")
    if is_followed and message["command"] == "continue" and "body" in message:
        yield from wrong_form({"allThreadsContinued": bool}, message["body"], "body")
        return
    yield from wrong_body(message, BODIES.get(message.get("command", "")) if is_followed else None)
