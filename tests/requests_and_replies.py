"""Requests as rows write them, and replies as rows tell them: the status, and the body or the words that it tells.

The head of a reply, and the body of a refusal that has no details, must be those of its status.
"""

from __future__ import annotations

from rows import AROUND, Wrong, difference
from texts import between

VERSION = "/apis/demo.example/v1/"
# The phrase and the reason of each status; a success has no reason.
STATUSES = {
    "200": ("OK", ""),
    "201": ("Created", ""),
    "400": ("Bad Request", "BadRequest"),
    "404": ("Not Found", "NotFound"),
    "405": ("Method Not Allowed", "MethodNotAllowed"),
    "409": ("Conflict", "Conflict"),
    "410": ("Gone", "Expired"),
    "411": ("Length Required", "LengthRequired"),
    "413": ("Payload Too Large", "RequestEntityTooLarge"),
    "415": ("Unsupported Media Type", "UnsupportedMediaType"),
    "422": ("Unprocessable Entity", "Invalid"),
    "431": ("Request Header Fields Too Large", "RequestHeaderFieldsTooLarge"),
    "501": ("Not Implemented", "NotImplemented"),
    "503": ("Service Unavailable", "ServiceUnavailable"),
    "504": ("Gateway Timeout", "Timeout"),
    "505": ("HTTP Version Not Supported", "HTTPVersionNotSupported"),
}


def request_of(line: str) -> bytes:
    """The bytes of a request of `METHOD TARGET BODY`, whose target stands behind the path of the version."""
    method, blank, rest = line.partition(" ")
    if not blank:
        raise Wrong(f"the step has no target: {line[:AROUND]}")
    target, _, body = rest.partition(" ")
    is_apply = method == "PATCH"
    media = "application/apply-patch+yaml" if is_apply else "application/json"
    data = body.encode()
    head = (
        f"{method} {VERSION}{target} HTTP/1.1\r\nHost: localhost\r\n"
        f"Content-Type: {media}\r\nContent-Length: {len(data)}\r\n\r\n"
    )
    return head.encode() + data


def status_of(reply: str) -> str | None:
    """The status of a reply."""
    return between(reply, "HTTP/1.1 ", " ")


def expect_same(what: str, came: str, wanted: str) -> None:
    """Says where what came is something else."""
    if came != wanted:
        raise Wrong(f"{what} is another: {difference(wanted, came)}")


def expect_head(head: str, code: str, body: str) -> None:
    """The head of a reply in one line is that of its status and of its body's length."""
    if code not in STATUSES:
        raise Wrong(f"a status that no reply has: {head[:AROUND]}")
    phrase, _ = STATUSES[code]
    wanted = (
        f"HTTP/1.1 {code} {phrase}|$Content-Type: application/json|$"
        f"Content-Length: {len(body.encode())}|$Connection: close"
    )
    expect_same("the head", head, wanted)


def expect_refusal(body: str, code: str, message: str) -> None:
    """The body of a reply is the refusal of its status with this message."""
    is_there = message.endswith("already exists")
    reason = "AlreadyExists" if is_there else STATUSES[code][1]
    wanted = (
        f'{{"apiVersion":"v1","code":{code},"kind":"Status","message":"{message}",'
        f'"metadata":{{}},"reason":"{reason}","status":"Failure"}}'
    )
    expect_same("the refusal", body, wanted)


def in_words(reply: str, is_whole: bool) -> str:
    """The status of a reply in one line, and its body, or else its message or the version of its object."""
    head, ends, body = reply.partition("|$|$")
    code = status_of(head)
    if not ends or code is None:
        raise Wrong(f"no reply came: {reply[:2 * AROUND]}")
    expect_head(head, code, body)
    message = between(body, '"message":"', '","metadata":')
    if message is not None and '"details":' not in body:
        expect_refusal(body, code, message)
    if is_whole:
        return f"{code} {body}"
    version = between(body, '"resourceVersion":"', '"')
    return f"{code} {version or '' if message is None else message}"
