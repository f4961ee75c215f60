#!/usr/bin/env python3
"""Sends many random heads to one `kcp serve`, and compares each reply with a small reading of HTTP/1.1 of its own.

A head is made of a good one by a few random changes: bytes dropped, put in, changed or said twice, lines cut, ends of lines turned.
The sending half of the connection is closed after it. The heads are the same for the same seed.
Usage: heads.py --program PATH [--count N] [--seed N]
"""
import argparse
import json
import random
import re
import socket
import sys

import run

LONGEST_HEAD, MOST_FIELDS, LONGEST_BODY = 16384, 64, 1048576
TOKEN = rb"[!#$%&'*+\-.^_`|~0-9A-Za-z]+"
BLANK = re.compile(rb"(?:\r?\n)*")
START = re.compile(rb"(" + TOKEN + rb") ([^\x00-\x20\x7f]+) HTTP/1\.([01])\r?\n")
FIELD = re.compile(rb"(" + TOKEN + rb"):([\t\x20-\x7e\x80-\xff]*)\r?\n")
END = re.compile(rb"\r?\n")

# What may follow a beginning of a head, as patterns of what is not whole yet, a part at a time.
PARTIAL = [
    rb"(?:\r?\n)*\r?",
    rb"(?:\r?\n)*" + TOKEN,
    rb"(?:\r?\n)*" + TOKEN + rb" [^\x00-\x20\x7f]*",
    rb"(?:\r?\n)*" + TOKEN + rb" [^\x00-\x20\x7f]+ (?:H|HT|HTT|HTTP|HTTP/|HTTP/1|HTTP/1\.|HTTP/1\.[01]\r?)?",
]
PARTIAL_FIELD = re.compile(rb"(?:" + TOKEN + rb"(?::[\t\x20-\x7e\x80-\xff]*\r?)?|\r)?")
PARTIAL = [re.compile(it) for it in PARTIAL]

EMPTY_LISTS = {plural: (kind, version) for plural, kind, version in [
    ("configmaps", "ConfigMap", "v1"), ("pods", "Pod", "v1"), ("replicasets", "ReplicaSet", "apps/v1"), ("deployments", "Deployment", "apps/v1")]}


def refused(code, reason, message):
    """Returns the reply of a refusal."""
    return run.reply(code, run.status(code, reason, message))


BAD_HEAD = refused(400, "BadRequest", "bad request: head")
TOO_LARGE = refused(413, "RequestEntityTooLarge", "request entity too large")
NO_PATH = refused(404, "NotFound", "the server could not find the requested resource")
BAD_PATH = refused(400, "BadRequest", "bad request: path")
NOT_ALLOWED = refused(405, "MethodNotAllowed", "the server does not allow this method on the requested resource")
NO_LENGTH = refused(411, "LengthRequired", "length required")
BAD_TYPE = refused(415, "UnsupportedMediaType", "unsupported media type")


def is_utf8(text):
    """Returns whether bytes are a text."""
    try:
        text.decode()
        return True
    except UnicodeDecodeError:
        return False


def parts_of(sent):
    """Returns the method, target, minor version, fields and rest of a whole head; "cut" of a part of one; None of what is no head."""
    at = BLANK.match(sent).end()
    start = START.match(sent, at)
    if not start:
        return "cut" if any(it.fullmatch(sent) for it in PARTIAL) and target_may_be(sent) else None
    if not is_utf8(start[2]):
        return None
    at, fields = start.end(), []
    while not (end := END.match(sent, at)):
        field = FIELD.match(sent, at)
        if not field:
            return ("cut", len(fields)) if PARTIAL_FIELD.fullmatch(sent, at) else (None, len(fields))
        fields.append((field[1].lower(), field[2].strip(b" \t")))
        at = field.end()
    return start[1], start[2], int(start[3]), fields, sent[end.end() :], end.end()


def target_may_be(sent):
    """Returns whether the target of a start line that is not whole is a text, where it has ended."""
    words = sent.lstrip(b"\r\n").split(b" ")
    return len(words) < 3 or is_utf8(words[1])


def allowed(sent):
    """Returns what may come back of an empty server, as a set of whole replies."""
    found = parts_of(sent)
    is_long = len(sent) >= LONGEST_HEAD
    if isinstance(found, tuple) and len(found) == 2:
        found, count = found
        if count > MOST_FIELDS or (count == MOST_FIELDS and found is None):
            return {TOO_LARGE, BAD_HEAD} if found is None else {TOO_LARGE}
    if found is None:
        return {BAD_HEAD, TOO_LARGE} if is_long else {BAD_HEAD}
    if found == "cut":
        at_target = re.fullmatch(rb"(?:\r?\n)*" + TOKEN + rb" [^\x00-\x20\x7f]*", sent)
        if at_target and not is_utf8(sent):
            return {b"", BAD_HEAD, TOO_LARGE} if is_long else {b"", BAD_HEAD}
        return {TOO_LARGE} if is_long else {b""}
    method, target, minor, fields, rest, size = found
    if size > LONGEST_HEAD or len(fields) > MOST_FIELDS:
        return {TOO_LARGE}
    return {checked(method, target.decode(), minor, fields, rest)}


def values(fields, name):
    """Returns the values of the fields of a name."""
    return [value for found, value in fields if found == name]


def checked(method, target, minor, fields, rest):
    """Returns the reply to a whole head within the limits, with what follows it."""
    lengths = values(fields, b"content-length")
    if len(lengths) > 1 or (lengths and not re.fullmatch(rb"[0-9]+", lengths[0])):
        return BAD_HEAD
    path, _, query = target.partition("?")
    listed = re.fullmatch(r"/(?:api/v1|apis/apps/v1)(?:/namespaces/([^/]+))?/([^/]+)(?:/([^/]+))?", path)
    plural = listed and listed[2]
    if not listed or plural not in EMPTY_LISTS or (EMPTY_LISTS[plural][1] == "v1") != path.startswith("/api/") or (listed[3] and not listed[1]):
        return NO_PATH
    if listed[1] and not re.fullmatch(r"[a-z0-9](?:[-a-z0-9]{0,61}[a-z0-9])?", listed[1]):
        return BAD_PATH
    takes = [b"GET", b"PUT", b"PATCH", b"DELETE"] if listed[3] else [b"GET", b"POST"] if listed[1] else [b"GET"]
    if method not in takes:
        return NOT_ALLOWED
    if query:
        return None
    if values(fields, b"transfer-encoding") or (method in (b"POST", b"PUT", b"PATCH") and not lengths):
        return NO_LENGTH
    length = int(lengths[0]) if lengths else 0
    if length > LONGEST_BODY:
        return TOO_LARGE
    types = [value.split(b";")[0].strip(b" \t").lower() for value in values(fields, b"content-type")]
    wanted = {b"POST": b"application/json", b"PUT": b"application/json", b"PATCH": b"application/merge-patch+json"}.get(method)
    if wanted and (types[0] if types else (b"" if method == b"PATCH" else wanted)) != wanted:
        return BAD_TYPE
    if len(rest) < length:
        return b""
    return served(method, plural, listed[3], rest[:length])


def is_object(body):
    """Returns whether a body is a JSON object."""
    try:
        return isinstance(json.loads(body), dict)
    except ValueError:
        return False


def served(method, plural, name, body):
    """Returns the reply to a request that passes its checks. A body that is an object has no name, so nothing is ever created; what is
    told then is left to the cases."""
    kind, version = EMPTY_LISTS[plural]
    if is_object(body):
        return None
    if method in (b"POST", b"PUT", b"PATCH") or (method == b"DELETE" and body):
        return refused(400, "BadRequest", "bad request: body")
    if not name:
        return run.reply(200, f'{{"apiVersion":"{version}","items":[],"kind":"{kind}List","metadata":{{"resourceVersion":"1"}}}}'.encode())
    group = '"group":"apps",' if version != "v1" else ""
    resource = plural + (".apps" if group else "")
    named, message = (json.dumps(it, ensure_ascii=False) for it in (name, f'{resource} "{name}" not found'))
    return run.reply(404, (
        f'{{"apiVersion":"v1","code":404,"details":{{{group}"kind":"{plural}","name":{named}}},"kind":"Status","message":{message},'
        f'"metadata":{{}},"reason":"NotFound","status":"Failure"}}').encode())


GOOD = [
    b"GET /api/v1/configmaps HTTP/1.1\r\nHost: localhost\r\n\r\n",
    b"GET /apis/apps/v1/namespaces/default/deployments HTTP/1.1\r\nHost: localhost\r\nAccept: */*\r\n\r\n",
    b"GET /api/v1/namespaces/default/pods/web HTTP/1.0\r\n\r\n",
    b"DELETE /apis/apps/v1/namespaces/default/replicasets/web HTTP/1.1\r\nHost: a\r\n\r\n",
    b"POST /api/v1/namespaces/default/configmaps HTTP/1.1\r\nContent-Length: 4\r\nContent-Type: application/json\r\n\r\n[{} ",
    b"PUT /api/v1/namespaces/default/pods/web HTTP/1.1\r\nContent-Length: 0\r\n\r\n",
    b"PATCH /api/v1/namespaces/a/pods/web HTTP/1.1\r\nContent-Length: 3\r\nContent-Type: application/merge-patch+json; a=b\r\n\r\n[1]",
]


def random_head(rolls):
    """Returns the bytes of one connection."""
    sent = bytearray(rolls.choice(GOOD))
    for _ in range(rolls.randrange(4)):
        at = rolls.randrange(len(sent) + 1)
        change = rolls.randrange(8)
        if change == 0:
            del sent[at : at + 1 + rolls.randrange(3)]
        elif change == 1:
            sent[at:at] = bytes([rolls.randrange(256)])
        elif change == 2:
            sent[at : at + 1] = bytes([rolls.choice(b"\r\n\t :;/0aA\x00\x7f\xff")])
        elif change == 3:
            sent = sent[:at]
        elif change == 4:
            sent = bytearray(bytes(sent).replace(b"\r\n", b"\n", 1 + rolls.randrange(3)))
        elif change == 5:
            lines = bytes(sent).split(b"\r\n")
            lines.insert(1 + rolls.randrange(len(lines)), rolls.choice(lines))
            sent = bytearray(b"\r\n".join(lines))
        elif change == 6:
            field = rolls.choice([b"Content-Length: 2", b"Content-Length: 1048577", b"Transfer-Encoding: chunked", b"Content-Type: text/plain", b"X: y"])
            sent = bytearray(bytes(sent).replace(b"\r\n", b"\r\n" + field + b"\r\n", 1))
        else:
            sent = bytearray(bytes(sent).replace(b"\r\n", b"\r\n" + b"X: y\r\n" * rolls.choice([62, 63, 64, 65]), 1))
    return bytes(sent)


def answered(port, sent):
    """Returns all that the server writes."""
    with socket.create_connection(("127.0.0.1", port), timeout=run.SECONDS) as stream:
        try:
            stream.sendall(sent)
            stream.shutdown(socket.SHUT_WR)
        except (BrokenPipeError, ConnectionResetError, OSError):
            pass
        return run.read_all(stream)


def main():
    parser = argparse.ArgumentParser(description=__doc__.splitlines()[0])
    parser.add_argument("--program", required=True)
    parser.add_argument("--count", type=int, default=2000)
    parser.add_argument("--seed", type=int, default=1)
    asked = parser.parse_args()
    rolls, failed = random.Random(asked.seed), 0
    started, port = run.serve(asked.program, asked.count)
    for number in range(asked.count):
        sent = random_head(rolls)
        wanted, written = allowed(sent), answered(port, sent)
        if None not in wanted and written not in wanted:
            failed += 1
            print(f"FAILED head {number}\n    sent    {sent[:400]!r}\n    wanted  {sorted(wanted)!r}\n    written {written[:400]!r}")
    failed += started.wait(timeout=run.SECONDS) != 0
    print(f"{asked.count - failed} passed, {failed} failed")
    sys.exit(1 if failed else 0)


if __name__ == "__main__":
    main()
