"""What a follower asks of a server, and how a server that knows no streams of initial events answers one."""
import json

STREAM, LIST, WATCH, LOOK = "stream", "list", "watch", "look"
REASONS = {400: "Bad Request", 403: "Forbidden", 422: "Unprocessable Entity"}
# What a Kubernetes API server before 1.27 says of it.
FORBIDDEN = "resourceVersionMatch is forbidden for watch"
CAUSE = {"reason": "FieldValueForbidden", "message": f"Forbidden: {FORBIDDEN}", "field": "resourceVersionMatch"}
REFUSED = {
    "kind": "Status",
    "apiVersion": "v1",
    "metadata": {},
    "status": "Failure",
    "message": f'ListOptions.meta.k8s.io "" is invalid: resourceVersionMatch: Forbidden: {FORBIDDEN}',
    "reason": "Invalid",
    "details": {"group": "meta.k8s.io", "kind": "ListOptions", "causes": [CAUSE]},
}


def asked_for(request):
    """Returns what a request, or its target, asks for: a stream of initial events, a watch after a revision, a list, or a look at the first
    object, by which a follower knows a server again."""
    line = request.split(b"\r\n", 1)[0]
    if b"sendInitialEvents=true" in line:
        return STREAM
    if b"watch=true" in line:
        return WATCH
    return LOOK if b"limit=1&" in line and b"resourceVersionMatch=Exact" in line else LIST


def refusal(code):
    """Returns the reply of a server that refuses streams of initial events by a status code."""
    body = json.dumps(REFUSED | {"code": code}).encode() + b"\n"
    head = f"HTTP/1.1 {code} {REASONS[code]}\r\nContent-Type: application/json\r\nContent-Length: {len(body)}\r\nConnection: close\r\n\r\n"
    return head.encode() + body
