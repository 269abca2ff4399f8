"""The messages of the protocol as they are read: one behind the other, or what is wrong with one."""
import json

PARSE_ERROR, INVALID_REQUEST = -32700, -32600


class BadMessage(Exception):
    """What was read is no message: a number of the protocol, and why in words."""

    def __init__(self, code, why):
        super().__init__(why)
        self.code, self.why = code, why

    def answer(self):
        return {"jsonrpc": "2.0", "id": None, "error": {"code": self.code, "message": self.why}}


def length(source):
    """Reads the lines above a message, and gives how many bytes it has, or nothing where no further one comes."""
    found = None
    while True:
        line = source.readline()
        if not line:
            return None
        if not line.strip():
            break
        name, _, value = line.partition(b":")
        if name.strip().lower() == b"content-length" and value.strip().isdigit():
            found = int(value)
    if found is None:
        raise BadMessage(PARSE_ERROR, "a message has no Content-Length")
    return found


def read(source):
    """Reads a message, and gives it, or nothing where no further one comes."""
    size = length(source)
    data = b"" if size is None else source.read(size)
    if size is None or len(data) < size:
        return None
    try:
        found = json.loads(data.decode("utf-8"))
    except (ValueError, RecursionError) as error:
        raise BadMessage(PARSE_ERROR, "a message is no JSON") from error
    if not isinstance(found, dict) or found.get("jsonrpc") != "2.0":
        raise BadMessage(INVALID_REQUEST, "a message is no object of JSON-RPC 2.0")
    is_answer = "id" in found and "method" not in found
    if not is_answer and not isinstance(found.get("method"), str):
        raise BadMessage(INVALID_REQUEST, "a message has no method")
    if not isinstance(found.get("params") or {}, dict):
        raise BadMessage(INVALID_REQUEST, "the parameters of a message are no object")
    return found
