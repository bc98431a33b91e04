"""Messages of language servers: JSON-RPC over two streams, read by one thread and written by many."""
import json
import threading
from typing import Any, BinaryIO, Dict, Optional

PARSE_ERROR, INVALID_REQUEST, NOT_FOUND, INVALID_PARAMS, INTERNAL, CANCELLED, FAILED = -32700, -32600, -32601, -32602, -32603, -32800, -32803
MOST_MESSAGE = 1 << 26  # bytes; a longer one ends the server

Message = Dict[str, Any]


class Failed(Exception):
    """A request gets an error as its answer."""

    def __init__(self, message: str, code: int = FAILED) -> None:
        super().__init__(message)
        self.message, self.code = message, code


class Cancelled(Exception):
    """An answer is no longer wanted."""


class Ended(Exception):
    """The stream has no further message."""


class Connection:
    def __init__(self, source: BinaryIO, sink: BinaryIO) -> None:
        self.source, self.sink, self.lock, self.is_closed = source, sink, threading.Lock(), False

    def read(self) -> Message:
        """The next message. Failed where it is none, and Ended where there can be no further one."""
        length = self.length()
        data = self.source.read(length)
        if len(data) < length:
            raise Ended
        try:
            message = json.loads(data.decode("utf-8"))
        except (ValueError, RecursionError):
            raise Failed("the message is no JSON", PARSE_ERROR) from None
        if not isinstance(message, dict):
            raise Failed("the message is no object", INVALID_REQUEST)
        return message

    def length(self) -> int:
        """The length that the lines before a message give it."""
        found: Optional[int] = None
        while True:
            line = self.source.readline(1000)
            if not line:
                raise Ended
            if not line.strip() and found is not None:
                return found
            name, _, value = line.partition(b":")
            if name.strip().lower() == b"content-length":
                if not value.strip().isdigit() or int(value) > MOST_MESSAGE:
                    raise Ended
                found = int(value)

    def send(self, message: Message) -> None:
        """Writes a message; where the connection is closed, nothing."""
        data = json.dumps({"jsonrpc": "2.0", **message}, ensure_ascii=False).encode("utf-8", "replace")
        with self.lock:
            if not self.is_closed:
                self.sink.write(b"Content-Length: %d\r\n\r\n" % len(data) + data)
                self.sink.flush()

    def notify(self, method: str, params: Message) -> None:
        self.send({"method": method, "params": params})

    def error(self, number: Any, code: int, message: str) -> None:
        self.send({"id": number, "error": {"code": code, "message": message}})

    def close(self) -> None:
        with self.lock:
            self.is_closed = True
