"""Messages of the Language Server Protocol, which JSON-RPC 2.0 frames."""

from __future__ import annotations

import json
from typing import IO, Any


def receive(stream: IO[bytes]) -> dict[str, Any] | None:
    """Returns the next message; `None` at the end of the stream.

    >>> import io
    >>> stream = io.BytesIO()
    >>> send(stream, {"method": "exit"})
    >>> receive(io.BytesIO(stream.getvalue() + b"more"))
    {'jsonrpc': '2.0', 'method': 'exit'}
    """
    length = 0
    while line := stream.readline():
        if not line.strip():
            if length:
                return json.loads(stream.read(length))  # type: ignore[no-any-return]
            continue
        name, _, value = line.partition(b":")
        if name.strip().lower() == b"content-length":
            length = int(value)
    return None


def send(stream: IO[bytes], message: dict[str, Any]) -> None:
    """Sends a message."""
    data = json.dumps({"jsonrpc": "2.0", **message}, ensure_ascii=False).encode()
    stream.write(b"Content-Length: %d\r\n\r\n" % len(data) + data)
    stream.flush()
