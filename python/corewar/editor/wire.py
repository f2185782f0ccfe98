"""Messages of the Language Server Protocol: JSON after a header with its length, over two file descriptors."""
from __future__ import annotations

import json
import re
import select
import sys
import time
from io import FileIO
from typing import Any

Message = dict[str, Any]
LENGTH = re.compile(rb"content-length: *(\d{1,9})\s*$", re.I)


class Wire:
    """The two streams of a connection. They have no buffers, so that a wait for input sees all of it."""

    def __init__(self, reader: int, writer: int) -> None:
        self._reader, self._writer = FileIO(reader, closefd=False), FileIO(writer, "w", closefd=False)

    def is_quiet(self, seconds: float) -> bool:
        """Returns whether no message comes for this time."""
        return not has_input(self._reader, seconds)

    def receive(self) -> Message | None:
        """Returns the next message, or None at the end of the stream. Raises ValueError if it is not a JSON object."""
        left, body = 0, bytearray()
        while (line := self._reader.readline()) != b"\r\n":
            if not line:
                return None
            found = LENGTH.match(line)
            left = int(found[1]) if found else left
        while left:
            piece = self._reader.read(left)
            if not piece:
                return None
            body += piece
            left -= len(piece)
        message = json.loads(body)
        if not isinstance(message, dict):
            raise ValueError("a message is not an object")
        return message

    def send(self, message: Message) -> None:
        body = json.dumps({"jsonrpc": "2.0", **message}).encode()
        left = b"Content-Length: %d\r\n\r\n%s" % (len(body), body)
        while left:
            left = left[self._writer.write(left) :]


def has_input(stream: FileIO, seconds: float) -> bool:
    """Returns whether there is something to read, or the end, within this time."""
    if sys.platform != "win32":
        return bool(select.select([stream], [], [], seconds)[0])
    # On Windows, select accepts only sockets.
    import ctypes
    import msvcrt

    handle, count = ctypes.c_void_p(msvcrt.get_osfhandle(stream.fileno())), ctypes.c_ulong()
    end = time.monotonic() + seconds
    while ctypes.windll.kernel32.PeekNamedPipe(handle, None, 0, None, ctypes.byref(count), None) and not count.value:
        if time.monotonic() >= end:
            return False
        time.sleep(0.01)
    return True
