"""Messages of the language server protocol, over two streams: a head with the length, then JSON."""

import json
import os
import select
import time
from collections import deque

HEAD_END = b"\r\n\r\n"
CHUNK = 65536
NOT_JSON = -32700


class Closed(Exception):
    """The other side closed its stream, or sent what is no message."""


class Channel:
    """The messages that come on a file descriptor, and those that go out on a stream."""

    def __init__(self, source, sink):
        self.source = source
        self.sink = sink
        self.buffer = b""
        self.waiting = deque()
        # why nothing more comes, or None
        self.end = None

    def receive(self, timeout=None):
        """Returns the next message, or None where none came within `timeout` seconds."""
        until = None if timeout is None else time.monotonic() + timeout
        while not self.waiting:
            if self.end:
                raise self.end
            if not self._read(None if until is None else max(0, until - time.monotonic())):
                return None
        return self.waiting.popleft()

    def arrived(self):
        """Returns the messages that came and were not received yet, in order. They are received later."""
        while not self.end and self._read(0):
            pass
        return [*self.waiting]

    def _read(self, timeout):
        """Reads what comes within `timeout` seconds. Returns whether something came, or the end."""
        if not select.select([self.source], [], [], timeout)[0]:
            return False
        chunk = os.read(self.source, CHUNK)
        self.buffer += chunk
        try:
            if not chunk:
                raise Closed("the input ended")
            self._split()
        except Closed as why:
            self.end = why
        return True

    def _split(self):
        """Puts the whole messages of the buffer to those that wait."""
        body = self._take()
        while body is not None:
            self.waiting.append(self._message(body))
            body = self._take()

    def _take(self):
        """Takes the body of a whole message from the front of the buffer, or returns None."""
        head, end, rest = self.buffer.partition(HEAD_END)
        if not end:
            return None
        fields = [line.partition(b":") for line in head.split(b"\r\n")]
        lengths = [value for name, _, value in fields if name.strip().lower() == b"content-length"]
        if len(lengths) != 1 or not lengths[0].strip().isdigit():
            raise Closed("a head says no length")
        length = int(lengths[0])
        if len(rest) < length:
            return None
        self.buffer = rest[length:]
        return rest[:length]

    def _message(self, body):
        """Returns the message of a body. A body that is no message is answered with an error, and an empty message."""
        try:
            message = json.loads(body)
        except ValueError:
            message = None
        if isinstance(message, dict):
            return message
        self.fail(None, NOT_JSON, "no message")
        return {}

    def answer(self, number, result):
        """Answers the request of this number."""
        self._send({"id": number, "result": result})

    def fail(self, number, code, text):
        """Answers the request of this number with an error."""
        self._send({"id": number, "error": {"code": code, "message": text}})

    def notify(self, method, params):
        """Sends a notification."""
        self._send({"method": method, "params": params})

    def request(self, number, method, params):
        """Sends a request. What the other side answers comes as a message without a method."""
        self._send({"id": number, "method": method, "params": params})

    def _send(self, message):
        body = json.dumps({"jsonrpc": "2.0", **message}).encode()
        try:
            self.sink.write(b"Content-Length: %d\r\n\r\n%s" % (len(body), body))
            self.sink.flush()
        except OSError as why:
            raise Closed("the output is closed") from why
