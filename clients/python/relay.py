"""A relay in front of a served program, for tests: it may speak TLS, and its connections can be cut."""

from __future__ import annotations

import contextlib
import select
import socket
import threading
from ssl import SSLContext
from types import TracebackType
from typing import Dict, List, Optional, Type


class Relay:
    """Hands on what comes through a port of this machine, and what is told there, until the end of the `with` block."""

    def __init__(self, to: int, ssl: Optional[SSLContext] = None) -> None:
        self._to = to
        self._ssl = ssl
        self._links: List[socket.socket] = []
        self._listener = socket.create_server(("127.0.0.1", 0))
        self.port = int(self._listener.getsockname()[1])
        threading.Thread(target=self._listen, daemon=True).start()

    def cut(self) -> None:
        """Ends each connection that goes through the relay."""
        for link in self._links:
            with contextlib.suppress(OSError):  # (of one that has ended)
                link.shutdown(socket.SHUT_RDWR)

    def _listen(self) -> None:
        with contextlib.suppress(OSError):  # (of the end)
            while True:
                link, _ = self._listener.accept()
                threading.Thread(target=self._serve, args=(link,), daemon=True).start()

    def _serve(self, link: socket.socket) -> None:
        with contextlib.suppress(OSError), link:
            if self._ssl is not None:
                link = self._ssl.wrap_socket(link, server_side=True)
            with link, socket.create_connection(("127.0.0.1", self._to)) as server:
                self._links.append(link)
                self._hand_on({link: server, server: link})

    @staticmethod
    def _hand_on(sides: Dict[socket.socket, socket.socket]) -> None:
        while True:
            for side in select.select(sides, [], [])[0]:
                told = side.recv(65_536)  # (more than TLS gives at once, so nothing is left behind)
                if not told:
                    return
                sides[side].sendall(told)

    def __enter__(self) -> Relay:
        return self

    def __exit__(
        self, kind: Optional[Type[BaseException]], fault: Optional[BaseException], trace: Optional[TracebackType]
    ) -> None:
        self._listener.close()
        self.cut()
