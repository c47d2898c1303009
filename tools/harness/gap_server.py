"""A server of messages that are missing."""

import threading
from collections.abc import Callable
from typing import Self

from .loopback import HOST, address_of, udp_socket
from .packets import Request, request_of


class GapServer:
    """A thread that answers each request with one packet, or with none where `reply` gives none, until its context
    ends."""

    def __init__(self, reply: Callable[[Request], bytes | None], host: str = HOST) -> None:
        self.reply = reply
        self.socket = udp_socket(host)
        self.socket.bind((host, 0))
        self.socket.settimeout(0.05)  # how soon it sees that it is over
        self.address = address_of(host, self.socket.getsockname()[1])
        self.is_over = False
        self.thread = threading.Thread(target=self.serve)

    def __enter__(self) -> Self:
        self.start()
        return self

    def __exit__(self, *_: object) -> None:
        self.close()

    def start(self) -> None:
        self.thread.start()

    def serve(self) -> None:
        while not self.is_over:
            try:
                datagram, asker = self.socket.recvfrom(65_535)
            except TimeoutError:
                continue
            if packet := self.reply(request_of(datagram)):
                self.socket.sendto(packet, asker)

    def close(self) -> None:
        self.is_over = True
        if self.thread.ident is not None:
            self.thread.join()
        self.socket.close()
