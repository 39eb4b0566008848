"""Proxies on the loopback that hand on what a client and a server say, and keep each message."""
import socket
import threading
import time
from dataclasses import dataclass


@dataclass(frozen=True)
class Message:
    """A message, with its module and its type in the module, and who sent it."""

    module: str
    type: str
    data: bytes
    sender: str


def free_port(kind: int = socket.SOCK_STREAM) -> int:
    """A port of the loopback that nobody listens on."""
    with socket.socket(type=kind) as it:
        it.bind(("127.0.0.1", 0))
        return it.getsockname()[1]


def waited_for(port: int) -> None:
    """Waits until somebody listens on a port."""
    for _ in range(100):
        try:
            socket.create_connection(("127.0.0.1", port)).close()
            return
        except OSError:
            time.sleep(0.1)
    raise TimeoutError(f"nobody listens on {port}")


def whole(data: bytes) -> int:
    """The length of the element at the front, or 0 if it isn't whole (X.690, 8.1)."""
    if len(data) < 2:
        return 0
    count = data[1] & 0x7F if data[1] & 0x80 else 0
    length = int.from_bytes(data[2 : 2 + count], "big") if count else data[1]
    return 2 + count + length if len(data) >= 2 + count + length else 0


class Streams:
    """A proxy of TCP. What is kept are elements, in the order in which each side sent them."""

    def __init__(self, server_port: int, type_: str) -> None:
        self.server_port, self.type, self.sender = server_port, type_, ""
        self.kept: list[Message] = []
        self.listener = socket.create_server(("127.0.0.1", 0))
        self.port = self.listener.getsockname()[1]
        threading.Thread(target=self.serve, daemon=True).start()

    def serve(self) -> None:
        """Serves clients until the proxy is closed."""
        while True:
            try:
                client, _ = self.listener.accept()
            except OSError:
                return
            server = socket.create_connection(("127.0.0.1", self.server_port))
            for it in ((client, server, self.sender), (server, client, "slapd")):
                threading.Thread(target=self.hand_on, args=it, daemon=True).start()

    def hand_on(self, source: socket.socket, target: socket.socket, sender: str) -> None:
        """Hands on what one side sends, until it ends."""
        left = b""
        try:
            while found := source.recv(65536):
                left += found
                while length := whole(left):
                    self.kept.append(Message("ldap", self.type, left[:length], sender))
                    left = left[length:]
                target.sendall(found)
            target.shutdown(socket.SHUT_WR)
        except OSError:
            pass

    def close(self) -> None:
        """Ends it."""
        self.listener.close()


class Datagrams:
    """A proxy of UDP for messages of SNMP, of one client at a time."""

    def __init__(self, server_port: int) -> None:
        self.server = ("127.0.0.1", server_port)
        self.kept: list[Message] = []
        self.socket = socket.socket(type=socket.SOCK_DGRAM)
        self.socket.bind(("127.0.0.1", 0))
        self.port = self.socket.getsockname()[1]
        threading.Thread(target=self.serve, daemon=True).start()

    def serve(self) -> None:
        """Hands on datagrams until the proxy is closed."""
        client = None
        while True:
            try:
                data, sender = self.socket.recvfrom(65536)
            except OSError:
                return
            is_answer = sender == self.server
            client = client if is_answer else sender
            self.keep(data, "snmpd" if is_answer else "net-snmp")
            self.socket.sendto(data, client if is_answer else self.server)

    def keep(self, data: bytes, sender: str) -> None:
        """Keeps a message, and the parameters in one of version 3: the third member, which is an octet string."""
        at = 4 if data[1] & 0x80 and data[1] & 0x7F == 2 else 3 if data[1] & 0x80 else 2
        version = data[at + 2]
        self.kept.append(Message("snmp", "SNMPv3Message" if version == 3 else "CommunityMessage", data, sender))
        if version == 3:
            third = at + 3 + whole(data[at + 3 :])
            length = whole(data[third:])
            start = 3 if data[third + 1] & 0x80 else 2
            self.kept.append(Message("snmp", "UsmSecurityParameters", data[third + start : third + length], sender))

    def close(self) -> None:
        """Ends it."""
        self.socket.close()
