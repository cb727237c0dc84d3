"""Far ends that talk, for `.ci/check-network-messages` and `bench/peers`."""

import socket
import threading
import time

from ends import reset

PATIENCE = 10  # s that an end waits for what it is to read


class Talk:
    """A far end that does these steps with its first connection, or with the first one that sends it a datagram.

    `("read", bytes)` reads exactly these bytes; `"read end"` reads the end of the stream; `("send", bytes)` sends; `("single", bytes)`
    sends byte by byte; `("wait", ms)` waits; `"echo"` sends back what it reads up to the end; `"end"` ends its sending side;
    `"close"` and `"reset"` close the connection. `fault` is what went otherwise, if anything did.
    """

    def __init__(self, kind, room, steps):
        self.steps, self.fault, self.datagrams = steps, None, kind == "udp"
        if kind == "unix":
            self.address = f"unix:{room}/talk.sock"
            self.socket = socket.socket(socket.AF_UNIX, socket.SOCK_STREAM)
            self.socket.bind(self.address[5:])
        else:
            host = "::1" if kind == "tcp 6" else "127.0.0.1"
            family = socket.AF_INET6 if kind == "tcp 6" else socket.AF_INET
            self.socket = socket.socket(family, socket.SOCK_DGRAM if self.datagrams else socket.SOCK_STREAM)
            self.socket.bind((host, 0))
            port = self.socket.getsockname()[1]
            self.address = f"[{host}]:{port}" if ":" in host else f"{host}:{port}"
        if not self.datagrams:
            self.socket.listen(8)
        self.socket.settimeout(PATIENCE)
        self.thread = threading.Thread(target=self.talk)

    def begin(self):
        self.thread.start()

    def talk(self):
        try:
            if self.datagrams:
                self.answer_datagrams()
                return
            connection = self.socket.accept()[0]
            connection.settimeout(PATIENCE)
            if connection.family != socket.AF_UNIX:
                connection.setsockopt(socket.IPPROTO_TCP, socket.TCP_NODELAY, 1)
            for step in self.steps:
                self.do(connection, step)
            connection.close()
        except OSError as fault:
            self.fault = f"the far end: {fault!r}"

    def do(self, connection, step):
        what, value = step if isinstance(step, tuple) else (step, None)
        if what == "read":
            came = b""
            while len(came) < len(value) and (piece := connection.recv(len(value) - len(came))):
                came += piece
            if came != value:
                raise OSError(f"it read {came.hex()} in place of {value.hex()}")
        elif what == "read end":
            if came := connection.recv(64):
                raise OSError(f"it read {came.hex()} in place of the end")
        elif what == "send":
            connection.sendall(value)
        elif what == "single":
            for place in range(len(value)):
                connection.sendall(value[place:place + 1])
                time.sleep(0.001)
        elif what == "wait":
            time.sleep(value / 1000)
        elif what == "echo":
            while piece := connection.recv(65536):
                connection.sendall(piece)
        elif what == "end":
            connection.shutdown(socket.SHUT_WR)
        elif what == "close":
            connection.close()
        elif what == "reset":
            reset(connection)

    def answer_datagrams(self):
        for step in self.steps:
            what, value = step if isinstance(step, tuple) else (step, None)
            if what == "wait":
                time.sleep(value / 1000)
            elif what == "read":
                came, self.peer = self.socket.recvfrom(65536)
                if came != value:
                    raise OSError(f"it read {came.hex()} in place of {value.hex()}")
            elif what == "send":
                self.socket.sendto(value, self.peer)

    def close(self):
        """Waits for the last step, and closes the end."""
        self.thread.join()
        self.socket.close()
