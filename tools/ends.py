"""Far ends of races on the loopback, for `.ci/check-network`, `bench/race` and `bench/peers`."""

import ctypes
import fcntl
import os
import socket
import struct
import threading
import time

NEW_USER, NEW_NETWORK = 0x10000000, 0x40000000


def own_network():
    """Goes into a network of its own with a loopback, whose ports are free and end with this process, where the system lets it."""
    libc = ctypes.CDLL(None, use_errno=True)
    if libc.unshare(NEW_NETWORK) != 0 and libc.unshare(NEW_USER | NEW_NETWORK) != 0:
        return False
    with socket.socket(socket.AF_INET, socket.SOCK_DGRAM) as any_socket:
        up = struct.pack("16sh", b"lo", 0x41)  # IFF_UP, IFF_RUNNING
        fcntl.ioctl(any_socket, 0x8914, up)  # SIOCSIFFLAGS
    # (where the loopback has ::1, it comes a moment later)
    for _ in range(100):
        if has_six():
            break
        time.sleep(0.005)
    return True


def has_six():
    """Whether the loopback has the address ::1."""
    try:
        with socket.socket(socket.AF_INET6, socket.SOCK_STREAM) as any_socket:
            any_socket.bind(("::1", 0))
        return True
    except OSError:
        return False


def reset(connection):
    """Closes a connection by a reset, so that no port stays in TIME-WAIT."""
    connection.setsockopt(socket.SOL_SOCKET, socket.SO_LINGER, struct.pack("ii", 1, 0))
    connection.close()


class End:
    """A far end of a race, at an address of its own.

    `refuses` is bound and does not listen. `silent` is a listener whose backlog is full, `late` one until 400 ms after `begin`, so that
    it answers when the system sends its SYN again, after a second. `good` accepts nothing before `heard`. `closes` and `resets` do so
    with the first connection, at once. `udp` is a bound socket. `unix` listens; `unix full` does, with a full backlog; `unix stale`
    is a file that nobody listens at, `unix nobody` a path without one.
    """

    def __init__(self, kind, room, place, host="127.0.0.1", port=0):
        self.kind, self.fillers, self.helper, self.socket = kind, [], None, None
        if kind.startswith("unix"):
            self.open_unix(f"{room}/{place}.sock")
        else:
            self.open(host, port)

    def open_unix(self, path):
        self.address = f"unix:{path}"
        if self.kind == "unix nobody":
            return
        self.socket = socket.socket(socket.AF_UNIX, socket.SOCK_STREAM)
        self.socket.bind(path)
        if self.kind == "unix stale":
            self.socket.close()
        elif self.kind == "unix full":
            self.socket.listen(0)
            self.fill(path)
        else:
            self.socket.listen(64)

    def fill(self, path):
        """Connects until the backlog takes no more."""
        while True:
            filler = socket.socket(socket.AF_UNIX, socket.SOCK_STREAM)
            filler.setblocking(False)
            self.fillers.append(filler)
            try:
                filler.connect(path)
            except BlockingIOError:
                return

    def open(self, host, port):
        six = ":" in host
        family = socket.AF_INET6 if six else socket.AF_INET
        self.socket = socket.socket(family, socket.SOCK_DGRAM if self.kind == "udp" else socket.SOCK_STREAM)
        self.socket.bind((host, port))
        self.port = self.socket.getsockname()[1]
        self.address = f"[{host}]:{self.port}" if six else f"{host}:{self.port}"
        if self.kind in ("silent", "late"):
            self.socket.listen(0)
            filler = socket.socket(family, socket.SOCK_STREAM)
            filler.connect(self.socket.getsockname())
            self.fillers.append(filler)
        elif self.kind in ("good", "closes", "resets"):
            self.socket.listen(64)

    def begin(self):
        """The race is about to begin."""
        if self.kind == "late":
            self.helper = threading.Timer(0.4, lambda: self.fillers.append(self.socket.accept()[0]))
            self.helper.start()
        elif self.kind in ("closes", "resets"):
            self.helper = threading.Thread(target=self.hang_up)
            self.helper.start()

    def hang_up(self):
        """Accepts one connection and closes it at once, or resets it."""
        self.socket.settimeout(5)
        try:
            connection = self.socket.accept()[0]
        except OSError:
            return
        if self.kind == "resets":
            reset(connection)
        else:
            connection.close()

    def heard(self):
        """What came of the connections, each up to its end."""
        told = []
        self.socket.setblocking(False)
        while True:
            try:
                connection = self.socket.accept()[0]
            except BlockingIOError:
                return told
            connection.settimeout(5)
            told.append(connection.recv(64))
            reset(connection)

    def close(self):
        """Closes it, which resets what nobody accepted."""
        if self.helper is not None:
            self.helper.join()
        for filler in self.fillers:
            if filler.family == socket.AF_UNIX:
                filler.close()
            else:
                reset(filler)
        if self.socket is not None:
            self.socket.close()


def remotes(ends):
    """The lines of a file with these ends as its remotes."""
    return "".join(f'[[remote]]\naddress = "{end.address}"\n' for end in ends)


def empty(room):
    """Removes what a race left in its folder."""
    for name in os.listdir(room):
        os.remove(f"{room}/{name}")
