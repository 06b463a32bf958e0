"""What tells the programs of a screen how bright they are to look: the keeper of its settings (XSETTINGS), by the X11
protocol."""

import socket
import struct

from .common import PATIENCE

NAME, THEMES = b"Net/ThemeName", {"light": b"Adwaita", "dark": b"Adwaita-dark"}
# The numbers of requests of the protocol.
CREATE_WINDOW, INTERN_ATOM, CHANGE_PROPERTY, SET_SELECTION_OWNER = 1, 16, 18, 22


def padded(data):
    return data + b"\0" * (-len(data) % 4)


def settings(serial, theme):
    """All settings, of which there is one, a text."""
    text = struct.pack("<BxH", 1, len(NAME)) + padded(NAME) + struct.pack("<II", serial, len(theme)) + padded(theme)
    return struct.pack("<BxxxII", 0, serial, 1) + text


class Theme:
    """Keeps the settings of a screen, as long as it is connected."""

    def __init__(self, display):
        self.socket, self.serial = socket.socket(socket.AF_UNIX), 0
        self.socket.settimeout(PATIENCE)
        self.socket.connect(f"/tmp/.X11-unix/X{display.removeprefix(':')}")
        self.socket.sendall(struct.pack("<cxHHHHxx", b"l", 11, 0, 0, 0))
        self.window, root = self.greeted()
        self.ask(CREATE_WINDOW, 0, struct.pack("<IIhhHHHHII", self.window, root, 0, 0, 1, 1, 0, 2, 0, 0))
        self.property = self.atom(b"_XSETTINGS_SETTINGS")
        self.shows("light")
        self.ask(SET_SELECTION_OWNER, 0, struct.pack("<III", self.window, self.atom(b"_XSETTINGS_S0"), 0))

    def read(self, count):
        data = b""
        while len(data) < count and (piece := self.socket.recv(count - len(data))):
            data += piece
        return data

    def greeted(self):
        """The first number that this client may give to a window, and the screen's own window."""
        data = self.read(4 * struct.unpack_from("<xxxxxxH", self.read(8))[0])
        maker, formats = struct.unpack_from("<H", data, 16)[0], data[21]
        return struct.unpack_from("<I", data, 4)[0], struct.unpack_from("<I", data, 32 + maker + -maker % 4 + 8 * formats)[0]

    def ask(self, number, detail, data):
        self.socket.sendall(struct.pack("<BBH", number, detail, 1 + len(data) // 4) + data)

    def atom(self, name):
        """The number of a name."""
        self.ask(INTERN_ATOM, 0, struct.pack("<Hxx", len(name)) + padded(name))
        return struct.unpack_from("<I", self.read(32), 8)[0]

    def shows(self, scheme):
        self.serial += 1
        data = settings(self.serial, THEMES[scheme])
        head = struct.pack("<IIIBxxxI", self.window, self.property, self.property, 8, len(data))
        self.ask(CHANGE_PROPERTY, 0, head + padded(data))

    def end(self):
        self.socket.close()
