"""Pictures in few bytes: a PNG of a page, with the colours that it has most and no others (PNG, third edition, W3C)."""

import collections
import struct
import zlib

SIGNATURE = b"\x89PNG\r\n\x1a\n"
COLOURS = 128


def chunks_in(data):
    """The kind and the bytes of each chunk."""
    place = len(SIGNATURE)
    while place < len(data):
        size, kind = struct.unpack(">I4s", data[place : place + 8])
        yield kind, data[place + 8 : place + 8 + size]
        place += 12 + size


def chunk(kind, body):
    return struct.pack(">I4s", len(body), kind) + body + struct.pack(">I", zlib.crc32(kind + body))


def paeth(left, above, corner):
    """The one of these that is nearest to what they come to."""
    wanted = left + above - corner
    return min((left, above, corner), key=lambda one: abs(wanted - one))


def unfiltered(kind, line, above, step):
    """The bytes of a line, from what its filter left of them."""
    for place, byte in enumerate(line):
        left = line[place - step] if place >= step else 0
        corner = above[place - step] if place >= step else 0
        told = (0, left, above[place], (left + above[place]) // 2, paeth(left, above[place], corner))[kind]
        line[place] = (byte + told) & 255
    return line


def pixels_in(data):
    """The lines of a picture of 8 bits a colour, each a list of red, green and blue."""
    chunks = list(chunks_in(data))
    width, _, _, colours = struct.unpack(">IIBB", chunks[0][1][:10])
    step = {2: 3, 6: 4}[colours]
    raw = zlib.decompress(b"".join(body for kind, body in chunks if kind == b"IDAT"))
    size, above, lines = width * step, bytearray(width * step), []
    for start in range(0, len(raw), size + 1):
        above = unfiltered(raw[start], bytearray(raw[start + 1 : start + 1 + size]), above, step)
        lines.append([bytes(above[place : place + 3]) for place in range(0, size, step)])
    return lines


def in_few_colours(data):
    """The same picture, each pixel in the nearest of its most frequent colours."""
    lines = pixels_in(data)
    counts = collections.Counter(pixel for line in lines for pixel in line)
    colours = [colour for colour, _ in counts.most_common(COLOURS)]

    def nearest(pixel):
        return min(range(len(colours)), key=lambda place: sum((one - other) ** 2 for one, other in zip(colours[place], pixel)))

    places = {pixel: nearest(pixel) for pixel in counts}
    raw = b"".join(b"\0" + bytes(places[pixel] for pixel in line) for line in lines)
    head = struct.pack(">IIBBBBB", len(lines[0]), len(lines), 8, 3, 0, 0, 0)
    parts = [(b"IHDR", head), (b"PLTE", b"".join(colours)), (b"IDAT", zlib.compress(raw, 9)), (b"IEND", b"")]
    return SIGNATURE + b"".join(chunk(*part) for part in parts)
