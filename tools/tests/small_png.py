"""Makes a PNG of a browser small: 256 colours in place of all, and the best packing of zlib."""
from __future__ import annotations

import struct
import zlib
from collections import Counter

SIGNATURE = b"\x89PNG\r\n\x1a\n"


def chunks(png: bytes) -> dict[bytes, bytes]:
    """The contents of the chunks by their names; those of one name one behind another."""
    found: dict[bytes, bytes] = {}
    at = len(SIGNATURE)
    while at < len(png):
        length, name = struct.unpack(">I4s", png[at:at + 8])
        found[name] = found.get(name, b"") + png[at + 8:at + 8 + length]
        at += 12 + length
    return found


def paeth(left: int, up: int, corner: int) -> int:
    guess = left + up - corner
    return min((left, up, corner), key=lambda one: abs(guess - one))


def unfiltered(raw: bytes, width: int, height: int, depth: int) -> list[bytearray]:
    """The rows of a picture of `depth` bytes for each pixel."""
    rows, before, length = [], bytearray(width * depth), width * depth
    for y in range(height):
        start = y * (length + 1)
        kind, row = raw[start], bytearray(raw[start + 1:start + 1 + length])
        for i in range(length if kind else 0):
            left = row[i - depth] if i >= depth else 0
            corner = before[i - depth] if i >= depth else 0
            added = (0, left, before[i], (left + before[i]) // 2, 0)[kind]
            row[i] = (row[i] + (paeth(left, before[i], corner) if kind == 4 else added)) & 255
        rows.append(row)
        before = row
    return rows


def chunk(name: bytes, content: bytes) -> bytes:
    return struct.pack(">I", len(content)) + name + content + struct.pack(">I", zlib.crc32(name + content))


def small_png(png: bytes) -> bytes:
    parts = chunks(png)
    width, height, bits, colour_type = struct.unpack(">IIBB", parts[b"IHDR"][:10])
    depth = {2: 3, 6: 4}[colour_type]
    if bits != 8:
        raise ValueError("only pictures of 8 bits")
    rows = unfiltered(zlib.decompress(parts[b"IDAT"]), width, height, depth)
    pixels = [[bytes(row[i:i + 3]) for i in range(0, width * depth, depth)] for row in rows]
    often = Counter(pixel for row in pixels for pixel in row)
    palette = [colour for colour, _ in often.most_common(256)]

    def nearest(colour: bytes) -> int:
        return min(range(len(palette)), key=lambda i: sum((a - b) ** 2 for a, b in zip(palette[i], colour)))

    index = {colour: nearest(colour) for colour in often}
    packed = zlib.compress(b"".join(b"\0" + bytes(index[pixel] for pixel in row) for row in pixels), 9)
    head = struct.pack(">IIBBBBB", width, height, 8, 3, 0, 0, 0)
    return (SIGNATURE + chunk(b"IHDR", head) + chunk(b"PLTE", b"".join(palette)) + chunk(b"IDAT", packed)
            + chunk(b"IEND", b""))
