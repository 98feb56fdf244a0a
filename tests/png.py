"""Screenshots: files in PNG with eight bits a channel, read with Python alone."""
import struct
import zlib


def unfiltered(kind, line, above, step):
    """A line of bytes, each of which was told by what differs from its neighbours."""
    for i in range(len(line)):
        left, up, corner = (line[i - step], above[i], above[i - step]) if i >= step else (0, above[i], 0)
        if kind == 4:
            near = left + up - corner
            told = min((left, up, corner), key=lambda it: abs(near - it))
        else:
            told = (0, left, up, (left + up) // 2)[kind]
        line[i] = (line[i] + told) & 255
    return line


def read(data):
    """The lines of a picture, each a list of colours: red, green, blue."""
    at, packed, head = 8, b"", None
    while at < len(data):
        length, name = struct.unpack(">I4s", data[at:at + 8])
        chunk = data[at + 8:at + 8 + length]
        head = struct.unpack(">IIBB", chunk[:10]) if name == b"IHDR" else head
        packed += chunk if name == b"IDAT" else b""
        at += 12 + length
    width, height, depth, kind = head
    step = {2: 3, 6: 4}[kind]
    assert depth == 8
    rows, size, above, lines = zlib.decompress(packed), width * step + 1, bytearray(width * step), []
    for y in range(height):
        row = bytearray(rows[y * size:(y + 1) * size])
        above = unfiltered(row[0], row[1:], above, step) if row[0] else row[1:]
        lines.append([tuple(above[i:i + 3]) for i in range(0, len(above), step)])
    return lines


def bars(lines, colour):
    """The greatest width of each group of lines, one behind the other, in which a colour is met: from its first to its last pixel."""
    found, before = [], False
    for line in lines:
        at = [x for x, it in enumerate(line) if it == colour]
        if at:
            width = at[-1] - at[0] + 1
            found = [*found[:-1], max(found[-1], width)] if before else [*found, width]
        before = bool(at)
    return found
