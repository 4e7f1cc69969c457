"""A second reader of git's index files, written from git's manual, gitformat-index(5) and docs/DIFFERENCES.md, apart from the crate.

`read` answers a list of records, or the text of the refusal that the program prints.
"""
import hashlib
import struct

MODES = (0o100644, 0o100755, 0o120000, 0o160000, 0o040000)


class Outside(Exception):
    """The entry is outside the grammar."""


def need(holds):
    if not holds:
        raise Outside


def number(data, at):
    """A number of as many bytes as it needs, and the place behind it."""
    value = -1
    while True:
        need(at < len(data))
        byte = data[at]
        at += 1
        value = (value + 1) * 128 + byte % 128
        need(value < 1 << 32)
        if byte < 128:
            return value, at


def to_nul(data, at):
    """The bytes before the next NUL, and the place behind it."""
    end = data.find(b"\0", at)
    need(end >= 0)
    return data[at:end], end + 1


def entry(data, start, version, before):
    """A record of an entry, its path, and the place behind it."""
    need(start + 62 <= len(data))
    *stat, mode, uid, gid, size = struct.unpack(">10I", data[start:start + 40])
    name = data[start + 40:start + 60].hex()
    flags, = struct.unpack(">H", data[start + 60:start + 62])
    need(mode in MODES)
    at, skipped, intent = start + 62, False, False
    if flags & 0x4000:
        need(version > 2 and at + 2 <= len(data))
        more, = struct.unpack(">H", data[at:at + 2])
        need(more & ~0x6000 == 0)
        skipped, intent, at = bool(more & 0x4000), bool(more & 0x2000), at + 2
    if version == 4:
        cut, at = number(data, at)
        need(cut <= len(before))
        tail, at = to_nul(data, at)
        path = before[:len(before) - cut] + tail
    else:
        path, at = to_nul(data, at)
        while (at - start) % 8:
            need(data[at:at + 1] == b"\0")
            at += 1
    need(min(len(path), 0xFFF) == flags & 0xFFF)
    stage, assumed = flags >> 12 & 3, bool(flags & 0x8000)
    letter = "M" if stage else "S" if skipped else "H"
    record = (letter.lower() if assumed else letter, "%06o" % mode, name, stage, path, tuple(stat), (uid, gid, size),
              intent, skipped)
    return record, path, at


def extensions(data, at):
    """Whether one marks a sparse index; or the refusal."""
    sparse = False
    while at < len(data):
        if at + 8 > len(data):
            return "Extensions"
        name, size = data[at:at + 4], struct.unpack(">I", data[at + 4:at + 8])[0]
        if name == b"link":
            return "Split"
        if name != b"sdir" and not b"A" <= name[:1] <= b"Z":
            return "Unknown { name: [%s] }" % ", ".join(map(str, name))
        if at + 8 + size > len(data):
            return "Extensions"
        sparse |= name == b"sdir"
        at += 8 + size
    return sparse


def order(records):
    """Why the entries are no index, or nothing."""
    before = None
    for at, (_, mode, _, stage, path, *_) in enumerate(records):
        bare = path[:-1] if path.endswith(b"/") else path
        if not all(bare.split(b"/")):
            return "Path { at: %d }" % at
        if path.endswith(b"/") != (mode == "040000"):
            return "ModePath { at: %d }" % at
        if before is not None:
            if before >= (path, stage):
                return "NotAscending { at: %d }" % at
            if before[0] == path and 0 in (before[1], stage):
                return "Stage { at: %d }" % at
        before = path, stage
    return None


def read(data):
    """The records of an index file and whether it is sparse; or what the program prints where it refuses."""
    if len(data) < 32:
        return "refused: Short"
    body, tail = data[:-20], data[-20:]
    if body[:4] != b"DIRC":
        return "refused: Signature"
    version, count = struct.unpack(">II", body[4:12])
    if not 2 <= version <= 4:
        return "refused: Version { version: %d }" % version
    if tail != bytes(20) and tail != hashlib.sha1(body).digest():
        return "refused: Sum"
    records, path, at = [], b"", 12
    while len(records) < count:
        try:
            record, path, at = entry(body, at, version, path)
        except Outside:
            return "refused: Entry { at: %d }" % len(records)
        records.append(record)
    sparse = extensions(body, at)
    if isinstance(sparse, str):
        return "refused: " + sparse
    for at, record in enumerate(records):
        if record[1] == "040000" and not sparse:
            return "refused: Directory { at: %d }" % at
    wrong = order(records)
    return "no index: " + wrong if wrong else (records, sparse)
