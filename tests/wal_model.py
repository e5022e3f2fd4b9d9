"""A model of recovery from a write-ahead log: SQLite's file format, section 4.

It says what recovery takes of a log, and whether the log has lost a commit. The tests use it
instead of the program. A frame with the page number 0xFF000000 counts what the frames up to the
commit lack. Its first eight bytes say how many of their bytes are 0. They also say how far their
page numbers and the size of the database are below that number.
"""
import collections
import struct

HEADER, FRAME = 32, 24  # bytes of the log's header, and of a frame's
COUNT = 0xFF000000
OPEN = 0x37  # the first byte of a log in use
Frames = collections.namedtuple("Frames", "size commits end")
Verdict = collections.namedtuple("Verdict", "is_sound is_commit end log")


def summed(data, order, first, second):
    """Returns the checksum of a log over more bytes."""
    words = struct.unpack(f"{'>' if order == 'big' else '<'}{len(data) // 4}I", data)
    for at in range(0, len(words), 2):
        first = (first + words[at] + second) & 0xFFFFFFFF
        second = (second + words[at + 1] + first) & 0xFFFFFFFF
    return first, second


def number(data, at):
    return int.from_bytes(data[at : at + 4], "big")


def order_of(log):
    return "big" if log[3] & 1 else "little"


def is_header(log, size):
    """Returns whether a log begins with a header for pages of this size."""
    known = log[:3] == b"\x37\x7f\x06" and log[3] in (0x82, 0x83) and number(log, 4) == 3007000 and number(log, 8) == size
    return known and summed(log[:24], order_of(log), 0, 0) == (number(log, 24), number(log, 28))


def passes(log, size, at, before):
    """Returns whether the frame at an offset passes SQLite's test after this checksum."""
    frame = log[at : at + FRAME + size]
    if len(frame) < FRAME + size or frame[8:16] != log[16:24] or number(frame, 0) == 0:
        return False
    sums = summed(frame[:8] + frame[FRAME:], order_of(log), *before)
    return sums == (number(frame, 16), number(frame, 20))


def sums_at(log, at):
    return number(log, at), number(log, at + 4)


def frames_of(log):
    """Returns the size of a log's frames, the ends of its commits, and the end of its last sound
    frame."""
    size = number(log, 8)
    sums, commits, end, tally = sums_at(log, 24), [], HEADER, None
    while passes(log, size, end, sums):
        page, commit, content = number(log, end), number(log, end + 4), log[end + FRAME : end + FRAME + size]
        if page == COUNT:
            tally = (0, 1) if tally else (int.from_bytes(content[:8], "big"), content[8:].count(0))
        elif tally:
            tally = (tally[0], tally[1] + content.count(0) + max(COUNT - page, 0))
        if commit and commit < COUNT and tally and tally[0] != tally[1] + COUNT - commit:
            break
        if commit:
            tally = None
        sums, end = sums_at(log, end + 16), end + FRAME + size
        if commit:
            commits.append(end)
    return Frames(FRAME + size, commits, end)


def pages_of(log, file, size, frames):
    """Returns the pages that the commits of a log leave."""
    pages = {n + 1: file[n * size : n * size + size] for n in range(len(file) // size)}
    count = len(file) // size
    for at in range(HEADER, frames.commits[-1] if frames.commits else HEADER, frames.size):
        pages[number(log, at)] = log[at + FRAME : at + frames.size]
        count = number(log, at + 4) or count
    return {n: pages[n] for n in range(1, count + 1)}


def is_cut_off(log, size, taken):
    """Returns whether a transaction begins after the frames that recovery takes, so that the one
    before was complete."""
    is_open = log[taken + 8 : taken + 9] == log[16:17]
    for at in range(taken + FRAME + size, len(log) - FRAME - size + 1, FRAME + size):
        last = at - FRAME - size
        if number(log, last + 4) and passes(log, size, at, sums_at(log, last + 16)) and (is_open or number(log, at) == COUNT):
            return True
    return False


def verdict(file, log):
    """Returns whether a crash can leave a log.

    If not, it returns whether a commit is damaged, where recovery ends, and the log with its header
    mended."""
    if len(log) < HEADER + FRAME:
        return Verdict(True, False, HEADER, log)
    size = int.from_bytes(file[16:18], "big")
    size = 65536 if size == 1 else size
    opened = bytes([OPEN]) + log[1:]
    if log[0] != OPEN and is_header(opened, size):
        frames = frames_of(opened)
        same = pages_of(opened, file, size, frames) == pages_of(b"", file, size, Frames(FRAME + size, [], HEADER))
        return Verdict(same, False, frames.commits[-1] if frames.commits else HEADER, opened)
    if not is_header(log, size):
        mended = mended_header(log, size)
        if mended is None:
            return Verdict(False, False, HEADER, log[:0])
        frames = frames_of(mended)
        return Verdict(False, False, frames.commits[-1] if frames.commits else HEADER, mended)
    frames = frames_of(log)
    taken = frames.commits[-1] if frames.commits else HEADER
    return Verdict(not is_cut_off(log, size, taken), True, taken, log)


def mended_header(log, size):
    """Returns the log with the header from which its own differs in one byte."""
    for at in range(HEADER):
        for byte in range(256):
            other = log[:at] + bytes([byte]) + log[at + 1 :]
            if other[:3] == b"\x37\x7f\x06" and is_header(other, size):
                return other
    return None
