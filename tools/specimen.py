#!/usr/bin/env python3
"""Writes the specimen reel that programs are run on in the gate, data/specimen.reel of crates/rothveam, crates/catalogue_json and crates/catalogue_text.

A short evening of one flow under CRC-16, with sync packets that do not cross superframes. It has what a cataloguer meets:
video, audio and captions, a lost frame, a torn frame, a damaged packet, a packet of another service, and an empty superframe.
The cutting here is a second, independent implementation of the writing rules (docs/RULES.md)."""
import pathlib
import sys

FRAME = 122


def crc16(data):
    r = 0xFFFF
    for b in data:
        r ^= b << 8
        for _ in range(8):
            r = (r << 1) ^ 0x1021 if r & 0x8000 else r << 1
            r &= 0xFFFF
    return r


def with_checksum(packet):
    return packet + crc16(packet).to_bytes(2, "big")


def superframe(n, packets):
    """The n frames of a superframe that carries these packets, each with its checksum already behind it."""
    frames, frame = [], bytearray()
    for packet in packets:
        rest = packet
        while rest:
            size = min(FRAME - len(frame) - 1, len(rest), 121)
            body, rest = rest[:size], rest[size:]
            frame.append(size | (0 if rest else 0x80))
            frame += body
            if not rest and len(frame) == FRAME - 1:
                frame.append(0x80)
            if len(frame) == FRAME:
                frames.append(bytes(frame))
                frame = bytearray()
    while len(frames) < n:
        frame.append(0x7F)
        frames.append(bytes(frame) + bytes(FRAME - len(frame)))
        frame = bytearray()
    assert len(frames) == n, "the packets do not fit"
    return frames


def block(frames):
    """The block of a superframe; None stands for a lost frame."""
    n = len(frames)
    bits = sum(1 << i for i, f in enumerate(frames) if f is not None)
    return bytes([n]) + bits.to_bytes((n + 7) // 8, "little") + b"".join(f for f in frames if f is not None)


def sync(kind, payload, frame=None, time=None, access=False, unreferenced=False):
    kinds = {"video": 0, "audio": 1, "data": 2, "adaptation": 3}
    head = kinds[kind] | (4 if frame is not None else 0) | (8 if time is not None else 0) | (16 if access else 0) | (32 if unreferenced else 0)
    return bytes([head]) + (bytes([frame]) if frame is not None else b"") + (time.to_bytes(4, "little") if time is not None else b"") + payload


def picture(seed, size):
    out, x = bytearray(), seed
    for _ in range(size):
        x = (x * 1103515245 + 12345) & 0x7FFFFFFF
        out.append(x >> 16 & 0xFF)
    return bytes(out)


def caption(frame, time, text):
    return sync("data", text.encode("ascii"), frame=frame, time=time)


def reel():
    one = superframe(4, map(with_checksum, [
        sync("video", picture(1, 230), frame=0, time=90000, access=True),
        sync("audio", picture(2, 60), frame=0, access=True),
        caption(0, 90000, "GOOD EVENING. HERE IS THE NEWS."),
    ]))
    two = superframe(4, map(with_checksum, [
        sync("video", picture(3, 150), frame=1, unreferenced=True),
        sync("audio", picture(4, 60), frame=1),
        caption(1, 93000, "THE RIVER HAS FALLEN BY A FOOT SINCE YESTERDAY."),
        sync("video", picture(5, 90), frame=2),
    ]))
    two[1] = None
    three = superframe(3, map(with_checksum, [
        caption(3, 96000, "THE FERRY RUNS AGAIN."),
        sync("video", picture(6, 200), frame=3),
        sync("adaptation", picture(7, 12)),
    ]))
    torn = bytearray(three[1])
    torn[0] = 0x7A
    three[1] = bytes(torn)
    damaged = bytearray(superframe(1, [with_checksum(caption(4, 99000, "TOMORROW: RAIN IN THE WEST."))])[0])
    damaged[9] ^= 0x04
    four = [bytes(damaged)] + superframe(1, [with_checksum(sync("video", picture(8, 70), frame=4))])
    five = superframe(2, map(with_checksum, [
        bytes([0x40]) + b"A PACKET OF SOME OTHER SERVICE",
        caption(5, 102000, "GOOD NIGHT."),
        sync("video", picture(9, 58), frame=5),
    ]))
    six = superframe(1, [])
    return b"".join(map(block, [one, two, three, four, five, six]))


if __name__ == "__main__":
    crates = pathlib.Path(__file__).parent.parent / "crates"
    targets = [pathlib.Path(name) for name in sys.argv[1:]] or [crates / name / "data/specimen.reel" for name in ("rothveam", "catalogue_json", "catalogue_text")]
    for target in targets:
        target.write_bytes(reel())
        print(f"{target}: {len(reel())} bytes")
