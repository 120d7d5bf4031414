#!/usr/bin/env python3
"""What a script has to print, worked out from docs/RULES.md and docs/FORMATS.md alone.

    python3 tools/script_model.py < SCRIPT > EXPECTED

This is a model for comparison, not the program: it was written from the documents, shares no line with the program, and goes its
own ways (bytes are cut by a list of bodies, a frame is judged recursively, the checksum is computed bit by bit). Lines that begin
with `error:` are compared by that beginning only, since their wording is free: compare with

    python3 tools/script_model.py --compare PRINTED < SCRIPT
"""
import sys

PACKET_MAX = 2044
RING_MAX = 1 << 30


class Refused(Exception):
    """A line that is answered by `error: ..`."""


# ---- words -------------------------------------------------------------------------------------------------------------------

def number(word):
    if word is None or not word or any(c not in b"0123456789" for c in word):
        raise Refused
    return int(word)


def data(word):
    if word is None:
        raise Refused
    if word == b"-":
        return b""
    if len(word) % 2 or any(c not in b"0123456789abcdefABCDEF" for c in word):
        raise Refused
    return bytes.fromhex(word.decode())


def hexed(some):
    return some.hex() or "-"


def one_of(word, table):
    if word not in table:
        raise Refused
    return table[word]


YES = {b"yes": True, b"no": False}
ON = {b"on": True, b"off": False}
KINDS = {b"video": 0, b"audio": 1, b"data": 2, b"adaptation": 3}
KIND_NAMES = ["video", "audio", "data", "adaptation"]


# ---- checksums ---------------------------------------------------------------------------------------------------------------

def crc16(message):
    register = 0xFFFF
    for byte in message:
        for bit in range(7, -1, -1):
            top = register >> 15 & 1
            register = register << 1 & 0xFFFF
            if top ^ (byte >> bit & 1):
                register ^= 1 << 12 | 1 << 5 | 1
    return register.to_bytes(2, "big")


CHECKSUMS = {b"none": (0, lambda m: b""), b"crc16": (2, crc16)}


# ---- sync headers ------------------------------------------------------------------------------------------------------------

def map_question(kind, has_frame, access, unreferenced):
    if has_frame != (kind <= 2):
        return 32
    if access and kind > 1 or unreferenced and kind > 0:
        return 33
    return None


def read_header(packet):
    """(number, None) or (None, facts)."""
    if not packet:
        return 30, None
    bits = packet[0]
    if bits & 0xC0:
        return 31, None
    kind, has_frame, has_time = bits & 3, bool(bits & 4), bool(bits & 8)
    access, unreferenced = bool(bits & 16), bool(bits & 32)
    fault = map_question(kind, has_frame, access, unreferenced)
    if fault:
        return fault, None
    start = 1 + has_frame + 4 * has_time
    if len(packet) < start + 1:
        return 34, None
    frame = packet[1] if has_frame else None
    time = int.from_bytes(packet[start - 4:start], "little") if has_time else None
    if kind == 0 and frame > 59:
        return 35, None
    return None, (kind, frame, time, access, unreferenced, packet[start:])


def write_header(kind, frame, time, access, unreferenced, payload, room):
    fault = map_question(kind, frame is not None, access, unreferenced)
    if fault:
        return fault, None
    if not payload:
        return 34, None
    if kind == 0 and frame > 59:
        return 35, None
    out = bytearray([kind | (frame is not None) << 2 | (time is not None) << 3 | access << 4 | unreferenced << 5])
    if frame is not None:
        out.append(frame)
    if time is not None:
        out += time.to_bytes(4, "little")
    out += payload
    if room < len(out):
        return 36, None
    return None, bytes(out)


def plain(packet):
    return None


def sync(packet):
    return read_header(packet)[0]


SERVICES = {b"plain": plain, b"sync": sync}


# ---- frames ------------------------------------------------------------------------------------------------------------------

def judge(frame, at, open_bytes, width):
    """The fragments of a frame from the place `at` (from 1) on, or (number, place) where it is torn. `open_bytes` is None or
    how many bytes of a packet the reader has."""
    if at > 122:
        return []
    header = frame[at - 1]
    count, last = header & 0x7F, bool(header & 0x80)
    if 121 < count < 127:
        return 11, at
    if count == 127:
        if last:
            return 12, at
        if at == 122:
            return 13, at
        if any(frame[at:]):
            return 14, at
        if at == 1 and open_bytes is not None:
            return 15, at
        return [("padding", at)]
    if count == 0:
        if not last or at != 122:
            return 16, at
        return [("notional", at)]
    end = at + count
    if end > 122:
        return 17, at
    if not last and end != 122:
        return 18, at
    if at == 1 and open_bytes is not None and open_bytes + count > PACKET_MAX + width:
        return 19, at
    rest = judge(frame, end + 1, open_bytes, width)
    if isinstance(rest, tuple):
        return rest
    return [("body", at, frame[at:end], last)] + rest


# ---- channels ----------------------------------------------------------------------------------------------------------------

MARK, GAP = "mark", "gap"


class Ring:
    def __init__(self, memory):
        self.capacity, self.slots = memory // 123, []

    def room(self):
        return self.capacity - len(self.slots)

    def put(self, slot):
        assert self.room() > 0
        self.slots.append(slot)

    def take(self):
        return self.slots.pop(0) if self.slots else None


def blocks(reel):
    """The slots of the lawful blocks, and the first fault as (number, place) or None."""
    slots, at = [], 0
    while at < len(reel):
        n = reel[at]
        if not 1 <= n <= 200:
            return slots, (21, at + 1)
        width = -(-n // 8)
        bitmap = reel[at + 1:at + 1 + width]
        if len(bitmap) < width or int.from_bytes(bitmap, "little") >> n:
            return slots, (22, at + 1)
        bits = [bitmap[k // 8] >> k % 8 & 1 for k in range(n)]
        start = at + 1 + width
        end = start + 122 * sum(bits)
        if end > len(reel):
            return slots, (23, at + 1)
        for bit in bits:
            if bit:
                slots.append(reel[start:start + 122])
                start += 122
            else:
                slots.append(GAP)
        slots.append(MARK)
        at = end
    return slots, None


class Reel:
    def __init__(self, reel):
        self.slots = blocks(reel)[0]

    def room(self):
        return 0

    def take(self):
        return self.slots.pop(0) if self.slots else None


class Fade:
    def __init__(self, below, pattern):
        self.below, self.pattern, self.taken = below, pattern, 0

    def room(self):
        return self.below.room()

    def put(self, slot):
        self.below.put(slot)

    def waits(self):
        return bool(self.below.slots)

    def take(self):
        slot = self.below.take()
        if slot is None or slot == MARK:
            return slot
        bit = self.taken % (8 * len(self.pattern))
        self.taken += 1
        return slot if self.pattern[bit // 8] >> bit % 8 & 1 else GAP


# ---- a flow ------------------------------------------------------------------------------------------------------------------

class Flow:
    def __init__(self, ident, fasb, checksum, service, channel):
        self.id, self.fasb, self.channel = ident, fasb, channel
        (self.width, self.value), self.service = checksum, service
        # writing
        self.frames = None       # frames of the open superframe still to be put, or None
        self.frame = bytearray()
        self.held = b""          # carried over, with its last mark to come
        # reading
        self.state, self.gathered = "aligned", b""
        self.number = 0
        self.todo = []           # fragments of the frame in hand

    # -- writing
    def open(self, n):
        if self.frames is not None:
            return 1
        if not 1 <= n <= 200:
            return 2
        if self.channel.room() < n + 1:
            return 3
        self.frames, self.frame = n, bytearray()
        held, self.held = self.held, b""
        if held:
            self.held = self.cut(held)
        return None

    def put(self):
        self.channel.put(bytes(self.frame))
        self.frame, self.frames = bytearray(), self.frames - 1

    def cut(self, left):
        """Cuts what fits, and gives what does not."""
        while left and self.frames:
            space = 122 - len(self.frame) - 1
            body = left[:min(space, 121)]
            left = left[len(body):]
            self.frame.append(len(body) | (0 if left else 0x80))
            self.frame += body
            if len(self.frame) == 121:
                self.frame.append(0x80)
            if len(self.frame) == 122:
                self.put()
        return left

    def space(self):
        """Body bytes left for one packet."""
        if not self.frames:
            return 0
        return (122 - len(self.frame) - 1) + 121 * (self.frames - 1)

    def offer(self, packet):
        if not 1 <= len(packet) <= PACKET_MAX:
            return (5,)
        fault = self.service(packet)
        if fault:
            return 6, fault
        whole = packet + self.value(packet)
        if (self.space() < 1) if self.fasb else (self.space() < len(whole)):
            return (7,)
        self.held = self.cut(whole)
        assert self.fasb or not self.held
        return None

    def close(self):
        while self.frames:
            if self.frame:
                self.frame += b"\x7f" + bytes(121 - len(self.frame))
            else:
                self.frame += b"\x7f" + bytes(121)
            self.put()
        self.channel.put(MARK)
        self.frames = None

    # -- reading
    def drop(self):
        dropped = len(self.gathered)
        self.gathered = b""
        return dropped

    def fragment(self, fragment):
        """What a fragment answers, or None."""
        if fragment[0] == "notional":
            return None
        if fragment[0] == "padding":
            if self.state == "seeking":
                self.state = "aligned"
            return None
        _, _, body, last = fragment
        if self.state == "seeking":
            if last:
                self.state = "aligned"
            return None
        self.gathered += body
        self.state = "aligned" if last else "gathering"
        if not last:
            return None
        whole, self.gathered = self.gathered, b""
        if len(whole) <= self.width:
            return "short"
        packet, check = whole[:len(whole) - self.width], whole[len(whole) - self.width:]
        if self.value(packet) != check:
            return f"damaged {len(packet)} {hexed(packet)}"
        fault = self.service(packet)
        if fault:
            return f"foreign {fault} {len(packet)} {hexed(packet)}"
        return f"sound {len(packet)} {hexed(packet)}"

    def read(self):
        while True:
            while self.todo:
                answer = self.fragment(self.todo.pop(0))
                if answer:
                    return answer
            slot = self.channel.take()
            if slot is None:
                return "nothing"
            if slot == MARK:
                self.number = 0
                if self.fasb:
                    return "mark 0"
                dropped = self.drop()
                self.state = "aligned"
                return f"mark {dropped}"
            self.number = min(self.number + 1, 65535)
            if slot == GAP:
                dropped = self.drop()
                self.state = "seeking"
                return f"lost {self.number} {dropped}"
            found = judge(slot, 1, len(self.gathered) if self.state == "gathering" else None, self.width)
            if isinstance(found, tuple):
                dropped = self.drop()
                self.state = "seeking"
                return f"torn {self.number} {dropped} {found[0]} {found[1]}"
            self.todo = found


# ---- the script --------------------------------------------------------------------------------------------------------------

class Model:
    def __init__(self):
        self.pattern, self.flow, self.said = b"\xff", None, []

    def say(self, line):
        self.said.append(line)

    def line(self, line):
        words = [w for w in line.split(b" ") if w]
        if not words or words[0].startswith(b"#"):
            return
        mark = len(self.said)
        try:
            self.command(words)
        except Refused:
            del self.said[mark:]
            self.say("error:")

    def refused(self, numbers):
        self.say("refused " + " ".join(map(str, numbers)))

    def command(self, words):
        name, rest = words[0], words[1:]
        counts = {b"checksum": [2], b"header": [1], b"write-header": [13], b"fragments": [1], b"reel": [1], b"fade": [1],
                  b"flow": [9], b"open": [1], b"offer": [1], b"close": [0], b"read": [0, 1], b"drain": [0], b"room": [0],
                  b"waits": [0]}
        if len(rest) not in counts.get(name, []):
            raise Refused
        getattr(self, "do_" + name.decode().replace("-", "_"))(*rest)

    def do_checksum(self, kind, some):
        value = one_of(kind, CHECKSUMS)[1]
        self.say("checksum " + hexed(value(data(some))))

    def do_header(self, some):
        fault, facts = read_header(data(some))
        if fault:
            return self.refused([fault])
        kind, frame, time, access, unreferenced, payload = facts
        dash = lambda n: "-" if n is None else str(n)
        yes = lambda b: "yes" if b else "no"
        self.say(f"header {KIND_NAMES[kind]} frame {dash(frame)} time {dash(time)} access {yes(access)} "
                 f"unreferenced {yes(unreferenced)} payload {hexed(payload)}")

    def do_write_header(self, kind, w1, frame, w2, time, w3, access, w4, unreferenced, w5, payload, w6, place):
        if [w1, w2, w3, w4, w5, w6] != [b"frame", b"time", b"access", b"unreferenced", b"payload", b"place"]:
            raise Refused
        kind = one_of(kind, KINDS)
        frame = None if frame == b"-" else number(frame)
        time = None if time == b"-" else number(time)
        if (frame or 0) > 255 or (time or 0) >= 1 << 32:
            raise Refused
        fault, out = write_header(kind, frame, time, one_of(access, YES), one_of(unreferenced, YES), data(payload), number(place))
        if fault:
            return self.refused([fault])
        self.say(f"wrote {len(out)} {hexed(out)}")

    def do_fragments(self, some):
        frame = data(some)
        if len(frame) != 122:
            return self.refused([10])
        found = judge(frame, 1, None, 0)
        if isinstance(found, tuple):
            return self.say(f"torn {found[0]} {found[1]}")
        for fragment in found:
            if fragment[0] == "body":
                _, at, body, last = fragment
                self.say(f"body {at} {len(body)} {'last' if last else 'more'} {hexed(body)}")
            else:
                self.say(f"{fragment[0]} {fragment[1]}")
        self.say("nothing")

    def do_reel(self, some):
        fault = blocks(data(some))[1]
        if fault:
            return self.refused(fault)
        self.say("lawful")

    def do_fade(self, some):
        pattern = data(some)
        if not 1 <= len(pattern) <= 64:
            return self.refused([20])
        self.pattern = pattern
        self.say(f"fade {len(pattern)}")

    def do_flow(self, ident, w1, fasb, w2, checksum, w3, service, source, what):
        if [w1, w2, w3] != [b"fasb", b"checksum", b"service"]:
            raise Refused
        ident = number(ident)
        if ident > 65535:
            raise Refused
        fasb, checksum, service = one_of(fasb, ON), one_of(checksum, CHECKSUMS), one_of(service, SERVICES)
        if source == b"ring":
            memory = number(what)
            if memory > RING_MAX:
                raise Refused
            below = Ring(memory)
        elif source == b"reel":
            below = Reel(data(what))
        else:
            raise Refused
        channel = Fade(below, self.pattern)
        self.flow = Flow(ident, fasb, checksum, service, channel)
        self.say(f"flow {ident} room {channel.room()}")

    def needs_flow(self):
        if self.flow is None:
            raise Refused
        return self.flow

    def needs_token(self):
        if self.needs_flow().frames is None:
            raise Refused
        return self.flow

    def do_open(self, n):
        n = number(n)
        fault = self.needs_flow().open(n)
        self.say("opened") if fault is None else self.refused([fault])

    def do_offer(self, some):
        packet = data(some)
        fault = self.needs_token().offer(packet)
        self.say("accepted") if fault is None else self.refused(fault)

    def do_close(self):
        self.needs_token().close()
        self.say("closed")

    def do_read(self, length=b"2044"):
        length = number(length)
        flow = self.needs_flow()
        if length < PACKET_MAX:
            return self.refused([8])
        self.say(flow.read())

    def do_drain(self):
        flow = self.needs_flow()
        while True:
            self.say(flow.read())
            if self.said[-1] == "nothing":
                return

    def do_room(self):
        self.say(f"room {self.needs_flow().channel.room()}")

    def do_waits(self):
        self.say("waits " + ("yes" if self.needs_flow().channel.waits() else "no"))


def played(script):
    model = Model()
    lines = script.split(b"\n")
    for line in lines:
        model.line(line[:-1] if line.endswith(b"\r") else line)
    return model.said


def main():
    script = sys.stdin.buffer.read()
    expected = played(script)
    if len(sys.argv) < 3:
        print("".join(line + "\n" for line in expected), end="")
        return 0
    printed = open(sys.argv[2], encoding="utf-8").read().split("\n")
    if printed[-1:] != [""]:
        print("the last line has no end")
        return 1
    printed = printed[:-1]
    for k in range(max(len(expected), len(printed))):
        want = expected[k] if k < len(expected) else "(no line)"
        got = printed[k] if k < len(printed) else "(no line)"
        if not (got.startswith("error: ") if want == "error:" else got == want):
            print(f"line {k + 1}: expected {want[:200]}\n         printed {got[:200]}")
            return 1
    print(f"{len(expected)} lines agree")
    return 0


if __name__ == "__main__":
    sys.exit(main())
