"""What a run reads, writes and reports, told a second time by docs/FORMATS.md alone: plain lists, whole texts, nothing shared with the
product. `tests/hostile/check` compares the built program with it."""

from collections import namedtuple

Stream = namedtuple("Stream", "kind config")
Packet = namedtuple("Packet", "stream kind dts pts key form payload config version")
REASONS = ("script", "unsupported", "nostream", "corrupt", "command", "seqend", "repeat")


# --- the input ---------------------------------------------------------------------------------------------------------------

def read(text):
    """The tags of a text, as kind byte, stamp and body, and its verdict."""
    if len(text) < 9 or text[:4] != b"FLV\1":
        return [], "not-flv"
    at = int.from_bytes(text[5:9], "big")
    if at < 9:
        return [], "bad-offset"
    if at > len(text):
        return [], "cut"
    tags = []
    while at < len(text):
        at += 4
        if at == len(text):
            break
        size = int.from_bytes(text[at + 1:at + 4], "big")
        if at + 11 + size > len(text):
            return tags, "cut"
        stamp = int.from_bytes(text[at + 7:at + 8] + text[at + 4:at + 7], "big", signed=True)
        tags.append((text[at], stamp, text[at + 11:at + 11 + size]))
        at += 11 + size
    return tags, "whole"


def meaning(kind, body):
    """What a tag is: (word, further parts)."""
    if kind & 0x20 or kind & 31 not in (8, 9, 18):
        return ("unsupported",)
    kind &= 31
    if kind == 18:
        return ("script",)
    if not body:
        return ("corrupt",)
    if kind == 8:
        if body[0] >> 4 != 10:
            return ("unsupported",)
        if len(body) == 1:
            return ("corrupt",)
        if body[1] == 0:
            return ("config", "a", body[2:])
        if body[1] != 1:
            return ("unsupported",)
        return ("media", "a", body[2:], True, 0) if 3 <= len(body) <= 8186 else ("corrupt",)
    if body[0] >> 4 == 5:
        return ("command",)
    if body[0] >> 4 not in (1, 2) or body[0] & 15 != 7:
        return ("unsupported",)
    if len(body) < 5:
        return ("corrupt",)
    if body[1] == 0:
        return ("config", "v", body[5:])
    if body[1] == 2:
        return ("seqend",)
    if body[1] != 1:
        return ("unsupported",)
    return ("media", "v", body[5:], body[0] >> 4 == 1, int.from_bytes(body[2:5], "big", signed=True))


def sets(raw):
    """The parameter sets of an AVC configuration, or None where it can't be read."""
    if len(raw) < 6 or raw[0] != 1:
        return None
    found, at, left, last = [], 6, raw[5] & 31, False
    while True:
        for _ in range(left):
            if at + 2 > len(raw):
                return None
            end = at + 2 + int.from_bytes(raw[at:at + 2], "big")
            if end > len(raw):
                return None
            found.append(raw[at + 2:end])
            at = end
        if last:
            return [one for one in found if one]
        if at >= len(raw):
            return None
        left, at, last = raw[at], at + 1, True


def aac(raw):
    """Object type, index and channels of an AAC configuration, or the reason why it can't be read."""
    if len(raw) < 2:
        return "corrupt"
    bits = int.from_bytes(raw[:4].ljust(4, b"\0"), "big")
    kind, index, channels = bits >> 27, bits >> 23 & 15, bits >> 19 & 15
    if kind not in (1, 2, 3, 4, 5, 29) or index > 12 or not 1 <= channels <= 7:
        return "unsupported"
    if kind in (5, 29):
        if len(raw) < 3:
            return "corrupt"
        kind = bits >> 10 & 31
        if bits >> 15 & 15 == 15 or not 1 <= kind <= 4:
            return "unsupported"
    return kind, index, channels


def unread(kind, raw):
    """Why a configuration can't be read, or None."""
    if kind == "v":
        return "corrupt" if sets(raw) is None else None
    found = aac(raw)
    return found if isinstance(found, str) else None


def streams_of(tags):
    """The streams that the probe finds, and its script."""
    found, script, bodies = {}, None, 0
    for count, (kind, _, body) in enumerate(tags, 1):
        what = meaning(kind, body)
        bodies += len(body)
        if what[0] == "script" and script is None:
            script = body
        if what[0] == "config" and not unread(*what[1:]):
            found.setdefault(what[1], what[2])
        if len(found) == 2 or count == 64 or bodies >= 8388608:
            break
    return [Stream(kind, found[kind]) for kind in "va" if kind in found], script


def units(payload, size):
    """The units of a native payload that aren't empty, or None where it isn't valid."""
    found, at = [], 0
    while at < len(payload):
        end = at + size + int.from_bytes(payload[at:at + size], "big")
        if at + size > len(payload) or end > len(payload):
            return None
        found.append(payload[at + size:end])
        at = end
    return [unit for unit in found if unit] or None


def packets_of(tags, streams):
    """For each tag its packet, the reason why it has none, or None for a configuration that comes into force."""
    number = {stream.kind: at for at, stream in enumerate(streams)}
    force, top, out = {}, {}, []
    for kind, stamp, body in tags:
        what = meaning(kind, body)
        if what[0] not in ("config", "media"):
            out.append(what[0])
        elif what[0] == "config":
            _, which, raw = what
            bad = unread(which, raw)
            if bad or which not in number or force.get(which, (0, None))[1] == raw:
                out.append(bad or ("repeat" if which in number else "nostream"))
            else:
                force[which] = (force[which][0] + 1 if which in force else 0, raw)
                out.append(None)
        else:
            _, which, payload, key, composition = what
            if which not in force:
                out.append("nostream")
            elif which == "v" and units(payload, (force["v"][1][4] & 3) + 1) is None:
                out.append("corrupt")
            else:
                top[which] = dts = max(stamp, top.get(which, stamp))
                version, raw = force[which]
                out.append(Packet(number[which], which, dts, max(dts + composition, dts), key, "native", payload, raw, version))
    return out


def interleave(outcomes, count, delta):
    """The packets in their order, each with the number of tags after which it may go, or None where it goes at the end."""
    pending, out = [], []
    for at, packet in enumerate(outcomes):
        if not isinstance(packet, Packet):
            continue
        pending.append((packet.dts, packet.stream, at, packet))
        pending.sort(key=lambda one: one[:3])
        while pending and (len({one[1] for one in pending}) == count or delta and (pending[-1][0] - pending[0][0]) * 1000 > delta):
            out.append((pending.pop(0)[3], at + 1))
    return out + [(one[3], None) for one in pending]


# --- filters -----------------------------------------------------------------------------------------------------------------

def adts(raw, data):
    kind, index, channels = aac(raw)
    size = 7 + len(data)
    head = 0xFFF << 44 | 1 << 40 | kind - 1 << 38 | index << 34 | channels << 30 | size << 13 | 0x7FF << 2
    return head.to_bytes(7, "big") + data


def annexb(listed):
    return b"".join(b"\0\0\0\1" + unit for unit in listed)


def idr_sets(listed, raw):
    """With the parameter sets before the first IDR unit, where there is one and no sequence parameter set."""
    kinds = [unit[0] & 31 for unit in listed]
    if 5 not in kinds or 7 in kinds:
        return listed
    at = kinds.index(5)
    return listed[:at] + sets(raw) + listed[at:]


def apply(chain, packet):
    """What a chain, a list of (name, argument), makes of a native packet; None where no unit is left."""
    if packet.kind == "a":
        if any(name == "aac_adts" for name, _ in chain):
            return packet._replace(form="adts", payload=adts(packet.config, packet.payload))
        return packet
    size = (packet.config[4] & 3) + 1
    listed, form, acted = units(packet.payload, size), "native", False
    for name, argument in chain:
        if name == "h264_mp4toannexb" and form == "native":
            listed, form, acted = idr_sets(listed, packet.config), "annexb", True
        elif name == "filter_units":
            acted = True
            listed = [unit for unit in listed if unit[0] & 31 in argument]
            if not listed:
                return None
        elif name == "dump_extra":
            front = sets(packet.config)
            if (packet.key or argument == "all") and listed[:len(front)] != front:
                listed = front + listed
            form, acted = "annexb", True
    if not acted:
        return packet
    text = annexb(listed) if form == "annexb" else b"".join(len(unit).to_bytes(size, "big") + unit for unit in listed)
    return packet._replace(form=form, payload=text)


# --- files: each muxer makes calls on a shelf ----------------------------------------------------------------------------------

def head(kind, size, stamp):
    stamp &= 0xFFFFFFFF
    return bytes([kind]) + size.to_bytes(3, "big") + (stamp & 0xFFFFFF).to_bytes(3, "big") + bytes([stamp >> 24, 0, 0, 0])


class Adts:
    def __init__(self, streams, script):
        pass

    def begin(self, name, shelf):
        shelf.create(name)

    def put(self, packet, shelf):
        if packet.form == "adts":
            shelf.write(packet.payload)
        else:
            whole = adts(packet.config, packet.payload)
            shelf.write(whole[:7])
            shelf.write(whole[7:])

    def end(self, shelf):
        shelf.close()


class Flv:
    def __init__(self, streams, script):
        self.streams, self.script = streams, script

    def tag(self, shelf, kind, stamp, front, content):
        size = len(front) + len(content)
        shelf.write(head(kind, size, stamp) + front)
        shelf.write(content)
        shelf.write((11 + size).to_bytes(4, "big"))

    def config(self, shelf, kind, stamp, raw):
        self.tag(shelf, *((9, stamp, b"\x17\0\0\0\0", raw) if kind == "v" else (8, stamp, b"\xaf\0", raw)))

    def begin(self, name, shelf):
        kinds = [stream.kind for _, stream in self.streams]
        self.version, self.last = {}, 0
        shelf.create(name)
        shelf.write(b"FLV\1" + bytes([4 * ("a" in kinds) + ("v" in kinds)]) + b"\0\0\0\x09\0\0\0\0")
        if self.script is not None:
            self.tag(shelf, 18, 0, b"", self.script)
        for _, stream in self.streams:
            self.config(shelf, stream.kind, 0, stream.config)

    def put(self, packet, shelf):
        if packet.version != self.version.get(packet.kind, 0):
            self.config(shelf, packet.kind, packet.dts, packet.config)
        self.version[packet.kind] = packet.version
        if packet.kind == "v":
            self.last = packet.dts
            front = bytes([0x17 if packet.key else 0x27, 1]) + (packet.pts - packet.dts).to_bytes(3, "big")
            self.tag(shelf, 9, packet.dts, front, packet.payload)
        else:
            self.tag(shelf, 8, packet.dts, b"\xaf\1", packet.payload)

    def end(self, shelf):
        if any(stream.kind == "v" for _, stream in self.streams):
            shelf.write(head(9, 5, self.last) + b"\x17\2\0\0\0" + (16).to_bytes(4, "big"))
        shelf.close()


def crc(data):
    value = 0xFFFFFFFF
    for byte in data:
        for bit in range(7, -1, -1):
            out = value >> 31 ^ byte >> bit & 1
            value = (value << 1 & 0xFFFFFFFF) ^ (0x04C11DB7 if out else 0)
    return value.to_bytes(4, "big")


def clock_field(prefix, ms):
    ticks = (90 * ms + 126000) % 2**33
    return (prefix << 36 | ticks >> 30 << 33 | 1 << 32 | (ticks >> 15 & 0x7FFF) << 17 | 1 << 16 | (ticks & 0x7FFF) << 1 | 1).to_bytes(5, "big")


class Ts:
    def __init__(self, streams, script):
        self.pids = {number: 0x100 + at for at, (number, _) in enumerate(streams)}
        self.video = any(stream.kind == "v" for _, stream in streams)
        pat = bytes.fromhex("00b00d0001c100000001f000")
        pmt = bytes([2, 0xB0, 13 + 5 * len(streams)]) + bytes.fromhex("0001c10000") + bytes([0xE1, 0, 0xF0, 0])
        for at, (_, stream) in enumerate(streams):
            pmt += bytes([0x1B if stream.kind == "v" else 0x0F, 0xE1, at, 0xF0, 0])
        self.sections = ((0, pat + crc(pat)), (0x1000, pmt + crc(pmt)))

    def cell(self, shelf, pid, start, field, payload):
        """One cell; a field is None, or its bytes after its length."""
        counter = self.counters.get(pid, 0)
        self.counters[pid] = (counter + 1) % 16
        shelf.write(bytes([0x47, start << 6 | pid >> 8, pid & 255, (0x10 if field is None else 0x30) | counter])
                    + (b"" if field is None else bytes([len(field)]) + field) + payload)

    def tables(self, shelf):
        for pid, section in self.sections:
            self.cell(shelf, pid, 1, None, (b"\0" + section).ljust(184, b"\xff"))

    def begin(self, name, shelf):
        self.counters, self.since, self.version = {}, None, {}
        shelf.create(name)
        self.tables(shelf)

    def pes(self, packet):
        if packet.kind == "a":
            data = packet.payload if packet.form == "adts" else adts(packet.config, packet.payload)
            size = (8 + len(data)).to_bytes(2, "big")
        else:
            data, size = packet.payload, b"\0\0"
            if packet.form == "native":
                data = annexb(idr_sets(units(data, (packet.config[4] & 3) + 1), packet.config))
            if data[4] & 31 != 9:
                data = b"\0\0\0\1\x09\xf0" + data
        times = b"\x80\x05" + clock_field(2, packet.pts)
        if packet.pts != packet.dts:
            times = b"\xc0\x0a" + clock_field(3, packet.pts) + clock_field(1, packet.dts)
        return b"\0\0\1" + (b"\xe0" if packet.kind == "v" else b"\xc0") + size + b"\x80" + times + data

    def put(self, packet, shelf):
        if self.since is None:
            self.since = packet.dts
        elif (packet.kind == "v" and packet.key or packet.dts - self.since >= 100
              or packet.version != self.version.get(packet.kind, 0)):
            self.tables(shelf)
            self.since = packet.dts
        self.version[packet.kind] = packet.version
        pid, rest, field = self.pids[packet.stream], self.pes(packet), None
        if pid == 0x100:
            base = (90 * packet.dts + 63000) % 2**33
            field = bytes([0x50 if packet.key or not self.video else 0x10]) + (base << 15 | 0x3F << 9).to_bytes(6, "big")
        start = 1
        while rest:
            room = 184 if field is None else 176
            missing = room - len(rest[:room])
            if missing:
                field = field + b"\xff" * missing if field is not None else (b"\0" + b"\xff" * (missing - 2) if missing > 1 else b"")
            self.cell(shelf, pid, start, field, rest[:room])
            rest, field, start = rest[room:], None, 0

    def end(self, shelf):
        shelf.close()


MUXERS = {"adts": Adts, "flv": Flv, "mpegts": Ts}


def seconds(ms):
    return f"{'-' if ms < 0 else ''}{abs(ms) // 1000}.{abs(ms) % 1000:03d}000"


class Segments:
    def __init__(self, options, streams, script):
        self.options = options
        self.inner = MUXERS[options["format"]](streams, script)
        self.number = options["start"]
        video = [number for number, stream in streams if stream.kind == "v"]
        self.reference, self.video = (video or [streams[0][0]])[0], bool(video)

    def name(self, number):
        before, width, behind = self.options["template"]
        return f"{before}{number:0{width}d}{behind}"

    def open(self, shelf):
        number, self.number = self.number, self.number + 1
        self.inner.begin(self.name(number), shelf)
        return number

    def begin(self, name, shelf):
        self.first, self.most, self.entries, self.low = None, 0, [], None
        self.entries.append([self.open(shelf), 0])

    def put(self, packet, shelf):
        at = 0
        if self.first is None:
            self.first = packet.pts
        else:
            at = packet.pts - self.first
            free = self.options["any"] or packet.kind == "v" and packet.key or not self.video
            if packet.stream == self.reference and free and at * 1000 >= self.options["time"] * len(self.entries):
                self.inner.end(shelf)
                self.low = None
                self.entries.append([self.open(shelf), at])
        self.most = max(self.most, at)
        if self.low is None:
            self.low = packet.dts
        low = self.low if self.options["reset"] else 0
        self.inner.put(packet._replace(dts=packet.dts - low, pts=packet.pts - low), shelf)

    def end(self, shelf):
        self.inner.end(shelf)
        if self.options["list"]:
            shelf.create(self.options["list"])
            for line in self.lines():
                shelf.write(line.encode() + b"\n")
            shelf.close()

    def lines(self):
        ends = [start for _, start in self.entries[1:]] + [self.most]
        rows = [(self.name(number), start, end) for (number, start), end in zip(self.entries, ends)]
        kind = self.options["kind"]
        if kind == "flat":
            return [name for name, _, _ in rows]
        if kind == "csv":
            quoted = [['"' + name.replace('"', '""') + '"' if set(name) & set(',"\r\n') else name, *times] for name, *times in rows]
            return [f"{name},{seconds(start)},{seconds(end)}" for name, start, end in quoted]
        lasts = [max(0, end - start) for _, start, end in rows]
        top = ["#EXTM3U", "#EXT-X-VERSION:3", f"#EXT-X-MEDIA-SEQUENCE:{self.entries[0][0]}",
               f"#EXT-X-TARGETDURATION:{max(1, -(-max(lasts) // 1000))}"]
        return top + [line for (name, _, _), long in zip(rows, lasts) for line in (f"#EXTINF:{seconds(long)},", name)] + ["#EXT-X-ENDLIST"]


# --- one output and its fates ----------------------------------------------------------------------------------------------------

class Refused(Exception):
    """A call of the shelf that failed."""


class Shelf:
    """Files that the system lets grow to `limit` bytes each. Pieces are gathered, and reach the file at a flush and at a close."""

    def __init__(self, limit=None, limits=()):
        self.limit, self.limits = limit, dict(limits)
        self.files, self.closed, self.accepted, self.last = {}, set(), 0, 0

    def create(self, name):
        if name.startswith("no/"):
            raise Refused
        self.name, self.held, self.files[name] = name, [], b""

    def write(self, piece):
        if piece:
            self.held.append(piece)
            self.accepted += len(piece)
            self.last = len(piece)

    def hand_over(self):
        limit = self.limits.get(self.name, self.limit)
        text = self.files[self.name] + b"".join(self.held)
        self.held = []
        self.files[self.name] = text if limit is None else text[:limit]
        if limit is not None and len(text) > limit:
            raise Refused

    def flush(self):
        try:
            self.hand_over()
        except Refused:
            self.accepted -= self.last  # the last piece of the packet counts as refused
            raise

    def close(self):
        self.hand_over()
        self.closed.add(self.name)


class Job:
    """One output: options are `name`, `recovery`, `most`, `wait`, `restart`."""

    def __init__(self, options, muxer, video, shelf):
        self.options, self.muxer, self.video, self.shelf = options, muxer, video, shelf
        self.fates, self.sessions, self.notes = [], 1, 0
        self.mode, self.attempts, self.since, self.state = "live", 0, None, None
        if not self.call(lambda: muxer.begin(options["name"], shelf)):
            self.mode = "broken" if options["recovery"] else "dead"

    def call(self, what):
        try:
            what()
            return True
        except Refused:
            self.notes += 1
            return False

    def write(self, packet):
        def both():
            self.muxer.put(packet, self.shelf)
            self.shelf.flush()
        return self.call(both)

    def needs_key(self, packet):
        restart = packet.key and packet.kind == "v" or not self.video
        runs_on = self.mode == "live" and bool(self.fates) and self.fates[-1] == ("written", self.sessions - 1)
        return self.options["restart"] and not restart and bool(self.fates) and not runs_on

    def give(self, packet):
        self.fates.append(self.fate(packet))

    def fate(self, packet):
        if self.mode == "dead":
            return ("after",)
        if self.mode == "live":
            if self.needs_key(packet):
                return ("keywait",)
            if self.write(packet):
                return ("written", self.sessions - 1)
            self.mode, self.attempts = ("broken", 0) if self.options["recovery"] else ("dead", 0)
            if self.mode == "dead" or self.options["wait"]:
                self.since = packet.dts
                return ("lost",)
        elif self.options["wait"] and self.since is not None and packet.dts - self.since < self.options["wait"]:
            return ("lost",)
        return self.again(packet)

    def again(self, packet):
        if self.needs_key(packet):
            return ("keywait",)
        name = f"{self.options['name']}~{self.sessions}"
        self.sessions += 1
        if self.call(lambda: self.muxer.begin(name, self.shelf)) and self.write(packet):
            self.mode = "live"
            return ("written", self.sessions - 1)
        self.attempts, self.since = self.attempts + 1, packet.dts
        if self.options["most"] and self.attempts >= self.options["most"]:
            self.mode = "dead"
        return ("lost",)

    def finish(self):
        done = self.mode == "live" and self.call(lambda: self.muxer.end(self.shelf))
        self.state = "closed" if done else "failed"

    def line(self, at):
        count = {word: sum(fate[0] == word for fate in self.fates) for word in ("written", "keywait", "lost", "after")}
        return (f"slave {at} {self.state} written={count['written']} refused=0 flushed=0 keywait={count['keywait']} lost={count['lost']} "
                f"after={count['after']} nomem=0 sessions={self.sessions} bytes={self.shelf.accepted}")


# --- the run ---------------------------------------------------------------------------------------------------------------------

def selected(select, number, kind):
    return select is None or any(one in (kind, str(number), kind + ":0") for one in select)


def takes(output, streams):
    """The streams that an output takes, with their numbers."""
    form = output["segment"]["format"] if output["f"] == "segment" else output["f"]
    return [(at, s) for at, s in enumerate(streams) if selected(output["select"], at, s.kind) and (form != "adts" or s.kind == "a")]


def job_of(output, streams, script, shelf):
    mine = takes(output, streams)
    muxer = Segments(output["segment"], mine, script) if output["f"] == "segment" else MUXERS[output["f"]](mine, script)
    return Job(output, muxer, any(stream.kind == "v" for _, stream in mine), shelf)


def chain_for(output, number, kind):
    """The joined chain of a stream."""
    return [one for spec, chain in output["chains"] if spec in ("", kind, str(number)) for one in chain]


Run = namedtuple("Run", "status report jobs taken")


def run(text, plan, shelves):
    """What a run comes to whose outputs are all written on one thread, or wait where their queue is full."""
    limited = len(text) >= plan["bytes"]
    tags, verdict = read(text[:plan["bytes"]])
    streams, script = streams_of(tags)
    if verdict in ("not-flv", "bad-offset") or not streams:
        return Run(3, [f"status 3 refused {verdict if verdict in ('not-flv', 'bad-offset') else 'no-streams'}"], [], [])
    for at, output in enumerate(plan["outputs"]):
        if not takes(output, streams):
            return Run(3, [f"status 3 refused none-selected slave={at}"], [], [])
    jobs = [job_of(output, streams, script, shelf) for output, shelf in zip(plan["outputs"], shelves)]
    outcomes = packets_of(tags, streams)
    dealt, upto, taken = len(tags), 0, [[] for _ in jobs]
    for packet, after in interleave(outcomes, len(streams), plan["delta"]):
        upto += 1
        for output, job, list_of in zip(plan["outputs"], jobs, taken):
            if any(number == packet.stream for number, _ in takes(output, streams)):
                left = apply(chain_for(output, packet.stream, packet.kind), packet)
                if left is not None:
                    list_of.append(left)
                    job.give(left)
        dead = [job.mode == "dead" for job in jobs]
        if all(dead) or any(one and output["abort"] for one, output in zip(dead, plan["outputs"])):
            dealt = len(tags) if after is None else after
            break
    for job in jobs:
        job.finish()
    counts = [sum(one == reason for one in outcomes[:dealt]) for reason in REASONS]
    failed = [job.state == "failed" for job in jobs]
    aborts = [at for at, output in enumerate(plan["outputs"]) if failed[at] and output["abort"]]
    status, last = 0, "status 0 done"
    if aborts or all(failed):
        status, last = 5, f"status 5 slave {(aborts or [0])[0]} failed"
    elif limited or verdict == "cut":
        status, last = 4, "status 4 ended limit" if limited else "status 4 ended cut"
    report = [f"tags {dealt} packets {upto}", "discards " + " ".join(f"{r}={n}" for r, n in zip(REASONS, counts))]
    return Run(status, report + [job.line(at) for at, job in enumerate(jobs)] + [last], jobs, taken)
