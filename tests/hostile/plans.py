"""Inputs, damage to them, and random command lines that have a plan."""

import functools
import random

HEADER = b"FLV\1\5\0\0\0\x09\0\0\0\0"
AVC = bytes.fromhex("0142001effe10004" "6742001e" "01000268ce")
OTHER_AVC = bytes.fromhex("0142001efde20004" "6742001f" "0000" "01000268cf")  # lengths of two bytes, one set empty
SHORT_AVC = bytes.fromhex("0142001efce10004" "6742001e" "01000268ce")  # lengths of one byte
AAC, OTHER_AAC, HE_AAC = bytes.fromhex("1210"), bytes.fromhex("1190"), bytes.fromhex("2b9208")


# --- inputs ------------------------------------------------------------------------------------------------------------------

def tag(kind, stamp, body):
    stamp &= 0xFFFFFFFF
    front = bytes([kind]) + len(body).to_bytes(3, "big") + (stamp & 0xFFFFFF).to_bytes(3, "big") + bytes([stamp >> 24, 0, 0, 0])
    return front + body + (11 + len(body)).to_bytes(4, "big")


def avc(raw, stamp=0):
    return tag(9, stamp, b"\x17\0\0\0\0" + raw)


def aac(raw, stamp=0):
    return tag(8, stamp, b"\xaf\0" + raw)


def video(stamp, units, key=False, later=0, size=4):
    body = b"".join(len(unit).to_bytes(size, "big") + unit for unit in units)
    return tag(9, stamp, bytes([0x17 if key else 0x27, 1]) + later.to_bytes(3, "big") + body)


def audio(stamp, data):
    return tag(8, stamp, b"\xaf\1" + data)


def filled(chance, kind, most):
    """A unit of this type."""
    return bytes([kind]) + bytes(chance.randrange(1, 256) for _ in range(chance.randrange(most)))


def picture(chance, at, size=4, key_every=8):
    key = at % key_every == 0
    units = [filled(chance, 0x65 if key else 0x41, 120)]
    if at % 3 == 0:
        units.insert(0, b"\x06\x05\x01")
    if at % 5 == 0:
        units.insert(0, b"\x09\xf0")
    if at % 16 == 8:
        units.insert(0, b"\x67\x42\x00\x1e")
    return video(at * 40, units, key, 40 * (at % 3), size)


def both(chance, count):
    """Pictures and sounds, further configurations in the middle, tags that no stream has, and an end of the sequence."""
    text = HEADER + tag(18, 0, b"\x02\0\x0aonMetaData\x08\0\0\0\0\0\0\x09") + avc(AVC) + aac(AAC)
    for at in range(count):
        if at == count // 2:
            text += avc(OTHER_AVC, at * 40) + aac(AAC, at * 40) + aac(OTHER_AAC, at * 40)
        text += picture(chance, at, 4 if at < count // 2 else 2)
        text += audio(at * 40, filled(chance, 0x21, 60)) + audio(at * 40 + 23, filled(chance, 0x22, 60))
        if at % 7 == 3:
            text += tag(18, at * 40, b"\x02\0\4text") + tag(9, at * 40, b"\x52\0") + tag(8, at * 40, b"\x2f\0") + tag(15, 0, b"?")
    return text + tag(9, count * 40, b"\x17\2\0\0\0")


@functools.lru_cache
def inputs(seed, sample):
    """Undamaged inputs of several kinds."""
    chance = random.Random(seed)
    small = HEADER + avc(SHORT_AVC) + b"".join(picture(chance, at, 1, 5) for at in range(40))
    late = HEADER + avc(AVC) + b"".join(picture(chance, at) for at in range(70)) + aac(AAC) + audio(2800, b"\x21")
    sound = HEADER + aac(HE_AAC) + b"".join(audio(at * 23, filled(chance, 0x21, 200)) for at in range(90))
    jumps = HEADER + avc(AVC) + aac(AAC)
    for stamp in (0, 40, 20, 1 << 24, (1 << 24) + 5000, 7, -40, (1 << 31) - 1, 0):
        jumps += video(stamp, [filled(chance, 0x65, 400)], True, 80) + audio(stamp, b"\x21\x22")
    return [sample, both(chance, 30), both(chance, 6), small, late, sound, jumps]


# --- damage ------------------------------------------------------------------------------------------------------------------

def places(text):
    """Where the tags of an undamaged text begin, and where it ends."""
    found, at = [], 13
    while at + 15 <= len(text):
        found.append(at)
        at += 15 + int.from_bytes(text[at + 1:at + 4], "big")
    return found + [len(text)]


def damage_bytes(chance, text):
    at = chance.randrange(len(text))
    what = chance.randrange(6)
    far = min(len(text), at + 1 + chance.choice([0, 1, 3, 10, 100, 1000]))
    if what == 0:
        return text[:at] + bytes([text[at] ^ 1 << chance.randrange(8)]) + text[at + 1:]
    if what == 1:
        return text[:at] + bytes([chance.choice([0, 1, 0x7F, 0x80, 0xFF])]) + text[at + 1:]
    if what == 2:
        return text[:at]
    if what == 3:
        return text[:at] + bytes(chance.randrange(256) for _ in range(chance.randrange(1, 40))) + text[at:]
    if what == 4:
        return text[:at] + text[far:]
    return text[:far] + text[at:far] + text[far:]


def damage_tag(chance, text):
    """Something that strikes a whole tag, or a field of it."""
    found = places(text)
    if len(found) < 3:
        return damage_bytes(chance, text)
    a, b = (chance.randrange(len(found) - 1) for _ in range(2))
    one, other = text[found[a]:found[a + 1]], text[found[b]:found[b + 1]]
    what = chance.randrange(8)
    if what == 0:
        return text[:found[a]] + text[found[a + 1]:]
    if what == 1:
        return text[:found[a]] + other + text[found[a]:]
    if what == 2:
        return text[:found[a]] + other + text[found[a + 1]:]
    if what == 3:
        raw = chance.choice([AVC, OTHER_AVC, SHORT_AVC, AVC[:9], b"\2" + AVC[1:], AVC + b"\xff"])
        sound = chance.choice([AAC, OTHER_AAC, HE_AAC, b"\x12", b"\xf8\0", b"\x17\x80", b"\x12\0"])
        return text[:found[a]] + chance.choice([avc(raw), aac(sound)]) + text[found[a]:]
    changed = bytearray(one)
    if what == 4:
        changed[4:8] = chance.choice([b"\xff\xff\xff\x7f", b"\0\0\0\x80", b"\xff\xff\xff\xff", b"\0\0\0\0", bytes(chance.randrange(256) for _ in range(4))])
    elif what == 5:
        changed[1:4] = chance.choice([b"\0\0\0", b"\xff\xff\xff", (len(one) - 14).to_bytes(3, "big"), (len(one) - 16).to_bytes(3, "big", signed=True)])
    elif what == 6:
        changed[0] = chance.choice([8, 9, 18, 0x28, 0x29, 0x48, 0xC9, 0, 255])
    elif len(changed) > 18:
        changed[11 + chance.randrange(7)] = chance.choice([0, 1, 2, 3, 0x17, 0x27, 0x37, 0x57, 0xAF, 0xFF])
    return text[:found[a]] + bytes(changed) + text[found[a + 1]:]


def damaged(chance, text):
    for _ in range(chance.choice([0, 1, 1, 1, 2, 3, 6])):
        if text:
            text = (damage_tag if chance.random() < 0.5 else damage_bytes)(chance, text)
    return text


# --- command lines -----------------------------------------------------------------------------------------------------------

def escaped(text, marks="\\'|:[],"):
    return "".join("\\" + letter if letter in marks else letter for letter in text)


def flag(chance, value):
    return chance.choice(["1", "true"] if value else ["0", "false"])


def chain(chance, native):
    """Filters as (name, argument), and their text."""
    kinds = [("null", None), ("filter_units", None)]
    if not native:
        kinds += [("h264_mp4toannexb", None), ("dump_extra", "keyframe"), ("dump_extra", "all"), ("aac_adts", None)]
    made, words = [], []
    for name, argument in chance.choices(kinds, k=chance.choice([1, 1, 2, 3])):
        word = name
        if name == "filter_units":
            low, high = sorted(chance.randrange(32) for _ in range(2))
            named = {6, *range(low, high + 1)} if chance.random() < 0.3 else {6}
            removes = chance.random() < 0.7
            text = f"6|{low}-{high}" if len(named) > 1 else "06"
            argument = set(range(32)) - named if removes else named
            word += f"={'remove' if removes else 'pass'}_types={text}"
        elif argument:
            word += "=freq=" + chance.choice([argument, argument[0] if argument == "keyframe" else "e"])
        made.append((name, argument))
        words.append(word)
    return made, ",".join(words)


def segment_options(chance, at, given):
    """The options of segments as the model takes them, and as words of the block."""
    width = chance.choice([0, 0, 1, 3, 20])
    odd = chance.choice(["", "", ",", '"', " ", "é", "%"])
    options = {"template": (f"s{at}{odd}_", width, chance.choice(["", ".ts", "%x"])), "format": "mpegts", "time": 2000000, "start": 0,
               "list": None, "kind": "flat", "reset": False, "any": False}
    if not given:
        return options, []
    words = []
    if chance.random() < 0.7:
        options["format"] = chance.choice(["flv", "adts", "mpegts"])
        words.append("segment_format=" + options["format"])
    if chance.random() < 0.7:
        text = chance.choice(["0.000001", "0.1", "00.25", "1", "1000000", "0.5"])
        options["time"] = round(float(text) * 1000000)
        words.append("segment_time=" + text)
    if chance.random() < 0.7:
        ending = chance.choice([".m3u8", ".csv", ".txt"])
        options["list"], options["kind"] = f"l{at}{odd}{ending}", {".m3u8": "m3u8", ".csv": "csv"}.get(ending, "flat")
        words.append("segment_list=" + escaped(escaped(options["list"])))
        if chance.random() < 0.3:
            options["kind"] = chance.choice(["flat", "csv", "m3u8"])
            words.append("segment_list_type=" + options["kind"])
    if chance.random() < 0.3:
        options["start"] = chance.choice([0, 7, 4294967295])
        words.append(f"segment_start_number={options['start']}")
    for key, name in (("reset_timestamps", "reset"), ("break_non_keyframes", "any")):
        if chance.random() < 0.4:
            options[name] = chance.random() < 0.7
            words.append(f"{key}={flag(chance, options[name])}")
    return options, words


def fifo_options(chance, output):
    words = []

    def add(key, name, values):
        if chance.random() < 0.4:
            output[name] = chance.choice(values)
            value = output[name]
            words.append(f"{key}={flag(chance, value) if isinstance(value, bool) else value}")
    add("queue_size", "queue", [1, 2, 60, 256])
    add("queue_bytes", "queue_bytes", [0, 1, 100, 2**40])
    add("drop_pkts_on_overflow", "drops", [False, False, True])
    add("attempt_recovery", "recovery", [False, True])
    add("max_recovery_attempts", "most", [0, 1, 2, 4294967295])
    add("recovery_wait_time", "wait", [0, 0, 40, 100, 10**9])
    add("restart_with_keyframe", "restart", [False, True])
    chance.shuffle(words)
    return words


def plain(at, form):
    return {"f": form, "name": f"o{at}", "select": None, "abort": True, "chains": [], "segment": None, "threads": False, "drops": False,
            "recovery": False, "most": 0, "wait": 0, "restart": False, "queue": 60, "queue_bytes": 0}


def name_of(output):
    """The name as the words have it: a template has its percent signs doubled."""
    if output["f"] != "segment":
        return output["name"]
    before, width, behind = output["segment"]["template"]
    return before.replace("%", "%%") + (f"%0{width}d" if width else "%d") + behind.replace("%", "%%")


def output(chance, at, missing):
    """An output as the model takes it, and its text. Where `missing` is told its name may lie in a folder that isn't there."""
    made = plain(at, chance.choice(["flv", "mpegts", "segment"] * 3 + ["adts"]))
    words = ["f=" + made["f"]]
    if made["f"] == "segment":
        made["segment"], more = segment_options(chance, at, True)
        words += more
    else:
        made["name"] = f"o{at}" + chance.choice(["", "'", "\\", "|", "[x]", ":", ", ", "é", "%d", "~1"])
    if chance.random() < 0.2:
        made["select"] = chance.choice([["v"], ["a"], ["0"], ["1"], ["v", "a"], ["v:0"], ["a:0", "1"], ["a", "0"]])
        words.append("select=" + escaped(escaped(",".join(made["select"]), ":"), ":\\"))
    if chance.random() < 0.5:
        made["abort"] = chance.random() < 0.5
        words.append("onfail=" + ("abort" if made["abort"] else "ignore"))
    native = "flv" in (made["f"], made["segment"] and made["segment"]["format"])
    for spec in chance.sample(["", "v", "a", "0", "1"], chance.choice([0, 0, 0, 1, 1, 2])):
        filters, text = chain(chance, native)
        made["chains"].append((spec, filters))
        words.append(f"bsfs{'/' if spec else ''}{spec}=" + escaped(escaped(text)))
    # The order of the chains is that of the words: these stay together, the others are shuffled round them.
    chains, others = [w for w in words if w.startswith("bsfs")], [w for w in words if not w.startswith("bsfs")]
    if chance.random() < 0.5:
        others.append("fifo_options=" + escaped(escaped(":".join(fifo_options(chance, made)))))
    if chance.random() < 0.4:
        made["threads"] = chance.random() < 0.8
        others.append(f"use_fifo={flag(chance, made['threads'])}")
    chance.shuffle(others)
    cut = chance.randrange(len(others) + 1)
    if missing and chance.random() < 0.1 and not (made["threads"] and made["abort"]):
        if made["segment"]:
            made["segment"]["template"] = ("no/" + made["segment"]["template"][0], *made["segment"]["template"][1:])
        else:
            made["name"] = "no/" + made["name"]
    return made, f"[{':'.join(others[:cut] + chains + others[cut:])}]{escaped(name_of(made), chance.choice([chr(92) + chr(39) + '|', chr(92) + chr(39) + '|:[], ']))}"


def options_of_run(chance, plan, size):
    words = []
    if chance.random() < 0.4:
        plan["delta"] = chance.choice([0, 1, 50000, 1000000, 10**15])
        words.append(["-max_interleave_delta", str(plan["delta"])])
    if chance.random() < 0.2:
        plan["bytes"] = chance.choice([9, 13, 2**40, max(9, size), size + 10, chance.randrange(9, size + 20)])
        words.append(["-max_input_bytes", str(plan["bytes"]).zfill(chance.choice([1, 19]))])
    return words


def command(chance, size):
    """A plan, and words that have it."""
    plan = {"delta": 10000000, "bytes": 2**40, "outputs": []}
    words = options_of_run(chance, plan, size)
    if chance.random() < 0.3:
        made = plain(0, chance.choice(["flv", "adts", "mpegts", "segment"]))
        if made["f"] == "segment":
            made["segment"], _ = segment_options(chance, 0, False)
        plan["outputs"], form, target = [made], made["f"], name_of(made)
    else:
        count = chance.choice([1, 2, 2, 3, 4, 5, 16])
        made = [output(chance, at, count > 1) for at in range(count)]
        if count > 1 and any(one["threads"] for one, _ in made) and all("no/" in name_of(one) for one, _ in made):
            return command(chance, size)
        plan["outputs"], form, target = [one for one, _ in made], "tee", "|".join(text for _, text in made)
    words += [["-i", "in.flv"], ["-f", form]]
    chance.shuffle(words)
    return plan, [word for pair in words for word in pair] + [target]
