"""Tries what the documents say: their commands, their examples, the numbers of each option, the statuses, faults and words of the
report, and their links. README.md, docs/USING.md, docs/remux.1 and `--help` must agree."""

import os
import pathlib
import re
import shutil
import subprocess

TOP = pathlib.Path(__file__).resolve().parents[2]
PROGRAM = TOP / "crates" / "remux" / "out" / "remux"
README, USING, MANUAL, FORMATS = "README.md", "docs/USING.md", "docs/remux.1", "docs/FORMATS.md"

HEADER = b"FLV\1\5\0\0\0\x09\0\0\0\0"
AVC = b"\x17\0\0\0\0" + bytes.fromhex("0142001effe1000467" "42001e" "01000268ce")
KEY = b"\x17\1\0\0\0\0\0\0\2\x65\x88"
AAC, SOUND = b"\xaf\0\x12\x10", b"\xaf\1\x21"


def text(name):
    """A document. Of the manual, its backslashes and dashes as they are printed."""
    found = (TOP / name).read_text()
    return found.replace(r"\e", "\\").replace(r"\-", "-") if name == MANUAL else found


def run(words, folder, **how):
    """The status, the report and the sentences of a run."""
    done = subprocess.run([PROGRAM, *words], cwd=folder, capture_output=True, timeout=60, **how)
    return done.returncode, done.stdout.decode(), done.stderr.decode()


def in_shell(line, folder):
    """Likewise of a line for bash, in which `remux` is the built program."""
    how = {"cwd": folder, "env": {**os.environ, "PROGRAM": str(PROGRAM)}, "capture_output": True, "timeout": 60}
    done = subprocess.run(["bash", "-c", f'remux() {{ "$PROGRAM" "$@"; }}; {line}'], **how)
    return done.returncode, done.stdout.decode(), done.stderr.decode()


def last(report):
    return report.rstrip("\n").rsplit("\n", 1)[-1]


def helped():
    return run(["--help"], "/")[1]


# --- commands and examples -----------------------------------------------------------------------------------------------------

def lines_of(shown):
    """The whole commands that a text shows."""
    found = re.findall(r"^ *(?:\$ )?(?:\./)?(remux (?:-i|generate) .*)$", shown, re.MULTILINE)
    return [line for line in found if not re.search(r"[A-Z]{5}|N$|'\.\.'", line)]


def commands(folder, expect):
    """Each command of the documents runs to its end, and the manual has those of docs/USING.md."""
    shown = {name: lines_of(text(name)) for name in (README, USING, MANUAL)}
    shown["--help"] = lines_of(helped())
    expect("how many commands there are", [name for name, lines in shown.items() if len(lines) < (1 if name == README else 4)], [])
    in_blocks = [line for line in shown[USING] if line not in shown[MANUAL]]
    expect("commands of docs/USING.md that aren't in the manual", in_blocks, [])
    shutil.copytree(TOP / "samples", folder / "samples")
    run(["generate", "200"], folder)
    os.rename(folder / "g.flv", folder / "talk.flv")
    for place in ("small", "share"):
        (folder / place).mkdir()
    for line in sorted({line for lines in shown.values() for line in lines if "/dev/full" not in line}):
        status, report, said = in_shell(line.replace("/mnt/", "") + (" <talk.flv" if "/dev/stdin" in line else ""), folder)
        expect(line, (status, last(report), "failed" in report), (0, "status 0 done", False))
        # An output that drops may lack packets of an input that comes as fast as it is read.
        expect(f"{line}: sentences", "drop_pkts" in line or said == "", True)


def rows(heading=None):
    """The rows of the tables of docs/USING.md that tell options, each as its cells; of one section, where it is named."""
    part = text(USING)
    if heading:
        part = part.split(f"\n{heading}\n", 1)[1].split("\n#", 1)[0]
    return [[cell.strip() for cell in re.split(r"(?<!\\)\|", line)[1:-1]] for line in part.splitlines() if line.startswith("| `")]


def examples(folder, expect):
    """Each example of an option is taken by the program, and stands in the manual too."""
    run(["generate", "60"], folder)
    os.rename(folder / "g.flv", folder / "talk.flv")
    made = {
        "## Words": lambda text: "remux " + {"-i": f"{text} -f flv o", "-f": f"-i talk.flv {text}"}.get(text[:2], f"-i talk.flv {text} -f flv o"),
        "## Several outputs": lambda text: f"remux -i talk.flv -f tee '{text}'",
        "### fifo_options": lambda text: f"remux -i talk.flv -f tee '[f=flv:use_fifo=1:fifo_options={text}]o'",
        "### Segments": lambda text: f"remux -i talk.flv -f tee '[f=segment:{text}]o%d'",
    }
    tried = 0
    for heading, command in made.items():
        for row in rows(heading):
            for example in re.findall(r"`([^`]+)`", row[-1]):
                line = example if example.startswith("remux") else command(example)
                line = line.replace("/mnt/share/", "")
                status, _, said = in_shell(line + " <talk.flv", folder)
                expect(f"example {example}", (status, "drop_pkts" in example or said == ""), (0, True))
                # The manual writes an option as `-i`, and a long name apart from its value.
                expect(f"example {example} in the manual", example in text(MANUAL) or example in ("-i talk.flv", "remux --help"), True)
                tried += 1
    expect("how many examples there are", tried > 22, True)


def numbers(said):
    """The numbers of a sentence, but for those in brackets and of a status."""
    said = re.sub(r"\([^)]*\)|status \d|`[^`]*:0`|[va]:0|\\fB", " ", said)
    for short, long in (("10^15", 10**15), ("2^40", 2**40), ("10^9", 10**9)):
        said = said.replace(short, str(long))
    return {float(number) for number in re.findall(r"(?<![\w%])\d+(?:\.\d+)?(?!\w)", said)}


def in_help(name, told):
    """What `--help` says of an option."""
    found = re.search(rf"^ {{2,4}}{re.escape(name)}[ =](.*(?:\n {{20,}}\S.*)*)", told, re.MULTILINE)
    return found[1] if found else ""


def in_manual(name):
    """What the manual says of an option, up to its example."""
    kind = "Fl" if name[0] == "-" else "Cm"
    found = re.search(rf"^\.It {kind} {re.escape(name.lstrip('-'))}\b(.*?)^(?:Example:|\.It|\.El)", text(MANUAL), re.MULTILINE | re.DOTALL)
    return found[1] if found else ""


def same_numbers(expect):
    """Limits and defaults of each option are the same in docs/USING.md, in the manual and in the help."""
    told, tried = helped(), 0
    for heading in ("## Words", "## Several outputs", "### fifo_options", "### Segments"):
        for cells in rows(heading):
            for name in re.findall(r"`(-?[a-z_]+)`", cells[0]):
                if name in ("generate", "select", "bsfs") or name.startswith(("-h", "--")) or ".." in cells[0]:
                    continue
                wanted = numbers(cells[1] + " " + cells[2])
                expect(f"numbers of {name} in the help", numbers(in_help(name, told)), wanted)
                expect(f"numbers of {name} in the manual", numbers(in_manual(name)), wanted)
                tried += bool(wanted)
    expect("how many options have numbers", tried > 12, True)


# --- statuses, faults, words of the report -----------------------------------------------------------------------------------------

def tag(kind, stamp, body):
    return bytes([kind]) + len(body).to_bytes(3, "big") + stamp.to_bytes(3, "big") + bytes(4) + body + (11 + len(body)).to_bytes(4, "big")


# A command for each fault of the words: what is told of it, and at which word.
TEE = ["-i", "in.flv", "-f", "tee"]
FAULTS = {
    1: (["-i", "in.flv", "-x", "-f", "flv", "o"], 2),
    2: (["-i"], 0),
    3: (["-f", "flv", "o"], 3),
    4: (["-i", "in.flv", "-f", "flv"], 4),
    5: (["-i", "in.flv", "-f", "ogg", "o"], 3),
    6: ([*TEE, "[f=flv:segment_time=2]o"], 4),
    7: ([*TEE, "[f=flv:onfail=never]o"], 4),
    8: ([*TEE, "[f=flv]o|[f=flv]p'"], 4),
    9: ([*TEE, "[f=flv"], 4),
    10: ([*TEE, "|".join(f"[f=flv]o{at}" for at in range(17))], 4),
    11: ([*TEE, "[f=flv]o|[f=adts]o"], 4),
    12: (["-i", "in.flv", "-f", "segment", "o.ts"], 4),
    13: ([*TEE, "[f=flv:bsfs=aac_adts]o"], 4),
    14: (["-i", "in.flv", "-f", "flv", "o" * 201], 4),
}


def faults(folder, expect):
    """Each fault of the words comes, nothing is opened, one sentence says so, and the documents tell it."""
    for kind, (words, place) in FAULTS.items():
        status, report, said = run(words, folder)
        expect(f"fault {kind}", (status, report, os.listdir(folder)), (1, f"status 1 words fault={kind} word={place}\n", []))
        expect(f"fault {kind}: sentences", re.fullmatch(rf"remux: (?:word {place} \(.*\): )?.+\nremux: try 'remux --help'\n", said) is not None, True)
        expect(f"fault {kind} in docs/USING.md", re.search(rf"\| {kind} \| \w", text(USING)) is not None, True)
    whole = re.search(r"^F is 1 for(.*?)^\.It", text(MANUAL), re.MULTILINE | re.DOTALL)[1]
    expect("faults in the manual", [kind for kind in FAULTS if not re.search(rf"\b{kind}\b", "1 " + whole)], [])


def statuses(folder, expect):
    """Each status comes with its line and a sentence, and the documents have the line."""
    video = HEADER + tag(9, 0, AVC) + tag(9, 0, KEY)
    inputs = {"in.flv": video + tag(8, 0, AAC) + tag(8, 0, SOUND), "video.flv": video, "head.flv": HEADER, "text": b"no FLV",
              "offset.flv": HEADER[:8] + b"\1" + HEADER[9:], "large.flv": video + tag(9, 40, b"\x27\1\0\0\0\0\x7f\xff\xff" + b"\x41" * 0x7FFFFF)}
    for name, data in inputs.items():
        (folder / name).write_bytes(data)
    (folder / "cut.flv").write_bytes(inputs["in.flv"][:-5])
    cases = [
        ("-i in.flv -f flv o", 0, "status 0 done"),
        ("-i no.flv -f flv o", 2, "status 2 input fault"),
        (". -i . -f flv o", 1, "status 1 words fault=5 word=0"),
        ("-i . -f flv o", 2, "status 2 input fault"),
        ("-i text -f flv o", 3, "status 3 refused not-flv"),
        ("-i offset.flv -f flv o", 3, "status 3 refused bad-offset"),
        ("-i head.flv -f flv o", 3, "status 3 refused no-streams"),
        ("-i video.flv -f tee '[f=flv]o|[f=adts]p'", 3, "status 3 refused none-selected slave=1"),
        ("-i cut.flv -f flv o", 4, "status 4 ended cut"),
        ("-i in.flv -max_input_bytes 100 -f flv o", 4, "status 4 ended limit"),
        ("-i in.flv -f tee '[f=flv]o|[f=flv]no/p'", 5, "status 5 slave 1 failed"),
        ("-i in.flv -f tee '[f=flv:onfail=ignore]no/o|[f=flv:onfail=ignore]no/p'", 5, "status 5 slave 0 failed"),
    ]
    if os.path.exists("/dev/full"):
        cases.append(("-i in.flv -f flv /dev/full", 5, "status 5 slave 0 failed"))
        cases.append(("-i in.flv -f flv o >/dev/full", 7, ""))
    for words, status, line in cases:
        got, report, said = in_shell(f"remux {words}", folder)
        expect(words, (got, last(report)), (status, line))
        expect(f"{words}: sentences", [one for one in said.splitlines() if not one.startswith("remux: ")] + [status != 0], [said != ""])
    # Too little memory for a packet of 8 MiB. What the program itself needs differs from machine to machine.
    limits = [in_shell(f"ulimit -v {size}; remux -i large.flv -f flv o", folder) for size in range(4000, 24000, 1000)]
    wanting = [one for one in limits if last(one[1]) == "status 6 no memory"]
    expect("status 6", [(status, said.splitlines()[:1]) for status, _, said in wanting][:1], [(6, ["remux: there wasn't enough memory"])])
    for document in (USING, MANUAL, FORMATS):
        shown = {re.sub(r"^status \d (?:refused )?", "", line) for _, _, line in cases} | {"no memory"}
        shown = {re.sub(r"slave(.)\d", r"slave\1K", line) for line in shown if "words" not in line} | {"words fault=F word=W"}
        expect(f"statuses that {document} lacks", sorted(line for line in shown if line not in text(document)), [])


def words_of_the_report(folder, expect):
    """A run in which each word of the report counts something, and each cause is told."""
    odd = [tag(18, 0, b"\2\0\0"), tag(8, 0, SOUND), tag(9, 0, AVC), tag(8, 0, AAC), tag(8, 0, AAC), tag(9, 0, b"\x12\0"), tag(9, 0, b"\x17"),
           tag(9, 0, b"\x52\0")]
    some = [tag(9, at * 40, KEY if at % 10 == 0 else b"\x27" + KEY[1:-2] + b"\x41\x88") + tag(8, at * 40, SOUND) for at in range(100)]
    (folder / "in.flv").write_bytes(HEADER + b"".join(odd + some) + tag(9, 4000, b"\x17\2\0\0\0"))
    os.mkfifo(folder / "pipe")
    outputs = [
        r"[f=flv:onfail=ignore]a",
        r"[f=mpegts:onfail=ignore:fifo_options=attempt_recovery=1\\:recovery_wait_time=300\\:restart_with_keyframe=1]b",
        r"[f=flv:onfail=ignore:use_fifo=1:fifo_options=queue_size=2\\:drop_pkts_on_overflow=1]pipe",
    ]
    line = f"(sleep 0.5; exec cat pipe >/dev/null) & trap '' XFSZ; ulimit -f 1; remux -i in.flv -f tee '{'|'.join(outputs)}'; status=$?; wait; exit $status"
    status, report, said = in_shell(line, folder)
    expect("a run in which much is missing", (status, last(report)), (0, "status 0 done"))
    told = re.findall(r"\b([a-z]+)=(\d+)", report)
    counted = {word for word, count in told if count != "0"}
    expect("words that counted nothing", sorted({word for word, _ in told} - counted), ["nomem"])
    for document in (USING, MANUAL, FORMATS):
        expect(f"words that {document} lacks", sorted(word for word in {word for word, _ in told} if not re.search(rf"\b{word}\b", text(document))), [])
    causes = set(re.findall(r"lacks packets .*: (.*)", said))
    drawn = set(re.findall(r'^    "(.*)": "#', text("tools/timeline"), re.MULTILINE))
    expect("causes", causes | {"there wasn't enough memory"}, drawn)
    for document in (USING, MANUAL, FORMATS):
        flat = " ".join(text(document).split())
        expect(f"causes that {document} lacks", sorted(cause for cause in drawn if cause not in flat), [])
    forms = re.findall(r"^remux: output K (\w+)", text(USING), re.MULTILINE)
    expect("forms of sentences in the manual", re.findall(r"^remux: output K (\w+)", text(MANUAL), re.MULTILINE), forms)
    expect("forms of sentences in docs/FORMATS.md", re.findall(r"^remux: output K (\w+)", text(FORMATS), re.MULTILINE), forms)
    expect("sentences of other forms", sorted({one.split()[3].rstrip(":") for one in said.splitlines()} - set(forms)), [])


def links(expect):
    """What the documents point at is there."""
    for document in sorted([TOP / README, *(TOP / "docs").glob("*.md")]):
        for target in re.findall(r"\]\(([^)#:]+)\)", document.read_text()):
            expect(f"{document.name}: {target}", (document.parent / target).exists(), True)
