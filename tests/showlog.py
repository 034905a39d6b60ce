#!/usr/bin/env python3
"""showlog held to listings that are made here another way: from the words of the log's request and from the data sheets' tables.

tests/showlog.py PROGRAM WORK   every test of the built program; WORK is a directory for what it makes
tests/showlog.py --list LOG     the listing of a log, as it is made here
tests/showlog.py --store        write the listings of tests/showlog anew

A case has its listing in tests/showlog/NAME.txt. The log of case `run` is run.log, which the example controller wrote; the other
logs are made here, from its bytes or from nothing.
"""
import errno
import os
import random
import subprocess
import sys
from pathlib import Path

STORED = Path(__file__).resolve().parent / "showlog"
KINDS = {1: "size", 2: "frame", 3: "reply", 4: "note"}
LONGEST = {1: 1, 2: 132, 3: 132, 4: 200}
MEANS = {10: "the record is cut short, or its length is below 2", 11: "the body is outside its kind's limits"}
COMMANDS = dict(
    WRCFGA=0x001, WRCFGB=0x024, RDCFGA=0x002, RDCFGB=0x026, RDCVA=0x004, RDCVB=0x006, RDCVC=0x008, RDCVD=0x00A, RDCVE=0x009,
    RDCVF=0x00B, RDAUXA=0x00C, RDAUXB=0x00E, RDAUXC=0x00D, RDAUXD=0x00F, RDSTATA=0x010, RDSTATB=0x012, WRSCTRL=0x014, WRPWM=0x020,
    WRPSB=0x01C, RDSCTRL=0x016, RDPWM=0x022, RDPSB=0x01E, CLRCELL=0x711, CLRAUX=0x712, WRCOMM=0x721, RDCOMM=0x722)
NAMES = {code: name for name, code in COMMANDS.items()}
# The eleven bits of a conversion as the data sheet's table has them: M mode, D discharge, P pull-up; a choice is C (0 to 6), T (0 to 4)
# or S (1 or 2).
CONVERSIONS = dict(
    ADCV="01MM11D0CCC", ADOW="01MMP1D1CCC", CVST="01MMSS00111", ADOL="01MM00D0001", ADAX="10MM1100CCC", ADAXD="10MM0000CCC",
    AXOW="10MMP010CCC", AXST="10MMSS00111", ADSTAT="10MM1101TTT", ADSTATD="10MM0001TTT", STATST="10MMSS01111",
    ADCVAX="10MM11D1111", ADCVSC="10MM11D0111")
CHOICES = {"C": range(0, 7), "T": range(0, 5), "S": range(1, 3)}


# ---- what frames and replies say ----

def word(data):
    """The check word, bit by bit."""
    remainder = 0x10
    for bit in "".join(f"{byte:08b}" for byte in data):
        high = remainder >> 14 ^ int(bit)
        remainder = remainder << 1 & 0x7FFF ^ (0x4599 if high else 0)
    return (2 * remainder).to_bytes(2, "big")


def conversion(code):
    """The words for a conversion code, or None."""
    bits = f"{code:011b}"
    for name, pattern in CONVERSIONS.items():
        if len(bits) != 11 or any(p in "01" and p != b for p, b in zip(pattern, bits)):
            continue
        fields = {p: int("".join(b for q, b in zip(pattern, bits) if p == q), 2) for p in pattern if p not in "01"}
        choice = next((p for p in fields if p in CHOICES), None)
        if choice and fields[choice] not in CHOICES[choice]:
            continue
        said = [name, f"mode {fields['M']}"]
        said += ["discharge permitted"] * fields.get("D", 0) + ["pull-up"] * fields.get("P", 0)
        return ", ".join(said + ([f"choice {fields[choice]}"] if choice and fields[choice] else []))
    return None


def frame_says(frame, devices):
    if len(frame) < 4:
        return "no command: under 4 bytes"
    code = int.from_bytes(frame[:2], "big")
    name, converts = NAMES.get(code), conversion(code)
    said = name or converts or f"unknown command 0x{code:03X}"
    if word(frame[:2]) != frame[2:4]:
        said += "; its check word is wrong"
    wanted = 4 if converts or name in ("CLRCELL", "CLRAUX") else 4 + 8 * devices if name and devices else None
    return said if wanted in (None, len(frame)) else f"{said}; should have {wanted} bytes"


def marks_of(reply):
    groups = [reply[at:at + 8] for at in range(4, len(reply), 8)]
    return ["silent" if group == b"\xff" * 8 else "read" if word(group[:6]) == group[6:] else "wrong" for group in groups]


def runs(marks):
    """Neighbours of one mark together: '1-2 read, 3 wrong'."""
    said, first = [], 0
    for at in range(1, len(marks) + 1):
        if at == len(marks) or marks[at] != marks[first]:
            said.append(f"{first + 1}{f'-{at}' if at > first + 1 else ''} {marks[first]}")
            first = at
    return ", ".join(said)


def reply_says(reply, frame, devices):
    if frame is None:
        return "to no frame"
    if len(frame) < 4:
        return "to a frame with no command"
    if not devices:
        return "of a chain of unknown size"
    code = int.from_bytes(frame[:2], "big")
    known = code in NAMES or conversion(code)
    if not known or not NAMES.get(code, "").startswith("RD"):
        line = "silence" if set(reply) <= {0xFF} else "not silent"
        return f"{'no read' if known else 'to an unknown command'}: {line}"
    wanted = 4 + 8 * devices
    return runs(marks_of(reply)) if len(reply) == wanted else f"not the {wanted} bytes of a read of {devices}"


def letter(byte):
    if byte in b'"\\':
        return f"\\{chr(byte)}"
    return chr(byte) if 0x20 <= byte < 0x7F else f"\\x{byte:02X}"


def note_says(text):
    return f'"{"".join(map(letter, text))}"'


# ---- the listing ----

def records(log):
    """(place, kind, body) of each record up to the end or a break; where that is, and the refusal there or 0."""
    whole, place = [], 0
    while place < len(log):
        length = int.from_bytes(log[place:place + 2], "little")
        end = place + 2 + length
        if len(log) - place < 4 or length < 2 or end > len(log):
            return whole, place, 10
        kind, body = int.from_bytes(log[place + 2:place + 4], "little"), log[place + 4:end]
        if kind in KINDS and (len(body) > LONGEST[kind] or kind == 1 and (len(body) != 1 or not 1 <= body[0] <= 16)):
            return whole, place, 11
        whole.append((place, kind, body))
        place = end
    return whole, place, 0


def listing(log):
    """The lines, and the status."""
    lines, counts = ["     place  kind   size"], dict.fromkeys([1, 2, 3, 4, 0], 0)
    devices, frame = 0, None
    whole, place, refusal = records(log)
    for at, kind, body in whole:
        counts[kind if kind in KINDS else 0] += 1
        if kind == 1:
            devices, says = body[0], f"chain of {body[0]}"
        elif kind == 2:
            frame, says = body, frame_says(body, devices)
        elif kind == 3:
            says = reply_says(body, frame, devices)
        elif kind == 4:
            says = note_says(body)
        else:
            says = "unknown kind"
        lines.append(f"{at:10}  {KINDS.get(kind, kind):<5} {len(body):>5}  {says}")
    lines.append(f"{place:10}  BREAK        refusal {refusal}: {MEANS[refusal]}" if refusal else f"{place:10}  end")
    lines += ["", "sizes {}, frames {}, replies {}, notes {}, unknown kinds {}".format(*counts.values())]
    return "\n".join(lines) + "\n", 1 if refusal else 0


# ---- the logs of the cases ----

def record(kind, body):
    return (2 + len(body)).to_bytes(2, "little") + kind.to_bytes(2, "little") + body


def group(six):
    return six + word(six)


def command(code, rest=b""):
    return record(2, group(code.to_bytes(2, "big")) + rest)


def odd():
    """Lawful records that say strange things: every sort of line that a run of the controller has not."""
    read, silence = b"\xff" * 4 + group(b"abcdef") * 2, b"\xff" * 20
    row = [record(3, silence), command(0x004, silence[4:]), record(3, silence), record(1, b"\x02"), record(3, read)]
    row += [record(3, read[:12]), record(3, b""), command(0x004), command(0x003), record(3, silence), record(3, b"\x00")]
    row += [record(2, b"\x00\x04\x07"), record(3, read), record(2, b""), record(2, b"\x00\x04\x07\xc3"), record(3, read)]
    codes = [[code for code in range(0x600) if (conversion(code) or "").startswith(f"{name},")] for name in CONVERSIONS]
    row += [command(of_one[end]) for of_one in codes for end in (0, -1)] + [command(0x267), command(0x46D)]
    row += [command(code, b"\xff" * 16) for code in COMMANDS.values()] + [record(3, silence[:-1] + b"\x00")]
    row += [record(4, b""), record(4, b'"say \\x41"\n\x1b[2J\x7f\x80\xff'), record(4, bytes(range(200)))]
    row += [record(kind, b"??") for kind in (0, 5, 257, 65535)] + [record(9, bytes(65533)), record(2, bytes(132)), record(3, bytes(132))]
    marks = b"".join((group(b"cell %d" % (k % 10)), b"\xff" * 8, b"wrong!??")[k // 2 % 3] for k in range(16))
    return b"".join(row + [record(1, b"\x10"), command(0x00B, b"\xff" * 128), record(3, bytes(4) + marks), record(1, b"\x01")])


def cases():
    """The log of each case."""
    run = (STORED / "run.log").read_bytes()
    whole, _, _ = records(run)
    place, _, body = whole[len(whole) // 2]
    before = run[:place]
    return {
        "run": run,
        "empty": b"",
        "odd": odd(),
        "cut": run[:place + 4 + len(body) // 2],
        "cut_head": run[:place + 3],
        "length_1": before + b"\x01\x00" + run[place + 2:],
        "length_0": before + bytes(2) + run[place + 2:],
        "too_long": before + b"\xff\xff" + run[place + 2:],
        "size_17": before + record(1, b"\x11") + run[place:],
        "size_0": before + record(1, b"\x00") + run[place:],
        "size_of_2": before + record(1, b"\x03\x03") + run[place:],
        "frame_133": before + record(2, bytes(133)) + run[place:],
        "reply_133": before + record(3, bytes(133)) + run[place:],
        "note_201": before + record(4, b"a" * 201) + run[place:],
    }


# ---- the tests ----

def wrong(what, wanted, got):
    print(f"showlog: {what}: wanted\n{wanted}\ngot\n{got}", file=sys.stderr)
    sys.exit(1)


def shown(program, *words):
    done = subprocess.run([program, *words], capture_output=True)
    return done.stdout.decode("ascii"), done.returncode, done.stderr.decode()


def hold(program, work, what, log):
    """What the program prints of a log is the listing, and its status is right."""
    file = work / "a.log"
    file.write_bytes(log)
    wanted, status = listing(log)
    text, got, said = shown(program, file)
    if (text, got, said) != (wanted, status, ""):
        wrong(what, f"{wanted}status {status}", f"{text}{said}status {got}")
    return wanted


def test_cases(program, work):
    logs, files = cases(), {path.stem for path in STORED.glob("*.txt")}
    if set(logs) != files:
        wrong("the cases that are stored", sorted(logs), sorted(files))
    for name, log in logs.items():
        text = hold(program, work, name, log)
        stored = (STORED / f"{name}.txt").read_text()
        if text != stored:
            wrong(f"{name}.txt", text, stored)
    return len(logs)


def test_damage(program, work):
    """Every cut of the controller's log, and bytes at random put wrong: some hundreds, and in the records' heads."""
    run, seed = (STORED / "run.log").read_bytes(), int(os.environ.get("RIG_SEED", random.getrandbits(32)))
    print(f"showlog: seed {seed} (RIG_SEED={seed} repeats it)", flush=True)
    draw = random.Random(seed)
    for length in range(len(run)):
        hold(program, work, f"the first {length} bytes", run[:length])
    heads = [place + byte for place, _, _ in records(run)[0] for byte in range(6)]
    for at in heads + [draw.randrange(len(run)) for _ in range(200)]:
        flip = draw.randrange(1, 256)
        hold(program, work, f"byte {at} with bits {flip:02X} put wrong", run[:at] + bytes([run[at] ^ flip]) + run[at + 1:])
    return len(run) + len(heads) + 200


def test_calls(program, work):
    """Bad arguments and files that cannot be read have status 2, nothing on the output and a message; --help has status 0."""
    one, option = "showlog: name one log\n", "showlog: no option '-x'; for a file of that name write './-x'\n"
    calls = [([], one), (["a", "b"], one), (["-x"], option), (["a", "-x"], option)]
    calls += [([path], f"showlog: '{path}' could not be read") for path in (work / "there_is_none", work)]
    for words, start in calls:
        text, status, said = shown(program, *words)
        if status != 2 or text or not said.startswith(start):
            wrong(f"arguments {words}", f"status 2, and alone\n{start}", f"status {status}\n{text}{said}")
    text, status, said = shown(program, "--help")
    if status != 0 or said or not text.startswith("usage: showlog FILE\n"):
        wrong("--help", "status 0 and the usage", f"status {status}\n{text}{said}")
    with open("/dev/full", "w") as full:
        done = subprocess.run([program, STORED / "run.log"], stdout=full, stderr=subprocess.PIPE)
    said = done.stderr.decode()
    if done.returncode != 2 or os.strerror(errno.ENOSPC) not in said:
        wrong("a full disk", f"status 2 and '{os.strerror(errno.ENOSPC)}'", f"status {done.returncode}\n{said}")


def main(words):
    if len(words) == 2 and words[0] == "--list":
        text, status = listing(Path(words[1]).read_bytes())
        print(text, end="")
        return status
    if words == ["--store"]:
        for name, log in cases().items():
            (STORED / f"{name}.txt").write_text(listing(log)[0])
        return 0
    if len(words) != 2 or words[0].startswith("-"):
        print(__doc__, file=sys.stderr, end="")
        return 2
    program, work = Path(words[0]).resolve(), Path(words[1])
    work.mkdir(parents=True, exist_ok=True)
    stored, damaged = test_cases(program, work), test_damage(program, work)
    test_calls(program, work)
    print(f"showlog: {stored} stored listings and {damaged} damaged logs, none failed")
    return 0


sys.exit(main(sys.argv[1:]))
