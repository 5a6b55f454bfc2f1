"""The sound of a log by the original: its frames, its stems, the levels of the stems, and WAV files of them by Python's wave."""
import array
import io
import pathlib
import subprocess
import wave

TOP = pathlib.Path(__file__).resolve().parent.parent
RATE, TENTH = 48000, 4800
STEMS, VOICES = 32, 16


def driver(name):
    build = [TOP / "oracle" / "build", name, "65536"]
    return subprocess.run(build, stdout=subprocess.PIPE, text=True, check=True).stdout.strip()


def stems_of(script, log):
    """The original's stems of a log without a bad line, 32 a frame."""
    lines = ["N,4,65536"]
    for line in log.decode().split("\n"):
        lines.append(f"S,{line[2:]},{STEMS * int(line[2:])}" if line[:1] == "C" else line)
    text = "".join(line + "\n" for line in lines if line)
    printed = subprocess.run([script], input=text.encode(), stdout=subprocess.PIPE, check=True).stdout.decode()
    stems = array.array("h")
    for line in printed.split("\n"):
        if line[:1] == "S":
            stems.extend(map(int, line.split(",")[2:]))
    return stems


def frames_of(printed):
    """The samples of the F lines of a log, left and right in turn."""
    return array.array("h", [int(x) for line in printed.decode().split("\n") if line[:1] == "F" for x in line.split(",")[1:]])


def clamped(x):
    return max(-32768, min(32767, x))


def levels_of(stems):
    """The lines of each tenth of a second, and how many values are over."""
    lines, overs = [], 0
    for first in range(0, len(stems), STEMS * TENTH):
        part = stems[first:first + STEMS * TENTH]
        fields = [len(part) // STEMS]
        for hand in (0, 1):
            side = [sum(part[k + hand:k + STEMS:2]) for k in range(0, len(part), STEMS)]
            over = sum(x != clamped(x) for x in side)
            fields += [max(abs(x) for x in side), sum(x * x for x in side), over]
            overs += over
        fields += [max(abs(x) for k in (2 * ch, 2 * ch + 1) for x in part[k::STEMS]) for ch in range(8)]
        lines.append(fields)
    return lines, overs


def level_lines(levels):
    return "".join("L," + ",".join(map(str, fields)) + "\n" for fields in levels)


def wav_of(samples, channels):
    """A WAV file of some samples, as bytes."""
    made = io.BytesIO()
    with wave.open(made, "wb") as f:
        f.setparams((channels, 2, RATE, 0, "NONE", ""))
        f.writeframes(samples.tobytes())
    return made.getvalue()
