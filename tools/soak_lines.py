"""The lines of the program `soak`, for the tools beside this file: what each block has on them, reals as hex, and runs."""
import struct
import subprocess
from collections import namedtuple
from pathlib import Path

Block = namedtuple("Block", "settings inputs outputs")
Item = namedtuple("Item", "name kind")  # kind: r real, b boolean, c controller type
Run = namedtuple("Run", "name block settings ticks lost")  # ticks: values by name; lost: time, line and answer of other lines
LARGEST = 1e100  # of the reals that are drawn


def items(text):
    """Names in source order; one that is not real has its kind behind a colon."""
    return [Item(*(name + ":r").split(":")[:2]) for name in text.split()]


CONTROLLER = items("controller_type:c k ti td r y_max y_min ni nd xi_start yd_start y_reset reverse_acting:b")
BLOCKS = {
    "Pid": Block(CONTROLLER, items("u_s u_m"), items("y")),
    "PidWithReset": Block(CONTROLLER, items("u_s u_m trigger:b"), items("y")),
    "MovingAverage": Block(items("delta"), items("u"), items("y")),
    "TimerAccumulating": Block(items("t"), items("u:b reset:b"), items("y passed:b")),
    "TrueDelay": Block(items("delay_time delay_on_init:b"), items("u:b"), items("y:b")),
    "TrueFalseHold": Block(items("true_hold_duration false_hold_duration"), items("u:b"), items("y:b")),
    "TrueHoldWithReset": Block(items("duration"), items("u:b clr:b"), items("y:b")),
    "LogicalVariablePulse": Block(items("period delta_u min_true_false_hold"), items("u"), items("y:b")),
}


def hex_of(x):
    """A real as `soak` reads and writes it."""
    return struct.pack(">d", x).hex().upper()


def real_of(text):
    """The real with these bits: sixteen upper-case hex digits."""
    if len(text) != 16 or set(text) - set("0123456789ABCDEF"):
        raise ValueError(f"not a real in hex: {text[:40]!r}")
    return struct.unpack(">d", bytes.fromhex(text))[0]


def written(value):
    """A value as `soak` reads it: a controller type, a boolean or a real."""
    return value if isinstance(value, str) else str(int(value)) if isinstance(value, bool) else hex_of(value)


def line_of(*values):
    """A line with these values, or with a name and settings."""
    return " ".join(map(written, values))


def value_of(kind, text):
    """What an item of a line says."""
    choices = {"b": ("0", "1"), "c": ("P", "PI", "PD", "PID")}
    if kind == "r":
        return real_of(text)
    if text not in choices[kind]:
        raise ValueError(f"not one of {', '.join(choices[kind])}: {text[:40]!r}")
    return text if kind == "c" else text == "1"


def values_of(wanted, texts):
    """What these texts say, by the names of the wanted items."""
    if len(texts) != len(wanted):
        raise ValueError(f"{len(texts)} items in the place of {len(wanted)}")
    return {item.name: value_of(item.kind, text) for item, text in zip(wanted, texts)}


def answers(program, lines):
    """What the program writes for these lines, line by line."""
    text = "\n".join(lines) + "\n"
    return subprocess.run([program], input=text, capture_output=True, text=True, check=True).stdout.splitlines()


# ---- a run, from its two files


class Fault(Exception):
    """Why there is nothing to draw."""


def drawable(x):
    return abs(x) <= LARGEST


def lines_of(path):
    try:
        return Path(path).read_bytes().decode("ascii", "replace").removesuffix("\n").split("\n")
    except OSError as fault:
        raise Fault(f"{path}: {fault.strerror}") from fault


def said(wanted, texts, path, n):
    try:
        return values_of(wanted, texts)
    except ValueError as fault:
        raise Fault(f"{path}, line {n}: {fault}") from fault


def ticks_of(block, asked, answered, paths):
    """The accepted ticks, and what was refused or bad."""
    ticks, lost, refused = [], [], 0
    for n, (line, answer) in enumerate(zip(asked[1:], answered[1:-1]), 2):
        if answer == "bad":
            lost.append((None, n, answer))
            continue
        tick = said([Item("time", "r"), *block.inputs], line.split(" "), paths[0], n)
        if answer.startswith("refused "):
            lost.append((tick["time"] if drawable(tick["time"]) else None, n, answer))
            refused += 1
            continue
        if not drawable(tick["time"]):
            raise Fault(f"{paths[0]}, line {n}: a time that cannot be drawn")
        ticks.append({**tick, **said(block.outputs, answer.split(" "), paths[1], n)})
    counted = f"ticks {len(ticks)} refused {refused}"
    if answered[-1] != counted:
        raise Fault(f"{paths[1]}, line {len(answered)}: {answered[-1][:40]!r}, but its lines are {counted!r}")
    return ticks, placed(lost, ticks)


def placed(lost, ticks):
    """Each with a time: its own, or that between its neighbours among the ticks."""
    times, found = [tick["time"] for tick in ticks], []
    for n, (time, line, answer) in enumerate(lost):
        before = line - 2 - n  # so many ticks
        sides = times[max(before - 1, 0) : before + 1] or [0.0]
        found.append((sum(side / len(sides) for side in sides) if time is None else time, line, answer))
    return found


def run_of(paths):
    """The run of an input and of what was written for it."""
    asked, answered = map(lines_of, paths)
    if answered in (["bad"], ["refused 2"]):
        raise Fault(f"{paths[1]}: only {answered[0]!r}: there is nothing to draw")
    name, *texts = asked[0].split(" ")
    if name not in BLOCKS:
        raise Fault(f"{paths[0]}, line 1: not a block: {name[:40]!r}")
    settings = said(BLOCKS[name].settings, texts, paths[0], 1)
    if answered[0] != f"block {name}":
        raise Fault(f"{paths[1]}, line 1: not 'block {name}': {answered[0][:40]!r}")
    if len(answered) != len(asked) + 1:
        raise Fault(f"{paths[1]}: {len(answered)} lines, where {paths[0]} needs {len(asked) + 1}")
    ticks, lost = ticks_of(BLOCKS[name], asked, answered, paths)
    if not ticks:
        raise Fault(f"{paths[1]}: no accepted tick: there is nothing to draw")
    return Run(Path(paths[0]).stem, name, settings, ticks, lost)
