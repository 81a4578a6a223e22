"""Frames, and the two sides that answer them: the Rust and ours."""

import itertools
import os
import shlex
import struct
import subprocess
from pathlib import Path

ROOT = Path(__file__).resolve().parents[2]
TARGET = ROOT / "target" / "oracle"

# The first byte of a frame of `replay`.
LETTERS = {"unfold": b"u", "key": b"k", "keyseq": b"s", "param": b"p", "params": b"P",
           "fold": b"f", "quote": b"q", "read": b"r", "write": b"w", "readwrite": b"W",
           "escape": b"e", "unescape": b"t", "strict": b"T", "foldstrict": b"F"}


class Failed(Exception):
    pass


def frame(part, case):
    body = LETTERS[part] + case
    return struct.pack("<I", len(body)) + body


def batches(things, size):
    """Lists of at most so many: no run holds them all, and a program may take a bounded number."""
    things = iter(things)
    while batch := list(itertools.islice(things, size)):
        yield batch


# ---------------------------------------------------------------- the programs

def rust():
    program = TARGET / "oracle"
    if not program.is_file():
        raise Failed("the Rust is not built: run oracle/build PATH")
    return [program, "replay"]


def ours():
    """The command in ORACLE_OURS; else the built crate `replay`."""
    if os.environ.get("ORACLE_OURS"):
        return shlex.split(os.environ["ORACLE_OURS"])
    program = ROOT / "crates" / "replay" / "out" / "replay"
    if not program.is_file():
        raise Failed("our side is not built: run rt run </dev/null in crates/replay, or set ORACLE_OURS to a command")
    return [program]


def answers(command, frames):
    """One line for each frame, without its LF."""
    try:
        ran = subprocess.run(command, input=b"".join(frames), stdout=subprocess.PIPE)
    except OSError as e:
        raise Failed(f"{command[0]}: {e.strerror}")
    *lines, rest = ran.stdout.split(b"\n")
    if ran.returncode or rest or len(lines) != len(frames):
        raise Failed(f"{Path(command[0]).name} ended with status {ran.returncode}; of {len(frames)} frames it answered {len(lines)}")
    return lines
