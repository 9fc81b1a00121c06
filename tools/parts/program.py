"""The built program: where it is, whether it is newer than what it is made of, and what it answers."""
from __future__ import annotations

import os
import selectors
import subprocess
import tempfile
import time
from dataclasses import dataclass
from pathlib import Path

TOP = Path(__file__).resolve().parents[2]
PROGRAM = TOP / "crates/icq/out/icq"
SECONDS = 20.0
ROOM = 1 << 20  # how many bytes more than are wanted are read before the program is stopped


@dataclass
class Asked:
    """What the program answered: its status, its output, its standard error, and why it was stopped, if it was."""

    status: int
    output: bytes
    error: bytes
    stopped: str | None = None


def sources() -> list[Path]:
    found = [TOP / "crates.txt"]
    for at, folders, files in os.walk(TOP / "crates"):
        folders[:] = [folder for folder in folders if folder not in ("out", "__pycache__")]
        found += [Path(at) / name for name in files if name.endswith((".rt", ".antt"))]
    return found


def unfit() -> str | None:
    """Why the built program can't be tried, with what to do; None if it can."""
    name = PROGRAM.relative_to(TOP)
    if not os.access(PROGRAM, os.X_OK):
        return f"there is no program {name}: build it by ./icq, or by rt ci"
    newest = max(sources(), key=lambda path: path.stat().st_mtime)
    if newest.stat().st_mtime > PROGRAM.stat().st_mtime:
        return f"the program {name} is older than {newest.relative_to(TOP)}: build it anew by ./icq, or by rt ci"
    return None


def ask(program: Path, words: list[str], source: bytes, wanted: int = 0, seconds: float = SECONDS) -> Asked:
    """Runs the program on these words and this input. It is stopped if it takes longer, or writes much more than is wanted."""
    with tempfile.TemporaryFile() as given:
        given.write(source)
        given.seek(0)
        try:
            run = subprocess.Popen([str(program), *words], stdin=given, stdout=subprocess.PIPE, stderr=subprocess.PIPE)
        except OSError as fault:
            return Asked(-1, b"", b"", f"couldn't be run: {fault}")
    with run, selectors.DefaultSelector() as selector:
        read = {run.stdout: bytearray(), run.stderr: bytearray()}
        for stream in read:
            selector.register(stream, selectors.EVENT_READ)
        end = time.monotonic() + seconds
        stopped = None
        while selector.get_map() and stopped is None:
            for key, _ in selector.select(max(0.0, end - time.monotonic())):
                piece = os.read(key.fd, 1 << 16)
                read[key.fileobj] += piece
                if not piece:
                    selector.unregister(key.fileobj)
            if len(read[run.stdout]) > wanted + ROOM or len(read[run.stderr]) > ROOM:
                stopped = "wrote without an end"
            elif time.monotonic() > end:
                stopped = f"gave no whole answer within {seconds:g} seconds"
        if stopped is None:
            try:
                run.wait(max(0.1, end - time.monotonic()))
            except subprocess.TimeoutExpired:
                stopped = f"didn't end within {seconds:g} seconds"
        if stopped is not None:
            run.kill()
    return Asked(run.returncode, bytes(read[run.stdout]), bytes(read[run.stderr]), stopped)
