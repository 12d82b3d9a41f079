"""Instructions of one call, and the jumps that the library takes in it, counted by valgrind's callgrind: figures that do not depend on what else the
machine does, so that a kit that compiles worse is seen."""
import os
import re
import shutil
import subprocess
import tempfile

CALLS = 10
FUNCTIONS = {"pack": "curlew_pack", "read": "curlew_read"}
TOTAL = re.compile(r"^(?:summary|totals): (\d+)", re.M)
NAMED = re.compile(r"^(c?fn)=\((\d+)\)(?: (.*))?")
JUMP = re.compile(r"^(?:jump=(\d+)|jcnd=(\d+)/)")
OURS = re.compile(r"^curlew_|::")


def available():
    return shutil.which("valgrind") is not None


def taken_jumps(lines):
    """The jumps taken in the library's functions. (Callgrind counts those of all others too, also outside of a call.)"""
    names, here, jumps = {}, "", 0
    for line in lines:
        named = NAMED.match(line)
        if named:
            if named[3]:
                names[named[2]] = named[3]
            if named[1] == "fn":
                here = names[named[2]]
        jump = JUMP.match(line)
        if jump and OURS.search(here):
            jumps += int(jump[1] or jump[2])
    return jumps


def count(program, work, call):
    """Instructions and taken jumps of one call of ours on a workload."""
    orders = "\n".join([*work.lines(), f"time ours {work.name} {call} {CALLS}"]) + "\n"
    with tempfile.TemporaryDirectory() as folder:
        kept = os.path.join(folder, "counts")
        subprocess.run(["valgrind", "--tool=callgrind", "--collect-jumps=yes", "--dump-instr=yes",
                        f"--toggle-collect={FUNCTIONS[call]}", f"--callgrind-out-file={kept}", program],
                       input=orders, text=True, check=True, stdout=subprocess.DEVNULL, stderr=subprocess.DEVNULL,
                       env={**os.environ, "LD_BIND_NOW": "1"})
        with open(kept, encoding="utf-8") as file:
            text = file.read()
    return int(TOTAL.search(text).group(1)) // CALLS, taken_jumps(text.splitlines()) // CALLS
