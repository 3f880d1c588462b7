"""What `instructions` and `functions` share: a run of `bench_functions` under valgrind, and how many rounds take long enough."""
import os
import re
import subprocess
import sys

TUNABLES = "glibc.cpu.x86_rep_movsb_threshold=1000000000:glibc.cpu.x86_rep_stosb_threshold=1000000000"
ENOUGH = 20_000_000


def counted(path, words, out=os.devnull):
    """The instructions of one run, what valgrind writes of it going to `out`, and how many rounds or messages it counted."""
    valgrind = ["valgrind", "--tool=callgrind", "--compress-strings=no", f"--callgrind-out-file={out}", path, *words]
    done = subprocess.run(valgrind, env=os.environ | {"GLIBC_TUNABLES": TUNABLES}, capture_output=True, text=True)
    found = re.search(r"Collected : (\d+)", done.stderr)
    if done.returncode or not found:
        sys.exit(f"{' '.join(words)}: {done.stderr}")
    came = re.search(r" (?:rounds|messages)=(\d+)", done.stdout)
    return int(found[1]), int(came[1])


def rounds_of(path, group, case):
    """How many rounds take long enough: of few rounds first."""
    few = counted(path, [group, case, "16"])[0] - counted(path, [group, case, "8"])[0]
    return max(8, min(512, ENOUGH * 8 // max(few, 1)))
