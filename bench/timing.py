"""What `run`, `against` and `parts` share: the list of workloads, and a turn of one."""
import os
import subprocess
import sys
import time

HERE = os.path.dirname(os.path.realpath(__file__))


def workloads():
    """The lines of workloads.txt: a name, a crate, its words."""
    with open(f"{HERE}/workloads.txt", encoding="utf-8") as lines:
        for line in lines:
            words = line.split("#")[0].split()
            if words:
                yield words[0], words[1], words[2:]


def program(checkout, crate):
    """Where `rt run` puts a program."""
    return os.path.realpath(f"{checkout}/crates/{crate}/out/{crate}")


def seeded(words, seed):
    """The words with a number in the place of SEED."""
    return [str(seed) if word == "SEED" else word for word in words]


def seed_of(text):
    """A seed that was given on the command line."""
    if not text.isdecimal() or int(text) >= 1 << 32:
        sys.exit("SEED is a number below 2^32")
    return int(text)


def turn(path, words):
    """Runs a program once, in the folder bench/. Its seconds by the clock, those of its own (user), and its output."""
    given = subprocess.DEVNULL
    if words and words[-1].startswith("<"):
        given = open(f"{HERE}/{words[-1][1:]}", "rb")
        words = words[:-1]
    before = os.times().children_user
    begun = time.perf_counter()
    ran = subprocess.run([path, *words], cwd=HERE, stdin=given, stdout=subprocess.PIPE, stderr=subprocess.PIPE)
    seconds = time.perf_counter() - begun
    if ran.returncode:
        sys.exit(f"{path} {' '.join(words)}: status {ran.returncode}: {ran.stderr.decode(errors='replace')[-300:]}")
    return seconds, os.times().children_user - before, ran.stdout


def by_turns(name, paths, words, turns):
    """The seconds by the clock of each of some programs, run by turns, the first one first in every other turn. Stops where what
    they print differs."""
    times = [[] for _ in paths]
    outputs = set()
    for number in range(turns):
        order = list(enumerate(paths))
        for index, path in order if number % 2 == 0 else reversed(order):
            seconds, _, output = turn(path, words)
            times[index].append(seconds)
            outputs.add(output)
    if len(outputs) > 1:
        sys.exit(f"{name}: the outputs differ")
    return times
