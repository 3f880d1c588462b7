"""What the scripts here share: a gateway on a spool, senders that keep what they heard, and whether all of that is read."""
import atexit
import itertools
import json
import os
import re
import select
import selectors
import signal
import socket
import subprocess
import sys
import tempfile
import threading
import time

HERE = os.path.dirname(os.path.realpath(__file__))
sys.path[:0] = [os.path.dirname(HERE), f"{HERE}/../peers"]

import frames  # noqa: E402
from counting import TUNABLES  # noqa: E402,F401
from listening import AMQP, is_listened_to  # noqa: E402,F401

MOST_FAULTS = 20  # (of these are printed)


class Link:
    """The one link of a connection, by bytes: what may be sent on it, and what was heard of it."""

    def __init__(self, name, idle=None):
        self.name, self.idle = name, idle
        self.sent = self.limit = self.answered = self.beats = 0
        self.end = None  # (what the other side ended it by, once it has)
        self.rest, self.is_begun = b"", False

    def opening(self):
        """All that comes before the first message."""
        address = f"to/{self.name}".encode()
        opening = frames.opening(self.name.encode(), self.idle)
        return opening + frames.begin(0) + frames.attach(0, 0, f"link-{self.name}".encode(), address)

    def message(self, data):
        """The next delivery."""
        self.sent += 1
        return frames.transfer(0, 0, self.sent - 1, data)

    def hear(self, piece):
        """Takes bytes that came. Returns the deliveries that are accepted by them."""
        come, at, accepted = self.rest + piece, 0, []
        if not self.is_begun and len(come) >= 8:
            self.is_begun, at = True, 8
        while self.is_begun and at + 4 <= len(come):
            size = int.from_bytes(come[at : at + 4], "big")
            if at + size > len(come):
                break
            self.act(come[at : at + size], accepted)
            at += size
        self.rest = come[at:]
        return accepted

    def act(self, frame, accepted):
        if len(frame) <= 8:
            self.beats += 1
        elif frame[10] == 0x13:
            fields = frames.fields_of(frame, 8)
            if len(fields) > 6 and fields[4] is not None:
                self.limit = (fields[5] or 0) + (fields[6] or 0)
        elif frame[10] == 0x15:
            _, first, last, _, state, *_ = *frames.fields_of(frame, 8), None, None, None
            last = first if last is None else last
            self.answered += last + 1 - first
            if state and state[0] == 0x24:
                accepted.extend(range(first, last + 1))
        elif frame[10] in (0x16, 0x17, 0x18):
            self.end = frame


class Sender(threading.Thread):
    """Sends messages, each once, over one connection after the other, and keeps which were accepted. At most `at_once` are unanswered, at
    most `most` are sent, and one each `pause` seconds."""

    def __init__(self, name, port_of, size=100, at_once=1 << 30, most=1 << 30, pause=0.0, idle=None):
        super().__init__(daemon=True)
        self.name, self.port_of, self.size, self.idle = name, port_of, size, idle
        self.at_once, self.most, self.pause = at_once, most, pause
        self.sent, self.accepted, self.deliveries = 0, set(), []
        self.connections, self.heard_at, self.due, self.end = 0, time.monotonic(), 0.0, None
        self.link = Link(name)
        self.is_to_end, self.is_to_leave = threading.Event(), threading.Event()

    def run(self):
        while not self.is_to_leave.is_set() and not self.is_done():
            try:
                with frames.connect(self.port_of()) as peer:
                    self.serve(peer)
            except OSError:
                pass
            time.sleep(0.01)

    def is_done(self):
        """Whether nothing is to be sent any more."""
        return self.is_to_end.is_set() or self.sent >= self.most

    def serve(self, peer):
        """Sends over one connection until that breaks off, or all that was sent is answered and nothing is to follow."""
        peer.setblocking(False)
        self.link = link = Link(self.name, self.idle)
        out, serials, is_counted = link.opening(), [], False
        while not self.is_to_leave.is_set() and not link.end:
            if self.is_done() and link.answered == link.sent and not out:
                peer.setblocking(True)
                peer.sendall(frames.CLOSE)
                return
            out += b"".join(self.messages(link, serials))
            come, may_go, _ = select.select([peer], [peer] if out else [], [], 0.02)
            if may_go:
                out = out[peer.send(out) :]
            if come:
                piece = peer.recv(1 << 16)
                if not piece:
                    return
                self.keep([serials[delivery] for delivery in link.hear(piece)])
                self.connections += link.limit > 0 and not is_counted
                is_counted = is_counted or link.limit > 0
        self.end = link.end or self.end

    def messages(self, link, serials):
        """The messages that may go now."""
        room = min(link.limit, link.answered + self.at_once) - link.sent
        if self.is_to_end.is_set() or room <= 0 or time.monotonic() < self.due:
            return
        for _ in range(1 if self.pause else min(room, self.most - self.sent)):
            serials.append(self.sent)
            self.deliveries.append(link.sent)
            yield link.message(f"{self.name} {self.sent} ".encode().ljust(self.size, b"."))
            self.sent += 1
        self.due = time.monotonic() + self.pause

    def keep(self, serials):
        if serials:
            self.accepted.update(serials)
            self.heard_at = time.monotonic()

    def is_stalled(self):
        """Whether its credit is used up, and all that it sent is accepted."""
        return self.link.limit == self.link.sent == self.link.answered > 0


def finish(senders, seconds=10):
    """Has senders end once they have heard of all that they sent, but after so many seconds whatever they heard."""
    for sender in senders:
        sender.is_to_end.set()
    until = time.monotonic() + seconds
    for sender in senders:
        sender.join(max(0.0, until - time.monotonic()))
        sender.is_to_leave.set()
    for sender in senders:
        sender.join()


def send_all(port, names, count, size):
    """Sends so many messages on a connection of each name, and returns once all are accepted and closed."""
    sockets, data = selectors.DefaultSelector(), b"a" * size
    for name in names:
        link, peer = Link(name), frames.connect(port)
        peer.sendall(link.opening())
        sockets.register(peer, selectors.EVENT_READ, link)
    while sockets.get_map():
        ready = sockets.select(60)
        if not ready:
            sys.exit("a gateway says nothing for a minute")
        for key, _ in ready:
            peer, link = key.fileobj, key.data
            was_done = link.answered == count
            piece = peer.recv(1 << 16)
            if not piece:
                sockets.unregister(peer)
                peer.close()
                if not was_done:
                    sys.exit(f"a gateway left {key.data.name}")
                continue
            link.hear(piece)
            room = min(link.limit, count) - link.sent
            if room > 0:
                peer.sendall(b"".join(link.message(data) for _ in range(room)))
            if link.answered == count and not was_done:
                peer.sendall(frames.CLOSE)


def free_port():
    with socket.socket() as one:
        one.bind(("127.0.0.1", 0))
        return one.getsockname()[1]


class Gateway:
    """A gateway that runs, maybe under a program such as strace."""

    def __init__(self, amqp, words, before=()):
        self.port = free_port()
        self.errors = tempfile.TemporaryFile()
        self.words = [*before, amqp, "gateway", "--listen", f"127.0.0.1:{self.port}", *words]
        self.begun = time.monotonic()
        self.process = subprocess.Popen(self.words, stdin=subprocess.DEVNULL, stdout=subprocess.DEVNULL, stderr=self.errors)
        atexit.register(self.end)

    def listens(self, seconds=20):
        """Waits until it listens. Returns whether it does, before it ends and within so many seconds."""
        until = time.monotonic() + seconds
        while not is_listened_to(self.port):
            if self.process.poll() is not None or time.monotonic() > until:
                return False
            time.sleep(0.002)
        return True

    def served(self):
        """The seconds since it was started, once the open of a peer is answered."""
        while True:
            try:
                with frames.connect(self.port) as peer:
                    peer.sendall(frames.OPEN)
                    if peer.recv(8):
                        return time.monotonic() - self.begun
            except OSError:
                pass
            if self.process.poll() is not None:
                sys.exit(f"{' '.join(self.words)}: {self.said()}")
            time.sleep(0.001)

    def pid(self):
        """The process that has no child: the gateway itself."""
        pid = self.process.pid
        while True:
            try:
                with open(f"/proc/{pid}/task/{pid}/children", encoding="ascii") as children:
                    below = children.read().split()
            except OSError:
                return pid
            if not below:
                return pid
            pid = int(below[0])

    def end(self, how=signal.SIGKILL):
        """Ends it by a signal, unless it has ended. Returns its status."""
        if self.process.poll() is None:
            try:
                os.kill(self.pid(), how)
            except ProcessLookupError:
                pass
        atexit.unregister(self.end)
        return self.process.wait(20)

    def said(self):
        """What it wrote to standard error so far."""
        size = os.fstat(self.errors.fileno()).st_size
        return os.pread(self.errors.fileno(), size, 0).decode(errors="replace")


def files_of(folder):
    """The files of a directory, each with its bytes."""
    found = {}
    for name in os.listdir(folder) if os.path.isdir(folder) else []:
        try:
            found[name] = os.stat(f"{folder}/{name}").st_size
        except FileNotFoundError:
            pass  # it was renamed or removed
    return found


class Gauge(threading.Thread):
    """Looks again and again at how many bytes the files of a directory have together."""

    def __init__(self, folder):
        super().__init__(daemon=True)
        self.folder, self.most, self.is_over = folder, 0, threading.Event()
        self.start()

    def run(self):
        while not self.is_over.wait(0.01):
            self.most = max(self.most, sum(files_of(self.folder).values()))

    def over(self):
        """Returns the most that it saw."""
        self.is_over.set()
        self.join()
        return self.most


def records(amqp, folder, after=0):
    """The lines of a spool's records after a number, as objects, and what is wrong with how they were printed."""
    words = [amqp, "records", "--spool", folder, "--json", *(["--after", str(after)] if after else [])]
    done = subprocess.run(words, stdin=subprocess.DEVNULL, capture_output=True, timeout=600)
    wrong = []
    if done.returncode or done.stderr:
        wrong.append(f"{' '.join(words)}: status {done.returncode}: {done.stderr.decode(errors='replace').strip()}")
    try:
        return [json.loads(line) for line in done.stdout.splitlines()], wrong
    except ValueError as error:
        return [], [*wrong, f"{' '.join(words)}: {error}"]


def message_of(line):
    """The sender and the serial number that a message names, or None."""
    found = re.match(r"(\S+) (\d+) \.*$", line.get("data", "")) if isinstance(line.get("data"), str) else None
    return (found[1], int(found[2])) if found else None


def check(lines, senders):
    """What is wrong with the records of a spool, as sentences: numbers rise by 1, each message is there that a sender heard `accepted` for,
    under one number, and those of a sender are in the order in which it sent them, with its names."""
    wrong, following = [], itertools.count(1)
    of, seen = {sender.name: sender for sender in senders}, {sender.name: [] for sender in senders}
    for line in lines:
        if "gap" in line:
            wrong.append(f"there is a gap: {line['gap']}")
            following = itertools.count(line["gap"]["to"] + 1)
            continue
        number, due, message = line["number"], next(following), message_of(line)
        if number != due:
            wrong.append(f"number {number} stands where {due} is due")
            following = itertools.count(number + 1)
        if message is None or message[0] not in of or message[1] >= of[message[0]].sent:
            wrong.append(f"number {number} was sent by nobody: {str(line)[:200]}")
            continue
        name, serial = message
        if seen[name] and serial <= seen[name][-1]:
            wrong.append(f"number {number}: message {serial} of {name} comes after its message {seen[name][-1]}")
        seen[name].append(serial)
        wrong += [f"number {number}, of {name}: {fault}" for fault in misnamed(line, of[name], serial)]
    for sender in senders:
        lost = sender.accepted - set(seen[sender.name])
        if lost:
            wrong.append(f"{len(lost)} messages of {sender.name} that were accepted are not there: {sorted(lost)[:5]} ..")
    return wrong


def misnamed(line, sender, serial):
    """What a line says otherwise than its sender did."""
    tag = sender.deliveries[serial].to_bytes(4, "big")
    names = {"container": sender.name, "link": f"link-{sender.name}", "address": f"to/{sender.name}", "user": None}
    wrong = [f"{member} is {line.get(member)!r}" for member, name in names.items() if line.get(member) != name]
    if line.get("tag") != tag.hex():
        wrong.append(f"tag is {line.get('tag')!r}, and not {tag.hex()}")
    return wrong


def row(*cells):
    """Prints a row of a table."""
    print("| " + " | ".join(map(str, cells)) + " |", flush=True)


def head(*names):
    """Prints the head of a table."""
    row(*names)
    print("|---" * len(names) + "|", flush=True)


def verdict(wrong, kept):
    """Prints how it went. Ends with status 1 if something is wrong."""
    for fault in wrong[:MOST_FAULTS]:
        print(f"breach: {fault}")
    if len(wrong) > MOST_FAULTS:
        print(f"breach: and {len(wrong) - MOST_FAULTS} more")
    if wrong:
        sys.exit(1)
    print(kept)


def told_of(senders):
    """How many messages were accepted."""
    return sum(len(sender.accepted) for sender in senders)


def program():
    """The program of the command line."""
    if len(sys.argv) > 2:
        sys.exit(f"usage: {sys.argv[0]} [AMQP]")
    return os.path.abspath(sys.argv[1]) if len(sys.argv) == 2 else AMQP
