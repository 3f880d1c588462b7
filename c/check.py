#!/usr/bin/env python3
"""All tests that need a C compiler and Python: run by `make check`, which builds what they need.

    check.py BUILD

Each line tells of one test. The last line is 'N passed, M failed, K not run'. What a test needs beside a C compiler and Python 3.9:
valgrind for its two, the packages python3-qpid-proton and libqpid-proton for those with a stock sender, and the openssl command for
those over TLS (Debian: valgrind, python3-qpid-proton, openssl, libssl-dev); where it is not there the test is not run, and says so.
"""

from __future__ import annotations

import os
import re
import shutil
import subprocess
import sys
import tempfile
import time
from pathlib import Path

HERE = Path(__file__).resolve().parent
ROOT = HERE.parent
BUILD = Path(sys.argv[1]).resolve() if len(sys.argv) > 1 else HERE / "build"
PYTHON = ROOT / "python"
RECEIVE = ROOT / "crates" / "example_receive"
SHOP = RECEIVE / "data" / "shop.amqp"
SPOOLS = ROOT / "crates" / "test_spool_records" / "data" / "spools.rows"
STREAMS = sorted((ROOT / "crates" / "test_layer_rows" / "data").glob("*.amqp"))
SECONDS = 300
ENDS = ("", "Failed", "Closed", "Inside", "Between")  # as tests/receive.c prints them
ENVIRONMENT = {**os.environ, "WULESHOMIA_LIBRARY": str(BUILD / "libwuleshomia.so"), "PYTHONPATH": str(PYTHON / "src"), "PYTHONDONTWRITEBYTECODE": "1"}
PROTON_PYTHON = next((p for p in (sys.executable, "/usr/bin/python3") if subprocess.run([p, "-c", "import proton"], capture_output=True).returncode == 0), None)

passed: list[str] = []
failed: list[str] = []
not_run: list[str] = []


class Missing(Exception):
    """What a test needs is not there."""


def test(name: str):
    def runs(body):
        began = time.monotonic()
        try:
            note = body()
        except Missing as missing:
            not_run.append(name)
            print(f"not run  {name}: {missing}", flush=True)
        except (AssertionError, subprocess.SubprocessError, OSError) as wrong:
            failed.append(name)
            print(f"FAILED   {name}: {wrong}", flush=True)
        else:
            passed.append(name)
            print(f"ok       {name} ({time.monotonic() - began:.1f} s){': ' + note if note else ''}", flush=True)
        return body

    return runs


def output_of(*words: object, status: int = 0) -> bytes:
    done = subprocess.run([str(w) for w in words], env=ENVIRONMENT, capture_output=True, timeout=SECONDS)
    assert done.returncode == status, f"{words[0]}: status {done.returncode}: {(done.stdout + done.stderr)[-2000:].decode(errors='replace')}"
    return done.stdout


def needs(command: str) -> str:
    found = shutil.which(command)
    if not found:
        raise Missing(f"there is no {command}")
    return found


@test("the exports, the header and Python agree; planted changes are found")
def _() -> str:
    output_of(sys.executable, HERE / "abi.py")
    return output_of(sys.executable, HERE / "abi.py", "--plant").decode().strip()


@test("the header compiles as C99 and as C++11")
def _() -> None:
    with tempfile.TemporaryDirectory() as folder:
        for compiler, standard, suffix in ((os.environ.get("CC", "cc"), "c99", "c"), (os.environ.get("CXX", "c++"), "c++11", "cc")):
            needs(compiler)
            source = Path(folder) / f"header.{suffix}"
            source.write_text('#include "wuleshomia.h"\n#include "wuleshomia.h"\nint main(void) { wule_endpoint e = WULE_ENDPOINT_INIT; wule_free(&e); return 0; }\n')
            output_of(compiler, f"-std={standard}", "-Wall", "-Wextra", "-Wpedantic", "-Werror", f"-I{HERE}", source, BUILD / "libwuleshomia.a", "-o", Path(folder) / "header")
            output_of(Path(folder) / "header")


@test("the archive asks for nothing but what is listed, and the library exports the calls alone")
def _() -> str:
    undefined = {line.split()[-1] for line in output_of("nm", "-u", ROOT / "crates/wuleshomia/out/libwuleshomia.a").decode().splitlines() if " U " in line}
    defined = {line.split()[-1] for line in output_of("nm", "--defined-only", ROOT / "crates/wuleshomia/out/libwuleshomia.a").decode().splitlines() if len(line.split()) == 3}
    asked = undefined - defined
    listed = (ROOT / "README.md").read_text().split("the archive asks for these names alone")[1].split("\n\n")[0]
    named = set(re.findall(r"`(\w+)`", listed)) - {"malloc", "realloc", "free"}
    assert asked == named, f"it asks for {sorted(asked)}, and README lists {sorted(named)}"
    names = {line.split()[-1].split("@")[0] for line in output_of("nm", "-D", "--defined-only", BUILD / "libwuleshomia.so").decode().splitlines() if " T " in line}
    header = {line.split(":")[0].split()[1] for line in (HERE / "abi.txt").read_text().splitlines() if line.startswith("function")}
    assert names == header, f"{sorted(names ^ header)}"
    return f"asks for {', '.join(sorted(asked))}"


@test("the twins print what crates/example_receive prints, in every cutting from 1 to 64 bytes and whole")
def _() -> None:
    wanted = (RECEIVE / "stdout").read_bytes()
    for piece in (*range(1, 65), 1 << 20):
        for twin in ([BUILD / "receive"], [sys.executable, PYTHON / "tests/receive.py"]):
            assert output_of(*twin, SHOP, piece) == wanted, f"{twin[-1]} in pieces of {piece}"


@test("each call is refused as it is to be, and each request for memory")
def _() -> str:
    return output_of(BUILD / "misuse", SHOP).decode().strip()


@test("the same under AddressSanitizer and UBSan")
def _() -> str:
    return output_of(BUILD / "misuse-asan", SHOP).decode().strip()


@test("the same under valgrind")
def _() -> str:
    return output_of(needs("valgrind"), "--quiet", "--error-exitcode=9", "--leak-check=full", BUILD / "misuse", SHOP).decode().strip()


@test("a whole session under valgrind")
def _() -> None:
    output_of(needs("valgrind"), "--quiet", "--error-exitcode=9", "--leak-check=full", BUILD / "receive", SHOP, 7)


@test("calls.c hands on what it was handed, and never NULL")
def _() -> None:
    output_of(BUILD / "handed")


@test("NULL is no bytes with the length 0, and refused with another, by a pointer to each call and by its name")
def _() -> None:
    calls = {line.split(":")[0].split("wule_")[1] for line in (HERE / "abi.txt").read_text().splitlines() if line.startswith("function")}
    tried = set(re.findall(r"X\((\w+)\)", (HERE / "tests/nulls.c").read_text())) - {"X"}
    assert tried == calls, f"{sorted(tried ^ calls)}"
    output_of(BUILD / "nulls", SHOP)
    output_of(BUILD / "nulls-by-name", SHOP, BUILD / "libwuleshomia.so")


@test("the same by a pointer, under valgrind")
def _() -> None:
    output_of(needs("valgrind"), "--quiet", "--error-exitcode=9", "--leak-check=full", BUILD / "nulls", SHOP)


@test("Python refuses wrong types and ranges, what was freed, and a second thread")
def _() -> str:
    done = subprocess.run([sys.executable, PYTHON / "tests/misuse.py", SHOP], env=ENVIRONMENT, capture_output=True, timeout=SECONDS)
    assert done.returncode == 0, done.stderr[-2000:].decode()
    return done.stderr.decode().strip().splitlines()[-3]


@test("Python's protocol takes and refuses links, and rejects messages")
def _() -> str:
    done = subprocess.run([sys.executable, PYTHON / "tests/protocol.py"], env=ENVIRONMENT, capture_output=True, timeout=SECONDS)
    assert done.returncode == 0, done.stderr[-2000:].decode()
    return done.stderr.decode().strip().splitlines()[-3]


@test("Python reads spools as rows of a model say, follows them, and acknowledges")
def _() -> str:
    done = subprocess.run([sys.executable, PYTHON / "tests/spools.py", SPOOLS], env=ENVIRONMENT, capture_output=True, timeout=SECONDS)
    assert done.returncode == 0, done.stderr[-2000:].decode()
    return done.stderr.decode().strip().splitlines()[-3]


@test("the reader of a segment in the header reads what counts, and no more")
def _() -> None:
    segment = bytes.fromhex(re.search(r"^@BYTES_AC = (\w+)$", SPOOLS.read_text(), re.M)[1])
    bodies = ["005375a003736978", "005375a005736576656e", "005377a00568656c6c6f", "005375a000", "005377a108614756736247383d"]
    lines = [f"{number} {body}\n" for number, body in enumerate(bodies, 8)]
    with tempfile.TemporaryDirectory() as folder:
        path = Path(folder) / "segment"
        path.write_bytes(segment + bytes(40))
        for counted, status, count in ((471, 0, 5), (316, 0, 3), (80, 0, 0), (79, 1, 0), (470, 1, 3), (472, 1, 5)):
            assert output_of(BUILD / "programs", "read", path, counted, status=status).decode() == "".join(lines[:count]), counted


@test("the calls take at most 16 KiB of stack")
def _() -> str:
    return output_of(BUILD / "stack", SHOP).decode().strip()


def served(stream: Path, *words: object) -> tuple[bytes, bytes]:
    with tempfile.TemporaryDirectory() as folder:
        records, answers = Path(folder) / "records", Path(folder) / "answers"
        output_of(BUILD / "serve", stream, records, answers, *words)
        return records.read_bytes(), answers.read_bytes()


def records_in(data: bytes) -> list[bytes]:
    found, at = [], 0
    while at < len(data):
        size = int.from_bytes(data[at + 14 : at + 18], "big")
        found.append(data[at + 18 : at + 18 + size])
        at += 18 + size
    return found


@test("steps come to the same however the stream is cut")
def _() -> None:
    whole = served(SHOP)
    for piece in (1, 2, 3, 7, 13, 64):
        assert served(SHOP, piece) == whole, f"in pieces of {piece}"


def answered(stream: Path) -> bytes:
    """What the calls of the header's receiver answer to a stream, by Python."""
    script = """
import sys
from wuleshomia import Attached, Endpoint, Ready
endpoint, answers = Endpoint("gateway"), b""
for event in endpoint.feed(open(sys.argv[1], "rb").read()):
    if isinstance(event, Attached):
        endpoint.top_up(event.channel, 16, 2048)
    elif isinstance(event, Ready):
        message = endpoint.take(event.channel, event.handle)
        if not message.settled:
            endpoint.settle(event.channel, message.id)
        endpoint.top_up(event.channel, 16, 2048)
    answers += endpoint.output()
sys.stdout.buffer.write(answers + endpoint.output())
"""
    return output_of(sys.executable, "-c", script, stream)


@test("the programs of the header run over a socket, also with each request for memory refused")
def _() -> str:
    told = []
    for stream in (SHOP, *STREAMS):
        records, answers = served(stream, 1 << 24, 16, "gateway")
        end = output_of(BUILD / "receive", stream).decode().split()[-1]
        with tempfile.TemporaryDirectory() as folder:
            up, out = Path(folder) / "up", Path(folder) / "out"
            for program, wanted in (("receive", b"".join(records_in(records))), ("serve", records)):
                line = output_of(BUILD / "programs", program, stream, up, out).decode().strip()
                whole = output_of(BUILD / "programs", program, stream, up, out, "whole").decode().strip()
                assert up.read_bytes() == wanted, f"{program}, {stream.name}"
                assert out.read_bytes() == (answers if program == "serve" else answered(stream)), f"answers to {stream.name}"
                assert whole == f"end {ENDS.index(end)}", f"{program}, {stream.name}: {whole}, not {end}"
                told.append(line)
    return told[0]


def free_port() -> int:
    import socket

    with socket.socket() as s:
        s.bind(("127.0.0.1", 0))
        return int(s.getsockname()[1])


def spoken_to(port: int, data: bytes) -> bytes:
    """What is answered to these bytes; tried for 20 seconds until something listens."""
    import socket

    for _ in range(200):
        try:
            with socket.create_connection(("127.0.0.1", port), 20) as s:
                s.sendall(data)
                s.shutdown(socket.SHUT_WR)
                answers = bytearray()
                while some := s.recv(65536):
                    answers += some
                return bytes(answers)
        except ConnectionRefusedError:
            time.sleep(0.1)
    raise AssertionError(f"nothing listens on {port}")


@test("streams of real peers come to the same in C and Python, whole and in pieces, and by steps")
def _() -> str:
    messages = 0
    for stream in STREAMS:
        wanted = output_of(BUILD / "receive", stream)
        for piece in (1, 7, 13, 64):
            assert output_of(BUILD / "receive", stream, piece) == wanted, f"{stream.name} in pieces of {piece}"
        assert output_of(sys.executable, PYTHON / "tests/receive.py", stream) == wanted, f"{stream.name} in Python"
        lines = [line for line in wanted.decode().splitlines() if " bytes, " in line]
        records = records_in(served(stream)[0])
        assert [len(body) for body in records] == [int(line.split(": ")[1].split(" ")[0]) for line in lines], stream.name
        messages += len(records)
    return f"{len(STREAMS)} streams, {messages} messages"


@test("steps record what `amqp recv` records, and write what it writes")
def _() -> None:
    program = ROOT / "crates/amqp/out/amqp"
    if not program.exists():
        raise Missing("there is no crates/amqp/out/amqp (./amqp --version builds it)")
    for stream in (SHOP, *STREAMS):
        port = free_port()
        with subprocess.Popen([program, "recv", "--listen", f"127.0.0.1:{port}"], stdout=subprocess.PIPE, stderr=subprocess.DEVNULL) as recv:
            answers = spoken_to(port, stream.read_bytes())
            records, _ = recv.communicate(timeout=60)
        assert (records, answers) == served(stream), stream.name


# ---- a program beside, over a socket


class Host:
    """A host that serves, and what it printed."""

    def __init__(self, *words: object) -> None:
        self._process = subprocess.Popen([str(w) for w in words], env=ENVIRONMENT, stdout=subprocess.PIPE, stderr=subprocess.PIPE)

    def __enter__(self) -> Host:
        return self

    def __exit__(self, *exc: object) -> None:
        if self._process.poll() is None:
            self._process.terminate()
        self._process.wait(10)

    def printed(self) -> bytes:
        out, err = self._process.communicate(timeout=60)
        assert self._process.returncode == 0, err.decode()
        return out


def wait_for(port: int) -> None:
    """Until something listens there, for 20 seconds at most; the connection that tries it counts as one."""
    import socket

    for _ in range(200):
        try:
            socket.create_connection(("127.0.0.1", port), 1).close()
            return
        except OSError:
            time.sleep(0.1)
    raise AssertionError(f"nothing listens on {port}")


def send(url: str, count: int, size: int, *address: str) -> str:
    if not PROTON_PYTHON:
        raise Missing("there is no python3-qpid-proton")
    done = subprocess.run([PROTON_PYTHON, HERE / "tests/proton_send.py", url, str(count), str(size), *address], capture_output=True, timeout=60)
    assert done.returncode == 0, done.stderr[-2000:].decode()
    return done.stdout.decode().strip()


def certificate(folder: str) -> tuple[str, str]:
    cert, key = f"{folder}/cert.pem", f"{folder}/key.pem"
    command = [needs("openssl"), "req", "-x509", "-newkey", "rsa:2048", "-nodes", "-days", "2", "-subj", "/CN=localhost", "-addext", "subjectAltName=DNS:localhost,IP:127.0.0.1", "-keyout", key, "-out", cert]
    subprocess.run(command, check=True, capture_output=True, timeout=60)
    return cert, key


def hosts(folder: str | None) -> list[tuple[str, list[object]]]:
    """Both hosts, that end after two connections: one that waits until they listen, and the sender's."""
    port = str(free_port())
    if folder is None:
        return [(port, [BUILD / "gateway", port, 2]), (port, [sys.executable, PYTHON / "examples/gateway.py", port, "--connections", 2])]
    cert, key = certificate(folder)
    return [
        (port, [BUILD / "gateway-tls", port, cert, key, 2]),
        (port, [sys.executable, PYTHON / "examples/gateway.py", port, "--tls", cert, key, "--connections", 2]),
    ]


@test("a stock Proton sender to both hosts: all is accepted, and the connection closed")
def _() -> None:
    for port, words in hosts(None):
        with Host(*words) as host:
            wait_for(int(port))
            assert send(f"amqp://127.0.0.1:{port}/queue", 500, 100) == "accepted 500", words[0]
            lines = host.printed().decode().splitlines()
            assert any(line.startswith("closed, 500 messages, ") for line in lines), lines


@test("the same over TLS")
def _() -> None:
    if not (BUILD / "gateway-tls").exists():
        raise Missing("gateway-tls was not built (make build/gateway-tls needs OpenSSL's header)")
    with tempfile.TemporaryDirectory() as folder:
        for port, words in hosts(folder):
            with Host(*words) as host:
                time.sleep(1.0)
                wait_for(int(port))
                assert send(f"amqps://127.0.0.1:{port}/queue", 500, 100) == "accepted 500", words[0]


@test("a stock Proton sender hears why its link is refused, and why a message is rejected")
def _() -> None:
    for size, address, heard in ((9, "nowhere", "refused amqp:not-found no such address"), (0, "orders", "rejected amqp:decode-error the message is empty")):
        for port, words in hosts(None):
            with Host(*words) as host:
                wait_for(int(port))
                assert send(f"amqp://127.0.0.1:{port}", 1, size, address) == heard, words[0]
                assert b"closed, " in host.printed(), words[0]


# A header, an open, a begin, and attaches at handles 0 and 1 to "nowhere" and to "queue". A message in format 1 on the latter, an empty one,
# and one with a value; a close. Then what says that the link is refused, and that the messages are rejected. By hand, from the standard.
BAD_PEER = bytes.fromhex(
    "414d515000010000 0000001102000000005310c00401a10170 0000001402000000005311c007044043527f527f"
    "0000002b02000000005312c01e0aa101614342404000532845005329c00a01a1076e6f7768657265404043"
    "0000002a02000000005312c01d0aa10162520142404000532845005329c00801a1057175657565404043"
    "0000001d02000000005314c00a05520143a00100520142005377a10178"
    "0000001702000000005314c00a0552015201a001014342"
    "0000001d02000000005314c00a0552015202a001024342005377a10178"
    "0000000c0200000000531845"
)
BAD_PEER_HEARS = (
    bytes.fromhex("0000003702000000005316c02a03434100531dc02202a30e") + b"amqp:not-found" + b"\xa1\x0fno such address",
    bytes.fromhex("0000004e02000000005315c0410541434041005325c0370100531dc03102a311") + b"amqp:decode-error" + b"\xa1\x1bthe message-format is not 0",
    bytes.fromhex("0000004802000000005315c03b054152014041005325c0300100531dc02a02a311") + b"amqp:decode-error" + b"\xa1\x14the message is empty",
    bytes.fromhex("0000001702000000005315c00a05415202404100532445"),
)


@test("both hosts refuse a link to an unknown address and reject bad messages, and say why")
def _() -> None:
    for port, words in hosts(None):
        with Host(*words) as host:
            wait_for(int(port))
            answers = spoken_to(int(port), BAD_PEER)
            for frame in BAD_PEER_HEARS:
                assert frame in answers, f"{words[0]}: {frame.hex()} in {answers.hex()}"
            assert b"closed, 3 messages, " in host.printed(), words[0]


@test("the library is installed, found by pkg-config, and removed")
def _() -> None:
    with tempfile.TemporaryDirectory() as folder:
        make = ["make", "-C", HERE, "--no-print-directory", f"DESTDIR={folder}", "prefix=/usr"]
        output_of(*make, "install")
        installed = sorted(str(p.relative_to(folder)) for p in Path(folder).rglob("*") if not p.is_dir())
        assert len(installed) == 6, installed
        flags = f"-I{folder}/usr/include -L{folder}/usr/lib -lwuleshomia".split()
        output_of(os.environ.get("CC", "cc"), HERE / "tests/receive.c", *flags, "-o", f"{folder}/receive")
        linked = subprocess.run([f"{folder}/receive", SHOP], env={**os.environ, "LD_LIBRARY_PATH": f"{folder}/usr/lib"}, capture_output=True, timeout=60)
        assert linked.stdout == (RECEIVE / "stdout").read_bytes()
        output_of(*make, "uninstall")
        assert [p for p in Path(folder).rglob("*") if not p.is_dir()] == [Path(folder) / "receive"]


@test("a wheel is made with no network, and works where it is installed")
def _() -> None:
    wheel = output_of("make", "-C", HERE, "--no-print-directory", "-s", f"PYTHON={sys.executable}", "wheel").decode().split()[-1]
    with tempfile.TemporaryDirectory() as folder:
        if subprocess.run([sys.executable, "-m", "pip", "--version"], capture_output=True).returncode == 0:
            output_of(sys.executable, "-m", "pip", "install", "--quiet", "--no-index", "--no-deps", "--target", folder, HERE / wheel)
        else:
            shutil.unpack_archive(HERE / wheel, folder, "zip")
        clean = {**{k: v for k, v in ENVIRONMENT.items() if k != "WULESHOMIA_LIBRARY"}, "PYTHONPATH": folder}
        done = subprocess.run([sys.executable, PYTHON / "tests/receive.py", SHOP], env=clean, capture_output=True, timeout=60)
        assert done.stdout == (RECEIVE / "stdout").read_bytes(), done.stderr.decode()


print(f"{len(passed)} passed, {len(failed)} failed, {len(not_run)} not run")
sys.exit(1 if failed else 0)
