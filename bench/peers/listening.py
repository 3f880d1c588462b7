"""Where `amqp` is, and whether it listens."""
import os

HERE = os.path.dirname(os.path.realpath(__file__))
AMQP = f"{HERE}/../../crates/amqp/out/amqp"


def is_listened_to(port):
    """Whether this machine has a socket that listens at the port."""
    with open("/proc/net/tcp", encoding="ascii") as lines:
        return any(line.split()[1].endswith(f":{port:04X}") and line.split()[3] == "0A" for line in list(lines)[1:])
