"""A stock sender of Qpid Proton: sends so many messages with a text of so many bytes, and prints how many were accepted, or why its link was
refused or a message rejected. With the size 0 a message has no bytes at all.

    proton_send.py URL COUNT SIZE [ADDRESS]"""

import sys

from proton import Message, SSLDomain
from proton.handlers import MessagingHandler
from proton.reactor import Container


class Sender(MessagingHandler):
    def __init__(self, url, count, size, address):
        super().__init__()
        self.url, self.count, self.body, self.address = url, count, "x" * size, address
        self.sent = self.accepted = 0
        self.heard = None

    def on_start(self, event):
        domain = None
        if self.url.startswith("amqps"):
            domain = SSLDomain(SSLDomain.MODE_CLIENT)
            domain.set_peer_authentication(SSLDomain.ANONYMOUS_PEER)
        connection = event.container.connect(self.url, sasl_enabled=False, ssl_domain=domain, reconnect=False)
        event.container.create_sender(connection, self.address)

    def on_sendable(self, event):
        while event.sender.credit and self.sent < self.count:
            if self.body:
                event.sender.send(Message(body=self.body))
            else:
                event.sender.delivery(str(self.sent))
                event.sender.advance()
            self.sent += 1

    def on_accepted(self, event):
        self.accepted += 1
        if self.accepted == self.count:
            event.connection.close()

    def on_link_error(self, event):
        self.say(event, "refused", event.link.remote_condition)

    def on_rejected(self, event):
        self.say(event, "rejected", event.delivery.remote.condition)

    def say(self, event, what, condition):
        self.heard = f"{what} {condition.name} {condition.description}"
        event.connection.close()

    def on_transport_error(self, event):
        print(event.transport.condition, file=sys.stderr)


sender = Sender(sys.argv[1], int(sys.argv[2]), int(sys.argv[3]), sys.argv[4] if len(sys.argv) > 4 else "queue")
Container(sender).run()
print(sender.heard or f"accepted {sender.accepted}")
