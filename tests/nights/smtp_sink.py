"""A mail server for one machine: it takes each mail on port 2525, and keeps it in a mailbox."""
import socketserver

ANSWERS = {b"DATA": b"354 go on\r\n", b"QUIT": b"221 bye\r\n"}
MAILBOX = "/var/log/smtp-sink"
FROM = b"From root@localhost Sat Nov 28 00:00:00 2026\n"


class Session(socketserver.StreamRequestHandler):
    def handle(self) -> None:
        self.wfile.write(b"220 sink\r\n")
        text: list[bytes] = []
        is_text = False
        for line in self.rfile:
            if is_text and line != b".\r\n":
                text.append(line.replace(b"\r\n", b"\n"))
                continue
            if is_text:
                keep(text)
                text = []
            is_text = line[:4].upper() == b"DATA"
            self.wfile.write(ANSWERS.get(line[:4].upper(), b"250 taken\r\n"))


def keep(text: list[bytes]) -> None:
    with open(MAILBOX, "ab") as file:
        file.write(FROM + b"".join(text) + b"\n")


def serve() -> None:
    socketserver.ThreadingTCPServer.allow_reuse_address = True
    socketserver.ThreadingTCPServer(("127.0.0.1", 2525), Session).serve_forever()
