"""receivers.py MAIL HOOK: receives mails at the port MAIL and webhooks at the port HOOK.

It prints each mail and each request in one line, until it is killed. tests/deploy.sh starts it as
what Alertmanager sends to."""
import base64
import email
import email.policy
import http.server
import socketserver
import sys
import threading


def say(text):
    print(text.replace("\r", "").replace("\n", " "), flush=True)


class Mail(socketserver.StreamRequestHandler):
    """A server of SMTP that accepts each user and each mail."""

    def handle(self):
        user = sender = receiver = ""
        self.send("220 localhost")
        while line := self.rfile.readline().decode().strip():
            word, _, rest = line.partition(" ")
            if word.upper() in ("EHLO", "HELO"):
                self.send("250-localhost\r\n250 AUTH PLAIN")
            elif word.upper() == "AUTH":
                user = " ".join(base64.b64decode(rest.split()[1]).decode().split("\0")).strip()
                self.send("235 accepted")
            elif word.upper() == "MAIL":
                sender = rest.partition("<")[2].partition(">")[0]
                self.send("250 ok")
            elif word.upper() == "RCPT":
                receiver = rest.partition("<")[2].partition(">")[0]
                self.send("250 ok")
            elif word.upper() == "DATA":
                self.send("354 go ahead")
                text = b"".join(iter(self.rfile.readline, b".\r\n"))
                say(f"mail from {sender}, user {user}, to {receiver}: {text_of(text)}")
                self.send("250 ok")
            else:
                self.send("221 bye" if word.upper() == "QUIT" else "250 ok")

    def send(self, text):
        self.wfile.write(f"{text}\r\n".encode())


def text_of(data):
    """Returns the subject and the texts of a mail."""
    mail = email.message_from_bytes(data, policy=email.policy.default)
    parts = [it.get_content() for it in mail.walk() if it.get_content_maintype() == "text"]
    return "\n".join([mail["Subject"], *parts])


class Hook(http.server.BaseHTTPRequestHandler):
    def do_POST(self):
        say(f"POST {self.path}: {self.rfile.read(int(self.headers['Content-Length'])).decode()}")
        self.send_response(200)
        self.end_headers()

    def log_message(self, *_):
        pass


if __name__ == "__main__":
    mail, hook = map(int, sys.argv[1:])
    socketserver.ThreadingTCPServer.allow_reuse_address = True
    servers = [socketserver.ThreadingTCPServer(("127.0.0.1", mail), Mail), http.server.ThreadingHTTPServer(("127.0.0.1", hook), Hook)]
    for it in servers:
        it.daemon_threads = True
        threading.Thread(target=it.serve_forever).start()
    say("listening")
