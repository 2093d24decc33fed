"""Clients of `serve`, and a server to compare it with: Python's http.server, json and sqlite3, with the office's rules for scans
and the same statements and commits.

    serve.py server ELECTION PORT     sets an office.db up and answers the asks that are posted to the port, until it is ended
    serve.py look PORT COUNT          asks for the totals on so many connections, and writes how many were answered
    serve.py silent PORT | slow PORT | endless PORT | long PORT | early PORT | half PORT
                                      one client that is no good, and how long it was kept: it sends nothing; a byte a second; a
                                      head without an end; a body longer than it said; it is gone before it sent a byte; it is
                                      gone with half a body. Behind it the totals are asked for, and that answer's status told
"""
import json
import socket
import sys
import time
from http.server import BaseHTTPRequestHandler, HTTPServer

from do import answer
from store import opened


def server(election, port):
    file = json.load(open(election, encoding="utf-8"))
    connection = opened()
    connection.execute("INSERT INTO setup (id, body) VALUES (1, ?1)", (json.dumps(file),))
    kept = {"ballots": {}, "done": {}}

    class Handler(BaseHTTPRequestHandler):
        def do_POST(self):
            ask = json.loads(self.rfile.read(int(self.headers["Content-Length"])))
            reply = answer(file, kept, connection, ask)
            body = json.dumps(reply, separators=(",", ":")).encode()
            self.send_response(reply["status"])
            self.send_header("Content-Type", "application/json")
            self.send_header("Content-Length", str(len(body)))
            self.send_header("Connection", "close")
            self.end_headers()
            self.wfile.write(body)

        def log_message(self, *words):
            pass

    HTTPServer(("127.0.0.1", port), Handler).serve_forever()


def connected(port):
    client = socket.create_connection(("127.0.0.1", port))
    client.setsockopt(socket.IPPROTO_TCP, socket.TCP_NODELAY, 1)
    return client


def heard(client):
    """All that is sent until the connection ends; what came before, where it breaks off."""
    parts = []
    try:
        while True:
            part = client.recv(65536)
            if not part:
                break
            parts.append(part)
    except ConnectionError:
        pass
    client.close()
    return b"".join(parts)


def told(port, request):
    client = connected(port)
    client.sendall(request)
    return heard(client)


def post(body):
    return b"POST /ask HTTP/1.1\r\nHost: localhost\r\nContent-Length: %d\r\n\r\n%s" % (len(body), body)


LOOK = b"GET /totals HTTP/1.1\r\nHost: localhost\r\n\r\n"


def status_of(answered):
    return answered.split(b" ")[1].decode() if answered.startswith(b"HTTP/1.") else "no answer"


def look(port, count):
    print(sum(status_of(told(port, LOOK)) != "no answer" for _ in range(count)))


def slowly(client, message):
    """A byte a second, until the other end is gone."""
    try:
        for byte in message:
            client.sendall(bytes([byte]))
            client.settimeout(1)
            try:
                if not client.recv(1):
                    break
            except TimeoutError:
                pass
    except ConnectionError:
        pass
    client.close()
    return b""


def endlessly(client):
    try:
        client.sendall(b"GET /totals HTTP/1.1\r\n")
        while True:
            client.sendall(b"a: b\r\n" * 1000)
    except ConnectionError:
        pass
    return heard(client)


def no_good(kind, port):
    start = time.perf_counter()
    client = connected(port)
    answered = b""
    if kind == "silent":
        answered = heard(client)
    elif kind == "slow":
        answered = slowly(client, LOOK * 9)
    elif kind == "endless":
        answered = endlessly(client)
    elif kind == "long":
        client.sendall(post(b'{"ask":"totals"}') + b"and more")
        answered = heard(client)
    elif kind == "early":
        client.close()
    elif kind == "half":
        client.sendall(post(b'{"ask":"totals"}')[:-4])
        client.shutdown(socket.SHUT_WR)
        answered = heard(client)
    spent = time.perf_counter() - start
    print("%-8s %-9s %5.2f s; then %s" % (kind, status_of(answered), spent, status_of(told(port, LOOK))))


def main(words):
    task = words[0]
    if task == "server":
        server(words[1], int(words[2]))
    elif task == "look":
        look(int(words[1]), int(words[2]))
    else:
        no_good(task, int(words[1]))


if __name__ == "__main__":
    main(sys.argv[1:])
