"""How `serve` takes and ends connections, and how each command ends where a descriptor is closed.

    connections.py bodies PORT SIZE TRIES    posts bodies of so many bytes, which are too long, by http.client, urllib and curl, so
                                             often each, and writes what each was told
    connections.py silent PORT COUNT LIMIT   opens so many connections that send nothing and one that begins TLS; writes the status
                                             of a look behind them, whether it took so many ms at most, and what TLS was told
    connections.py closed PROGRAM CLUB PORT  runs each command with its output, input or errors closed from the start, and with an
                                             output that nobody reads; CLUB is the folder examples/club, PORT one for `serve`
"""
import collections
import http.client
import os
import socket
import ssl
import subprocess
import sys
import tempfile
import time
import urllib.error
import urllib.request

LOOK = b"GET /totals HTTP/1.1\r\nHost: localhost\r\n\r\n"


def by_client(port, body):
    connection = http.client.HTTPConnection("127.0.0.1", port, timeout=20)
    try:
        connection.request("POST", "/ask", body=body)
        answer = connection.getresponse()
        answer.read()
        return answer.status
    finally:
        connection.close()


def by_urllib(port, body):
    try:
        with urllib.request.urlopen("http://127.0.0.1:%d/ask" % port, data=body, timeout=20) as answer:
            return answer.status
    except urllib.error.HTTPError as refused:
        refused.read()
        return refused.code


def by_curl(port, body):
    words = ["curl", "-s", "-o", "/dev/null", "-w", "%{http_code}", "-H", "Expect:", "--data-binary", "@-"]
    told = subprocess.run([*words, "http://127.0.0.1:%d/ask" % port], input=body, stdout=subprocess.PIPE, timeout=20)
    return int(told.stdout) if told.returncode == 0 else "curl %d" % told.returncode


def bodies(port, size, tries):
    body = bytes(size)
    for ask in (by_client, by_urllib, by_curl):
        told = collections.Counter()
        for _ in range(tries):
            try:
                told[ask(port, body)] += 1
            except (OSError, http.client.HTTPException) as error:
                told[type(getattr(error, "reason", error)).__name__] += 1
        print(ask.__name__, " ".join("%s: %d" % pair for pair in told.items()))


def hello():
    """The first bytes of TLS."""
    outgoing = ssl.MemoryBIO()
    talk = ssl.create_default_context().wrap_bio(ssl.MemoryBIO(), outgoing, server_hostname="localhost")
    try:
        talk.do_handshake()
    except ssl.SSLWantReadError:
        pass
    return outgoing.read()


def heard(client):
    parts = []
    while part := client.recv(65536):
        parts.append(part)
    return b"".join(parts)


def status_of(answered):
    return answered.split(b" ")[1].decode() if answered.startswith(b"HTTP/1.") else "no answer"


def silent(port, count, limit):
    clients = [socket.create_connection(("127.0.0.1", port)) for _ in range(count)]
    tls = socket.create_connection(("127.0.0.1", port))
    tls.sendall(hello())
    start = time.perf_counter()
    with socket.create_connection(("127.0.0.1", port), timeout=30) as look:
        look.sendall(LOOK)
        status = status_of(heard(look))
    spent = time.perf_counter() - start
    tls.settimeout(1)
    try:
        told = status_of(heard(tls))
    except OSError as error:
        told = type(error).__name__
    print("a look: %s %s; TLS: %s" % (status, "soon" if 1000 * spent <= limit else "after %.3f s" % spent, told))
    for client in clients:
        client.close()


# ---- closed descriptors

OUTPUT, INPUT, ERRORS, BROKEN = "output closed", "input closed", "errors closed", "output unread"

HANDED_IN = ("club.record", b"printing\n", "club.sheet", "club.openings")

# each command: its words, what its input is made of (files of examples/club, and lines between them), and whether it needs an
# office
COMMANDS = (
    (["audit"], ("club.record",), False),
    (["init"], ("election.json",), False),
    (["sheet"], (), True),
    (["do"], ("voting.jsonl",), True),
    (["scans"], ("scans.csv",), True),
    (["record"], (), True),
    (["recount"], HANDED_IN, False),
    (["odds"], HANDED_IN, False),
    (["county"], ("club.record", b"next\n", "north.record"), False),
    (["sample", "1", "10"], (), False),
)


def due(how, reads):
    """The status that is due, and the word of its cause."""
    if how in (OUTPUT, BROKEN):
        return 4, "output"
    if how == INPUT and reads:
        return 3, "input"
    return None, ""


def closing(how):
    numbers = {OUTPUT: 1, INPUT: 0, ERRORS: 2}
    return (lambda: os.close(numbers[how])) if how in numbers else None


def unread():
    """The end to write to of a pipe that nobody reads."""
    reader, writer = os.pipe()
    os.close(reader)
    return writer


def joined(club, parts, folder):
    """A file of these parts, to be read."""
    path = os.path.join(folder, "given")
    with open(path, "wb") as given:
        for part in parts:
            given.write(part if isinstance(part, bytes) else open(os.path.join(club, part), "rb").read())
    return open(path, "rb")


def started(program, words, source, folder, how):
    out = unread() if how == BROKEN else subprocess.DEVNULL
    errors = subprocess.DEVNULL if how == ERRORS else subprocess.PIPE
    child = subprocess.Popen([program, *words], stdin=source, stdout=out, stderr=errors, cwd=folder, preexec_fn=closing(how))
    if how == BROKEN:
        os.close(out)
    return child


def prepared(program, club, folder):
    with open(os.path.join(club, "election.json"), "rb") as source:
        subprocess.run([program, "init"], stdin=source, stdout=subprocess.DEVNULL, cwd=folder, check=True)


def looked(port):
    """Two looks at a server that may end behind the first."""
    for _ in range(200):
        try:
            with socket.create_connection(("127.0.0.1", port), timeout=5) as client:
                client.sendall(LOOK)
                heard(client)
            return
        except OSError:
            time.sleep(0.02)


def ended(program, words, source, folder, how, port):
    child = started(program, words, source, folder, how)
    if words[0] == "serve":
        looked(port)
    try:
        errors = child.communicate(timeout=60)[1]
    except subprocess.TimeoutExpired:
        child.kill()
        errors = child.communicate()[1]
    return child.returncode, (errors or b"").decode()


def is_whole(program, folder):
    """Whether an office opens in the folder."""
    return subprocess.run([program, "record"], stdin=subprocess.DEVNULL, stdout=subprocess.DEVNULL, cwd=folder).returncode == 0


def tried(program, club, port, command, how):
    words, parts, is_office = command
    with tempfile.TemporaryDirectory() as folder, joined(club, parts, folder) as source:
        if is_office:
            prepared(program, club, folder)
        status, cause = ended(program, words, source, folder, how, port)
        wanted, word = due(how, parts != ())
        good = status == wanted if wanted is not None else status in (0, 1)
        good = good and (how == ERRORS or word in cause) and (not is_office or is_whole(program, folder))
        if not good:
            print("%s, %s: %s %s" % (words[0], how, status, cause.strip()))
        return good


def closed(program, club, port):
    serve = (["serve", str(port), "1"], (), True)
    tries = [(command, how) for command in (*COMMANDS, serve) for how in (OUTPUT, INPUT, ERRORS, BROKEN)]
    print("as due: %d of %d" % (sum(tried(program, club, port, *one) for one in tries), len(tries)))


def main(words):
    if words[0] == "bodies":
        bodies(*map(int, words[1:]))
    elif words[0] == "silent":
        silent(*map(int, words[1:]))
    else:
        closed(os.path.abspath(words[1]), os.path.abspath(words[2]), int(words[3]))


if __name__ == "__main__":
    main(sys.argv[1:])
