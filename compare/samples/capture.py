#!/usr/bin/env python3
"""capture.py OUT: makes the samples anew with openssl (and gnutls-cli where it
is there) on the loopback, through a proxy that keeps both directions' bytes.
Each sample is the plain records of one flight, up to ChangeCipherSpec."""
import os, shutil, socket, subprocess, sys, tempfile, threading, time

PROXY, SERVER = 14433, 14434


def proxy(kept):
    """Passes one connection on to the server; kept gets (side, bytes)."""
    listener = socket.create_server(("127.0.0.1", PROXY))
    client, _ = listener.accept()
    server = socket.create_connection(("127.0.0.1", SERVER))

    def pump(side, source, sink):
        try:
            while data := source.recv(65536):
                kept.append((side, data))
                sink.sendall(data)
            sink.shutdown(socket.SHUT_WR)
        except OSError:
            pass  # the other end has gone first

    back = threading.Thread(target=pump, args=("server", server, client))
    back.start()
    pump("client", client, server)
    back.join(2)
    for s in (listener, client, server):
        s.close()


def records(data):
    """Splits joined records; what is read at once holds whole records here."""
    while len(data) >= 5:
        size = 5 + int.from_bytes(data[3:5], "big")
        yield data[:size]
        data = data[size:]


def flights(kept):
    """Joins what one side says before the other answers; plain records only."""
    out, plain = [], {"client": True, "server": True}
    for side, data in kept:
        if not out or out[-1][0] != side:
            out.append((side, b""))
        for record in records(data):
            if plain[side]:
                out[-1] = (side, out[-1][1] + record)
            plain[side] = plain[side] and record[0] == 0x16
    return [f for f in out if f[1]]


def run(server_words, client_words):
    """One connection; the flights of it."""
    kept = []
    quiet = dict(stdin=subprocess.PIPE, stdout=subprocess.DEVNULL, stderr=subprocess.DEVNULL)
    server = subprocess.Popen(server_words, **quiet)
    time.sleep(0.7)
    middle = threading.Thread(target=proxy, args=(kept,))
    middle.start()
    time.sleep(0.3)
    client = subprocess.Popen(client_words, **quiet)
    time.sleep(1.5)
    for p in (client, server):
        p.stdin.close()
        p.terminate()
        p.wait()
    middle.join(5)
    return flights(kept)


def write(out, name, data):
    """One sample, folded at 64 bytes."""
    text = data.hex()
    with open(os.path.join(out, name + ".hex"), "w") as f:
        for at in range(0, len(text), 128):
            f.write(text[at:at + 128] + "\n")


def openssl(folder):
    """A throw-away certificate and a status answer; words of server and client."""
    key, cert, status = (os.path.join(folder, n) for n in ("key", "cert", "status"))
    subprocess.run(["openssl", "req", "-x509", "-newkey", "ec", "-pkeyopt", "ec_paramgen_curve:P-256",
                    "-nodes", "-subj", "/CN=bench.test", "-days", "1", "-keyout", key, "-out", cert],
                   check=True, stderr=subprocess.DEVNULL)
    with open(status, "wb") as f:
        f.write(bytes.fromhex("30030a0103"))  # an OCSP answer: try later
    pair = ["-cert", cert, "-key", key]
    server = ["openssl", "s_server", "-accept", "127.0.0.1:%d" % SERVER, *pair, "-CAfile", cert]
    client = ["openssl", "s_client", "-connect", "127.0.0.1:%d" % PROXY, *pair, "-servername", "bench.test"]
    return server, client, ["-status_file", status]


def main(out):
    with tempfile.TemporaryDirectory() as folder:
        server, client, status = openssl(folder)
        full = run(server + ["-tls1_2", "-Verify", "1", *status], client + ["-tls1_2", "-status"])
        for name, (_, data) in zip(("client-hello-12", "server-flight-12", "client-flight-12", "server-end-12"), full):
            write(out, name, data)
        new = run(server, client)
        for name, (_, data) in zip(("client-hello-13", "server-hello-13"), new):
            write(out, name, data)
        low = "DEFAULT:@SECLEVEL=0"
        old = run(server + ["-tls1", "-cipher", low, "-Verify", "1"], client + ["-tls1", "-cipher", low])
        for name, (_, data) in zip(("client-hello-10", "server-flight-10"), old):
            write(out, name, data)
        if shutil.which("gnutls-cli"):
            other = run(server, ["gnutls-cli", "--insecure", "-p", str(PROXY), "127.0.0.1"])
            write(out, "client-hello-gnutls", other[0][1])


main(sys.argv[1])
