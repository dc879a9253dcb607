"""Engines and tasks over TLS: many that connect at once, handshakes that are cut, and a certificate that can't be verified."""
import os
import socket
import subprocess
import sys
import threading
import time

import requests

from harness import COMMAND, ENGINE, HERE, PROGRAM, lease_of, needed, raised
from relkvanu_service import Service
from test_connections import many_files
from test_security import TOKEN, certificate, tls_served, told_again

HERD, CLIENTS, PLACES = 600, 40, 128


def begun(kind, url, ca, count, start):
    words = [sys.executable, f"{HERE}/many_clients.py", kind, url, ca, TOKEN, str(count), str(start)]
    return subprocess.Popen(words, stdout=subprocess.PIPE, text=True)


def counts(process):
    """What became of them, with how many."""
    lines = process.communicate()[0].splitlines()
    assert process.returncode == 0, lines
    return {what: int(many) for many, what in (line.split(" ", 1) for line in lines)}


def test_a_herd_over_TLS_is_answered():
    """More connect at once than there are places for new connections: the service accepts them one after another, and no client ends. One that
    takes longer than 10 s for its handshake and its request may be cut, as on a busy machine."""
    many_files()
    # fewer at a time on a busy machine: all that are accepted agree on TLS at once, and each takes as long as all of them
    places = PLACES // lease_of(1)
    with tls_served(f"[limits]\nnew_connections = {places}") as (server, url, ca):
        start = time.time() + 3
        herd, *clients = [begun("raw", url, ca, HERD, start), *(begun("client", url, ca, CLIENTS, start) for _ in range(2))]
        told, ended = counts(herd), [counts(it) for it in clients]
        took = time.time() - start
        assert ended == [{"answered": CLIENTS}] * 2, (ended, told)
        assert told["HTTP/1.1 200 OK"] > HERD / 2 and server.process.poll() is None, told
        return f"{HERD} connections and {2 * CLIENTS} clients at once over {places} places: {told} in {took:.1f} s, and each client is answered"


def test_a_cut_handshake_ends_no_client():
    """Something that takes connections and cuts each handshake, as a proxy that restarts."""
    with socket.create_server(("127.0.0.1", 0)) as listener, tls_served() as (server, url, ca):
        cut = []

        def serve():
            while True:
                try:
                    connection = listener.accept()[0]
                except OSError:
                    return
                cut.append(connection.recv(1 << 16))
                connection.close()

        thread = threading.Thread(target=serve, daemon=True)
        thread.start()
        failed = []
        service = Service(f"https://127.0.0.1:{listener.getsockname()[1]}", url, token=TOKEN, ca=ca, patience=60)
        assert service.noticing(failed.append).jobs() == []
        assert cut and failed and isinstance(failed[0], requests.exceptions.SSLError), (cut, failed)
        listener.shutdown(socket.SHUT_RDWR)
        return f"{len(cut)} handshakes were cut: {type(failed[0]).__name__}"


def test_a_certificate_that_is_renewed_ends_no_client():
    """A certificate that can't be verified is tried again within the patience, and ends the client then."""
    with tls_served() as (server, url, ca):
        first = f"{server.folder}/first.pem"
        os.rename(ca, first)
        os.rename(f"{server.folder}/key.pem", f"{server.folder}/first.key")
        certificate(server.folder, "second")
        begun_at, patience, failed = time.monotonic(), 4, []
        raised(requests.RequestException, lambda: Service(url, token=TOKEN, ca=ca, patience=patience).noticing(failed.append).jobs())
        # its last try may have had too little time
        assert any("CERTIFICATE_VERIFY_FAILED" in str(error) for error in failed), failed
        took = time.monotonic() - begun_at
        assert took >= patience / 2, f"it ended after {took:.2f} s"
        renewed = []

        def renew(error):
            if not renewed:
                told_again(server, "the certificate is read again")
            renewed.append(error)

        assert Service(url, token=TOKEN, ca=ca, patience=60).noticing(renew).jobs() == []
        assert "CERTIFICATE_VERIFY_FAILED" in str(renewed[0]), renewed
        return f"refused after {took:.1f} s, and answered once it was renewed"


def test_the_client_in_rust():
    """The same: by a command with a patience of its own, and by an engine that starts before the certificate is renewed."""
    needed(ENGINE)
    with tls_served(token=None) as (server, url, ca):
        began, patience = time.monotonic(), 4
        told = subprocess.run([PROGRAM, "jobs", "--url", url, "--within", str(patience)], capture_output=True, text=True, timeout=COMMAND, check=False)
        took = time.monotonic() - began
        assert told.returncode == 78 and "certificate verify failed" in told.stderr and took >= patience / 2, (told, took)
        certificate(server.folder, "second")
        engine = subprocess.Popen([ENGINE, url, "a", "2"], env={**os.environ, "SSL_CERT_FILE": ca}, stdout=subprocess.PIPE, text=True)
        time.sleep(1)
        told_again(server, "the certificate is read again")
        told = engine.communicate(timeout=COMMAND)[0]
        assert engine.returncode == 0 and "checkpoints completed" in told, told
        return f"refused after {took:.1f} s, and answered once it was renewed"
