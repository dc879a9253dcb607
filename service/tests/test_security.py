"""Tokens for some jobs, tokens and a certificate that are read again, who called in the log, and lists in parts."""
import http.client
import os
import re
import signal
import socket
import ssl
import subprocess
import time
from contextlib import contextmanager

from harness import COMMAND, PROGRAM, Server, Service, caught_up, folder, raised, save, served, until
from relkvanu_service import Failed, ack, deleted, dispose, savepoint
from test_images import SETTINGS
from test_start import refused
from test_events import Stream

ALL, ORDERS, READER = "a" * 20, "o" * 20, "r" * 20
TOKEN = "0123456789abcdef0123"
JOB = {"settings": {"interval": 1 << 40}, "shape": [1]}
UNTIL, FAILED = "relkvanu_certificate_until_timestamp_seconds", "relkvanu_reload_failed"


def written(path, *lines):
    save(path, "\n".join(lines) + "\n")


def told_again(server, says="read again"):
    """Sends SIGHUP, and waits until the service says that it has read its files."""
    before = server.log().count(says)
    server.process.send_signal(signal.SIGHUP)
    until(lambda: server.log().count(says) > before, 5)


def test_tokens_for_some_jobs():
    with served(tokens=[f"write {ALL} name=root", f"write {ORDERS} jobs=orders,eu-* name=alice", f"read {READER} jobs=eu-*"]) as server:
        for name, token, status in [
            ("orders", ORDERS, 201), ("eu-1", ORDERS, 201), ("us", ORDERS, 403), ("us", ALL, 201), ("eu-1", READER, 401), ("eu-1", None, 401),
        ]:
            assert server.request("POST", "/v1/jobs", {**JOB, "name": name}, token)[0] == status, (name, token)
        for path, token, status in [
            ("/v1/jobs/orders", ORDERS, 200), ("/v1/jobs/us", ORDERS, 403), ("/v1/jobs/none", ORDERS, 403), ("/v1/jobs/eu-none", ORDERS, 404),
            ("/v1/jobs/orders", READER, 403), ("/v1/jobs/eu-1/log", READER, 200), ("/v1/jobs/us/stream", READER, 403), ("/v1/view/us", ORDERS, 403),
            ("/metrics", ORDERS, 403), ("/metrics", ALL, 200), ("/v1/jobs/us", ALL, 200), ("/v1/jobs", None, 401), ("/v1/jobs", "x" * 20, 401), ("/metrics", None, 401),
            ("/healthz", None, 200), ("/readyz", None, 200), ("/", None, 200),
        ]:
            assert server.get(path, token)[0] == status, (path, token)
        names = {token: [job["name"] for job in server.get("/v1/jobs", token)[2]["jobs"]] for token in (ALL, ORDERS, READER)}
        assert names == {ALL: ["orders", "eu-1", "us"], ORDERS: ["orders", "eu-1"], READER: ["eu-1"]}, names
        view = server.get("/v1/view", READER)[2]
        assert [job["name"] for job in view["jobs"]] == ["eu-1"] and view["job"]["name"] == "eu-1", view
        cancel = {"calls": [{"call": "cancel"}]}
        assert [server.request("POST", f"/v1/jobs/{job}/calls", cancel, token)[0] for job, token in [("us", ORDERS), ("eu-1", READER), ("eu-1", ORDERS)]] == [403, 401, 200]
        assert server.request("DELETE", "/v1/jobs/us", token=ORDERS)[0] == 403 and server.request("DELETE", "/v1/jobs/eu-1", token=ORDERS)[0] == 200
        # who did it
        told = re.findall(r"request method=(\S+) path=(\S+) status=(\d+) by=(\S+)", server.log())
        assert ("POST", "/v1/jobs/eu-1/calls", "200", "alice") in told and ("DELETE", "/v1/jobs/eu-1", "200", "alice") in told, told
        assert ("POST", "/v1/jobs", "201", "root") in told and not any(token in server.log() for token in (ALL, ORDERS, READER))
        # a flood of refused requests makes few lines
        before, began = server.log().count("status=401"), time.monotonic()
        for _ in range(100):
            assert server.get("/v1/jobs", "x" * 20)[0] == 401
        time.sleep(1.1)
        server.get("/v1/jobs", "x" * 20)
        lines, seconds = server.log().count("status=401") - before, time.monotonic() - began
        # one a second
        assert 1 <= lines <= seconds + 2 and re.search(r"status=401 by=nobody took_ms=\d+ more=\d+", server.log()), (lines, seconds)


def test_tokens_are_read_again():
    with served(tokens=[f"write {ALL}", f"read {READER}"]) as server:
        tokens = f"{server.folder}/tokens"
        server.request("POST", "/v1/jobs", {**JOB, "name": "orders"}, ALL)
        stream = Stream(server, "/v1/jobs/orders/stream", [("Authorization", f"Bearer {READER}")])
        until(lambda: stream.head)
        written(tokens, f"write {ALL} until=2999-01-01", f"read {ORDERS}")
        assert server.get("/v1/jobs", READER)[0] == 200  # not yet
        told_again(server)
        assert [server.get("/v1/jobs", token)[0] for token in (ALL, READER, ORDERS)] == [200, 401, 200]
        until(lambda: stream.over, 5)  # its token is no more
        until(lambda: 'relkvanu_token_until_timestamp_seconds{access="write"} 32472144000' in server.get("/metrics", ALL)[2])
        # a bad file changes nothing
        written(tokens, "write short")
        told_again(server, "stay as they were")
        assert [server.get("/v1/jobs", token)[0] for token in (ALL, ORDERS)] == [200, 200] and "line 1" in server.log()


def certificate(at, name, days=2):
    """A new certificate for 127.0.0.1, which signs itself, over the old one."""
    words = ["-newkey", "rsa:2048", "-nodes", "-keyout", f"{at}/key.pem", "-out", f"{at}/certificate.pem", "-subj", f"/CN={name}"]
    more = ["-days", str(days), "-addext", "subjectAltName=IP:127.0.0.1"]
    subprocess.run(["openssl", "req", "-x509", *words, *more], check=True, stderr=subprocess.DEVNULL)


def name_of(server):
    text = ssl.get_server_certificate(("127.0.0.1", server.port))
    return subprocess.run(["openssl", "x509", "-noout", "-subject"], input=text, stdout=subprocess.PIPE, text=True, check=True).stdout.strip()


def ends(at):
    """When the certificate ends, in seconds since 1970, as openssl says it."""
    words = ["openssl", "x509", "-noout", "-enddate", "-in", f"{at}/certificate.pem"]
    told = subprocess.run(words, stdout=subprocess.PIPE, text=True, check=True).stdout
    return ssl.cert_time_to_seconds(told.strip().partition("=")[2])


@contextmanager
def tls_served(*more, token=TOKEN):
    with folder() as at:
        certificate(at, "first")
        written(f"{at}/token", f"write {token}")
        tls = f"tls_certificate = '{at}/certificate.pem'\ntls_key = '{at}/key.pem'\n"
        written(f"{at}/service.toml", tls, *more)
        server = Server(at, args=["--config", f"{at}/service.toml", *(["--token-file", f"{at}/token"] if token else [])])
        server.ca = f"{at}/certificate.pem"
        yield server.start(), f"https://127.0.0.1:{server.port}", f"{at}/certificate.pem"


def test_tls_of_its_own():
    with tls_served("[limits]\nidle_seconds = 2", token=None) as (server, url, ca):
        at, job = server.folder, Service(url, ca=ca).open("orders", SETTINGS, [1])
        job.calls([savepoint(), ack(1, "0.0", [1])])
        # the client in Rust, by the program's commands
        told = subprocess.run(
            [PROGRAM, "show", "orders", "--json", "--url", url],
            env={**os.environ, "SSL_CERT_FILE": ca}, stdout=subprocess.PIPE, stderr=subprocess.PIPE, text=True, check=False,
        )
        assert told.returncode == 0 and '"seq":4' in told.stdout, told
        assert Server(at, port=server.port).get("/healthz")[0] == 0  # without TLS
        # old versions are refused, and one that says nothing does not stay
        words = ["openssl", "s_client", "-connect", f"127.0.0.1:{server.port}", "-tls1_1"]
        old = subprocess.run(words, stdin=subprocess.DEVNULL, stdout=subprocess.PIPE, stderr=subprocess.STDOUT, text=True, check=False)
        assert old.returncode != 0 and "Cipher is (NONE)" in old.stdout, old.stdout[-300:]
        with socket.create_connection(("127.0.0.1", server.port), timeout=COMMAND) as silent:
            assert silent.recv(10) == b""
        first = name_of(server)
        until(lambda: server.metric(UNTIL) == ends(at), told=lambda: (server.metric(UNTIL), ends(at)))
        certificate(at, "second", days=5)
        told_again(server, "the certificate is read again")
        until(lambda: server.metric(UNTIL) == ends(at), told=lambda: (server.metric(UNTIL), ends(at)))
        assert "first" in first and "second" in name_of(server), (first, name_of(server))
        assert server.get("/readyz")[0] == 200
        written(f"{at}/key.pem", "no key")
        told_again(server, "stay as they were")
        assert "second" in name_of(server) and "tls_key" in server.log()
        assert server.stop() == 0
        words = ["--database", f"{at}/other.db", "--listen", "127.0.0.1:0", "--config", f"{at}/service.toml"]
        refused(words, 78, "tls_key")
        written(f"{at}/service.toml", f"tls_key = '{at}/key.pem'")
        refused(words, 78, "there is only one of them")


def asked(connection, token):
    """A status that a connection gets which stays open."""
    connection.request("GET", "/v1/jobs", headers={"Authorization": f"Bearer {token}"})
    answer = connection.getresponse()
    answer.read()
    return answer.status


def test_all_files_are_read_again_or_none():
    """Connections stay open meanwhile. New copies of the files, as `systemctl reload` makes them, take the place of the old ones."""
    with folder() as at:
        os.mkdir(f"{at}/copies")
        certificate(at, "first")
        os.replace(f"{at}/certificate.pem", f"{at}/trusted.pem")
        subprocess.run(["cp", f"{at}/trusted.pem", f"{at}/certificate.pem"], check=True)
        written(f"{at}/token", f"write {ALL}")
        # the connection is idle while openssl makes keys
        written(f"{at}/service.toml", f"tls_certificate = '{at}/certificate.pem'\ntls_key = '{at}/key.pem'\n", "[limits]\nidle_seconds = 600")
        words = ["--config", f"{at}/service.toml", "--token-file", f"{at}/token"]
        server = Server(at, args=words, prefix=["env", f"RELKVANU_KEYS={at}/copies"])
        server.ca = f"{at}/trusted.pem"
        server.start()
        context = ssl.create_default_context(cafile=f"{at}/trusted.pem")
        connection = http.client.HTTPSConnection("127.0.0.1", server.port, context=context, timeout=COMMAND)
        assert asked(connection, ALL) == 200 and server.metric(FAILED, ALL) == 0
        # a good file of tokens beside a bad key, and then a good certificate beside a bad file of tokens
        certificate(f"{at}/copies", "second")
        written(f"{at}/copies/token", f"write {ORDERS}")
        os.rename(f"{at}/copies/key.pem", f"{at}/copies/good.pem")
        for broken in ("key.pem", "token"):
            if broken == "token":
                os.replace(f"{at}/copies/good.pem", f"{at}/copies/key.pem")
            written(f"{at}/copies/{broken}", "write short")
            told_again(server, "stay as they were")
            assert "first" in name_of(server) and [asked(connection, token) for token in (ALL, ORDERS)] == [200, 401], broken
            assert server.metric(FAILED, ALL) == 1, broken
        written(f"{at}/copies/token", f"write {ORDERS}")
        told_again(server, "the certificate is read again")
        # the connection that is open has the old certificate and the new tokens
        assert "second" in name_of(server) and [asked(connection, token) for token in (ALL, ORDERS)] == [401, 200]
        subprocess.run(["cp", f"{at}/copies/certificate.pem", f"{at}/trusted.pem"], check=True)
        assert server.metric(FAILED, ORDERS) == 0
        assert server.stop() == 0


def test_a_refusal_over_tls_reaches_a_client_that_still_sends():
    with tls_served("[limits]\nidle_seconds = 600", token=None) as (server, _, ca):
        context = ssl.create_default_context(cafile=ca)
        with context.wrap_socket(socket.create_connection(("127.0.0.1", server.port), timeout=COMMAND), server_hostname="127.0.0.1") as it:
            it.sendall(b"POST /v1/jobs HTTP/1.1\r\nHost: localhost\r\nContent-Type: text/plain\r\nTransfer-Encoding: chunked\r\n\r\n")
            for _ in range(10):
                it.sendall(b"%x\r\n%s\r\n" % (100_000, b" " * 100_000))
                server.get("/healthz")
            it.sendall(b"0\r\n\r\n")
            answer = http.client.HTTPResponse(it)
            answer.begin()
            assert answer.status == 415 and "Content-Type" in answer.read().decode()
            assert it.recv(1) == b""
        assert server.stop() == 0


def test_lists_come_in_parts():
    with served() as server:
        for number in range(7):
            server.service.open(f"j{number}", SETTINGS, [1])
        names, after = [], 0
        while after is not None:
            told = server.get(f"/v1/jobs?after={after}&limit=3")[2]
            names.append([job["name"] for job in told["jobs"]])
            after = told["next"]
        assert names == [["j0", "j1", "j2"], ["j3", "j4", "j5"], ["j6"]], names
        whole = server.get("/v1/jobs")[2]
        assert len(whole["jobs"]) == 7 and whole["next"] is None and server.get("/v1/jobs?limit=0")[2]["next"] == 0
        job = server.service.job("j0")
        job.calls([savepoint(), ack(1, "0.0", range(1, 8)), dispose(1)])
        job.calls([deleted(file) for file in job.take(9)])
        caught_up(job)
        files, before = [], 1 << 50
        while page := server.get(f"/v1/jobs/j0/files?limit=3&before={before}")[2]["deleted"]:
            files.append([row["file"] for row in page])
            before = page[-1]["deleted"]
        assert files == [["7", "6", "5"], ["4", "3", "2"], ["1"]], files
        server.get("/v1/jobs?limit=x")
        failed = raised(Failed, lambda: server.service.request("GET", "/v1/jobs?limit=x"))
        assert (failed.status, failed.field) == (400, "limit")
