"""Many clients that connect to a service over TLS at once: many_clients.py raw|client URL CA TOKEN COUNT START. All connect at the moment START. `raw`
ones try once, and `client` ones are those of Python with a patience. Prints a line for each thing that became of some, after their number."""
import asyncio
import collections
import os
import resource
import ssl
import sys
import threading
import time
from urllib.parse import urlsplit

HERE = os.path.dirname(os.path.realpath(__file__))
sys.path.insert(0, f"{os.path.dirname(HERE)}/client/python")
from relkvanu_service import Service  # noqa: E402  (its place is known here alone)

PATIENCE = 300  # seconds: none ends before, unless for good


async def one(at, context, token):
    try:
        reader, writer = await asyncio.open_connection(at.hostname, at.port, ssl=context, ssl_handshake_timeout=PATIENCE)
        writer.write(f"GET /v1/jobs HTTP/1.1\r\nHost: localhost\r\nAuthorization: Bearer {token}\r\nConnection: close\r\n\r\n".encode())
        line = await reader.readline()
        writer.close()
        return line.decode().strip() or "closed without an answer"
    except (OSError, asyncio.TimeoutError) as error:
        return type(error).__name__


async def raw(url, ca, token, count):
    context = ssl.create_default_context(cafile=ca)
    return collections.Counter(await asyncio.gather(*(one(urlsplit(url), context, token) for _ in range(count))))


def clients(url, ca, token, count):
    told = []

    def client():
        try:
            Service(url, token=token, ca=ca, patience=PATIENCE).jobs()
            told.append("answered")
        except Exception as error:
            told.append(f"ended: {type(error).__name__}")

    threads = [threading.Thread(target=client) for _ in range(count)]
    for thread in threads:
        thread.start()
    for thread in threads:
        thread.join()
    return collections.Counter(told)


def main(kind, url, ca, token, count, start):
    hard = resource.getrlimit(resource.RLIMIT_NOFILE)[1]
    resource.setrlimit(resource.RLIMIT_NOFILE, (hard, hard))
    time.sleep(max(0.0, float(start) - time.time()))
    told = asyncio.run(raw(url, ca, token, int(count))) if kind == "raw" else clients(url, ca, token, int(count))
    for what, many in told.most_common():
        print(many, what)


if __name__ == "__main__":
    main(*sys.argv[1:])
