"""Proxies: a line to a server, a slow one, which holds answers and counts what is asked, and one that forgets connections."""
import asyncio
import threading
import time

from harness import free_port, until


class Proxy(threading.Thread):
    """A port of this machine that passes on what its connections and the server at another port send to each other. `passed` returns what goes on of some data;
    `link` is what it keeps of a connection."""

    def __init__(self, to):
        super().__init__(daemon=True)
        self.to, self.port, self.listens = to, free_port(), False
        self.start()
        until(lambda: self.listens)

    def run(self):
        asyncio.run(self.serve())

    async def connected(self, reader, writer):
        try:
            other_reader, other_writer = await asyncio.open_connection("127.0.0.1", self.to)
        except OSError:
            return writer.close()
        link = {}
        await asyncio.gather(self.pipe(reader, other_writer, link, False), self.pipe(other_reader, writer, link, True))

    async def pipe(self, reader, writer, link, answers):
        try:
            while data := await reader.read(1 << 20):
                writer.write(await self.passed(data, link, answers))
                await writer.drain()
        except OSError:
            pass
        await self.ended()
        writer.close()

    async def passed(self, data, link, answers):
        raise NotImplementedError

    async def ended(self):
        """Before the end of a connection is told."""

    async def serve(self):
        server = await asyncio.start_server(self.connected, "127.0.0.1", self.port)
        self.listens = True
        await server.serve_forever()


class Slow(Proxy):
    """Holds each answer of the server at a port of this machine for `delay` seconds, and one to what has the text `holds` as long as that is set. Both may
    be set at any time."""

    def __init__(self, to, delay):
        self.delay, self.holds, self.asked = delay, None, 0
        self.sent = {}  # how often each of these texts is sent
        super().__init__(to)

    async def passed(self, data, link, answers):
        if not answers:
            link["asked"] = data
            self.asked += 1
            for text in self.sent:
                self.sent[text] += text in data
            return data
        await asyncio.sleep(self.delay)
        while self.holds and self.holds in link.get("asked", b""):
            await asyncio.sleep(0.01)
        return data


class Forgetful(Proxy):
    """Forgets connections: it goes on, and passes nothing more."""

    def __init__(self, to):
        self.links = []
        super().__init__(to)

    async def passed(self, data, link, answers):
        if not link:
            link["is_forgotten"] = False
            self.links.append(link)
        link["at"] = time.monotonic()
        return b"" if link["is_forgotten"] else data

    def forget(self, idle):
        """Forgets the connections that were idle for so many seconds. Returns how many."""
        chosen = [link for link in self.links if time.monotonic() - link["at"] > idle]
        for link in chosen:
            link["is_forgotten"] = True
        return len(chosen)
