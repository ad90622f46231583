"""Looks at pages in headless Chromium, through its debugging port: `python3 browser.py FOLDER ADDRESS PATH ..`, with a Python that has aiohttp.

Prints a line of JSON for each path: its status, title, text and headings; whether it has a script, a request that leaves the machine or words in
the console; how wide it is in a window of 320 pixels; links that the keyboard does not reach, and what has no name for a screen reader.
Pictures go into FOLDER, with scripts switched off: 1,000 and 320 pixels wide.
"""

import asyncio
import base64
import contextlib
import itertools
import json
import re
import sys
import tempfile

# Seconds after which a browser counts as hanging.
LIMIT = 1800
FACTS = """JSON.stringify({
  title: document.title, text: document.body.innerText, headings: [...document.querySelectorAll('h1')].length, lang: document.documentElement.lang,
  scripts: document.scripts.length, width: document.documentElement.scrollWidth,
  unreached: [...document.querySelectorAll('a')].filter(a => a.tabIndex < 0 || !a.href).length,
  nameless: [...document.querySelectorAll('a')].filter(a => !a.innerText.trim()).length + [...document.querySelectorAll('svg:not([aria-hidden])')].length
    + [...document.querySelectorAll('nav:not([aria-label])')].length
})"""


class Browser:
    """A browser, and its events."""

    def __init__(self, socket):
        self.socket, self.numbers, self.answers, self.events = socket, itertools.count(1), {}, []

    async def listen(self):
        async for message in self.socket:
            found = json.loads(message.data)
            if "id" in found:
                self.answers.pop(found["id"]).set_result(found)
            else:
                self.events.append(found)

    async def ask(self, method, **parameters):
        number = next(self.numbers)
        self.answers[number] = asyncio.get_running_loop().create_future()
        await self.socket.send_json({"id": number, "method": method, "params": parameters})
        found = await asyncio.wait_for(self.answers[number], LIMIT)
        if "error" in found:
            raise RuntimeError(f"{method}: {found['error']}")
        return found["result"]

    async def happens(self, method):
        for _ in range(20 * LIMIT):
            if any(it["method"] == method for it in self.events):
                return
            await asyncio.sleep(0.05)
        raise RuntimeError(f"{method} did not happen")

    async def open(self, address, width):
        self.events.clear()
        await self.ask("Emulation.setDeviceMetricsOverride", width=width, height=800, deviceScaleFactor=1, mobile=False)
        await self.ask("Page.navigate", url=address)
        await self.happens("Page.loadEventFired")

    async def picture(self, path):
        found = await self.ask("Page.captureScreenshot", format="png", captureBeyondViewport=True)
        with open(path, "wb") as file:
            file.write(base64.b64decode(found["data"]))


async def look(browser, folder, address, path):
    """The facts of a page, and its pictures."""
    name = re.sub(r"[^a-z0-9]+", "-", path.lower()).strip("-") or "branches"
    await browser.ask("Emulation.setScriptExecutionDisabled", value=True)
    await browser.open(address + path, 1000)
    asked = [it["params"] for it in browser.events if it["method"] == "Network.requestWillBeSent"]
    outside = [it["request"]["url"] for it in asked if not it["request"]["url"].startswith((address + "/", "data:"))]
    status = [it["params"]["response"]["status"] for it in browser.events if it["method"] == "Network.responseReceived"][:1]
    words = [it["params"]["entry"]["text"] for it in browser.events if it["method"] == "Log.entryAdded"]
    await browser.picture(f"{folder}/{name}-1000.png")
    await browser.open(address + path, 320)
    await browser.picture(f"{folder}/{name}-320.png")
    await browser.ask("Emulation.setScriptExecutionDisabled", value=False)
    facts = json.loads((await browser.ask("Runtime.evaluate", expression=FACTS))["result"]["value"])
    return {**facts, "path": path, "status": status, "outside": outside, "console": words}


async def first_of(ask):
    """The first answer that is not None, asked for again and again."""
    for _ in range(10 * LIMIT):
        found = await ask()
        if found is not None:
            return found
        await asyncio.sleep(0.1)
    raise RuntimeError("the browser does not start")


async def port_in(profile):
    """The port that the browser says in its folder, once the line is whole."""
    with contextlib.suppress(OSError):
        with open(f"{profile}/DevToolsActivePort", encoding="ascii") as file:
            line = file.readline()
        return line.strip() if line.endswith("\n") else None
    return None


async def page_at(session, port):
    """The address of the browser's first page, once it has one."""
    async with session.get(f"http://127.0.0.1:{port}/json") as found:
        pages = [it["webSocketDebuggerUrl"] for it in await found.json() if it["type"] == "page"]
    return pages[0] if pages else None


async def main(folder, address, paths):
    import aiohttp
    # Processes of the browser may still write into its folder while it is removed.
    with tempfile.TemporaryDirectory(prefix="browser-", ignore_cleanup_errors=True) as profile:
        flags = ["--headless", "--no-sandbox", "--disable-gpu", "--hide-scrollbars", "--no-first-run", "--disable-background-networking", "--remote-debugging-port=0"]
        process = await asyncio.create_subprocess_exec(
            "chromium", *flags, f"--user-data-dir={profile}", "about:blank", stdout=asyncio.subprocess.DEVNULL, stderr=asyncio.subprocess.DEVNULL)
        try:
            port = await first_of(lambda: port_in(profile))
            async with aiohttp.ClientSession() as session:
                target = await first_of(lambda: page_at(session, port))
                async with session.ws_connect(target, max_msg_size=0) as socket:
                    browser = Browser(socket)
                    listening = asyncio.create_task(browser.listen())
                    for domain in ("Page", "Network", "Log", "Runtime"):
                        await browser.ask(f"{domain}.enable")
                    for path in paths:
                        print(json.dumps(await look(browser, folder, address, path)), flush=True)
                    listening.cancel()
        finally:
            process.terminate()
            await process.wait()


if __name__ == "__main__":
    asyncio.run(main(sys.argv[1], sys.argv[2], sys.argv[3:]))
