"""Three members of etcd, each in a network of its own, whose links can be cut. It needs root, and the command ip."""

import contextlib
import json
import os
import shutil
import subprocess
import sys

from tests.harness import programs

# On a machine with other work a member may not run for a second, and is no worse a leader for that.
PATIENCE = ["--heartbeat-interval", "300", "--election-timeout", "3000"]
ASK = """
import sys, urllib.request
with urllib.request.urlopen("http://%s/v3/%s" % tuple(sys.argv[1:3]), sys.argv[3].encode(), timeout=30) as response:
    print(response.read().decode())
"""


def is_there():
    """Whether networks can be made here."""
    if os.geteuid() or not shutil.which("ip") or not shutil.which("etcd"):
        return False
    name = f"camp{os.getpid()}"
    made = subprocess.run(["ip", "netns", "add", name], stderr=subprocess.DEVNULL, check=False).returncode == 0
    if made:
        subprocess.run(["ip", "netns", "del", name], check=True)
    return made


class Networks:
    """A network that programs run in by the words `within`, and a member of etcd behind each of three links of it."""

    def __init__(self, folder):
        self.hub, self.folder, self.peers, self.names = f"camp{os.getpid()}", folder, [], []
        self.within = ["ip", "netns", "exec", self.hub]
        self.endpoints = [f"10.0.0.{at}:2379" for at in (1, 2, 3)]

    def __enter__(self):
        try:
            self.add(self.hub)
            self.ip("link", "add", "bridge", "type", "bridge")
            self.ip("addr", "add", "10.0.0.254/24", "dev", "bridge")
            self.ip("link", "set", "bridge", "up")
            for at in (1, 2, 3):
                self.begin(at)
            return self
        except BaseException:
            self.end()
            raise

    def __exit__(self, *_):
        self.end()

    def end(self):
        for peer in self.peers:
            peer.kill()
            peer.wait()
        for name in self.names:
            subprocess.run(["ip", "netns", "del", name], check=False)

    def add(self, name):
        subprocess.run(["ip", "netns", "add", name], check=True)
        self.names.append(name)

    def ip(self, *words, name=None):
        subprocess.run(["ip", "-n", name or self.hub, *words], check=True)

    def begin(self, at):
        """Starts a member behind a link of its own."""
        name = f"{self.hub}-{at}"
        self.add(name)
        self.ip("link", "add", f"link{at}", "type", "veth", "peer", "name", "inner", "netns", name)
        self.ip("link", "set", f"link{at}", "master", "bridge", "up")
        self.ip("addr", "add", f"10.0.0.{at}/24", "dev", "inner", name=name)
        for link in ("inner", "lo"):
            self.ip("link", "set", link, "up", name=name)
        client, peer = f"http://10.0.0.{at}:2379", f"http://10.0.0.{at}:2380"
        urls = ["--listen-client-urls", client, "--advertise-client-urls", client, "--listen-peer-urls", peer, "--initial-advertise-peer-urls", peer]
        cluster = ",".join(f"m{it}=http://10.0.0.{it}:2380" for it in (1, 2, 3))
        words = ["etcd", "--name", f"m{at}", "--data-dir", f"{self.folder}/m{at}", "--initial-cluster", cluster, *urls, *PATIENCE]
        with open(f"{self.folder}/m{at}.log", "wb") as log:
            self.peers.append(subprocess.Popen(["ip", "netns", "exec", name, *words], stdin=subprocess.DEVNULL, stdout=log, stderr=log))

    @contextlib.contextmanager
    def cut(self, *numbers):
        """Cuts the links of some members."""
        for at in numbers:
            self.ip("link", "set", f"link{at}", "down")
        try:
            yield
        finally:
            for at in numbers:
                self.ip("link", "set", f"link{at}", "up")

    def leader(self):
        """The number of the member that leads, as soon as one does."""
        while True:
            for at, endpoint in enumerate(self.endpoints, 1):
                done = programs.run([*self.within, sys.executable, "-c", ASK, endpoint, "maintenance/status", "{}"])
                found = json.loads(done.stdout) if done.returncode == 0 else {}
                if found and found.get("leader") == found["header"]["member_id"]:
                    return at
