"""A log in etcd 3.4 or later, over its JSON gateway: for processes of many machines."""
import base64
import contextlib
import json
import threading
import time
from typing import Callable, Dict, List, Sequence

from .etcd_gateway import NO_ANSWER, Gateway, coded
from .logs import TITLE, AppendOutcome, Away, Damaged, default_patience, write_title

# An endpoint that has sent nothing for so many seconds is left; pause before another one is asked.
SILENCE, PAUSE = 2.0, 0.01


class EtcdLog:
    """Entries under one prefix, a key for each tag, in the order of their revisions. Each append writes a key that counts them, so
    a removed one shows. They come by a watch, and after all that was done to them before comes a key that who opens the log writes."""

    def __init__(self, endpoints: Sequence[str], prefix: str, title: bytes = TITLE):
        self._gateway, self.prefix, self._lock = Gateway(endpoints), prefix.encode(), threading.Lock()
        self._range = {"key": coded(self.prefix + b"/entries/"), "range_end": coded(self.prefix + b"/entries0")}
        self._count, self._opened = coded(self.prefix + b"/count"), coded(self.prefix + b"/opened")
        self._entries, self._revision, self._damaged, self._watch = [], 0, None, None
        # The revisions of what was written when it was opened, and last.
        self._first, self._written = 0, 0
        write_title(self, title)
        # Where etcd is full, or is read-only, the log can be read all the same.
        with contextlib.suppress(Away):
            self._first = int(self._gateway.ask("kv/put", {"key": self._opened, "value": ""})["header"]["revision"])

    def append(self, tag: str, text: bytes) -> AppendOutcome:
        key = coded(self.prefix + b"/entries/" + tag.encode())
        puts = [{"request_put": {"key": one, "value": value}} for one, value in ((key, coded(text)), (self._count, ""))]
        free = {"key": key, "target": "CREATE", "result": "EQUAL", "create_revision": "0"}
        with contextlib.suppress(*NO_ANSWER):
            status, body = self._gateway.answer("kv/txn", {"compare": [free], "success": puts})
            if status == 200:
                found = json.loads(body)
                if not found.get("succeeded"):
                    return AppendOutcome.TAKEN
                self._written = int(found["header"]["revision"])
                return AppendOutcome.APPENDED
            if any(words in body for words in (b"too large", b"larger than max", b"space exceeded")):
                found = self._gateway.ask("kv/range", {"key": key, "count_only": True})
                return AppendOutcome.UNKNOWN if found.get("count") else AppendOutcome.REFUSED
        self._gateway.take_next()
        return AppendOutcome.UNKNOWN

    def read(self, index: int, wait: float = 0.0) -> List[bytes]:
        with self._lock:
            self._follow(lambda: len(self._entries) > index and self._revision >= self._written, wait)
            if len(self._entries) <= index and self._damaged is not None:
                raise Damaged(self._damaged)
            return self._entries[index:index + 1024]

    def length(self) -> int:
        """How many entries were counted; more than can be read where one was changed or removed, at least if that was before this was opened."""
        found = self._gateway.ask("kv/range", {"key": self._count}).get("kvs", [])
        with self._lock:
            while (seen := self._revision) < self._first and self._damaged is None:
                if not self._follow(lambda: self._revision > seen, default_patience()):
                    raise Away("etcd does not send the entries of the log")
            # What came meanwhile may say that an entry was changed.
            self._follow(lambda: False, 0.0)
            return max(int(found[0]["version"]) if found else 0, 0 if self._damaged is None else self._damaged + 1)

    def close(self) -> None:
        self._watch = None
        self._gateway.close()

    def _follow(self, is_so: Callable[[], bool], seconds: float) -> bool:
        """Reads what the watch says until something is so, an entry is damaged, or that many seconds are over. The lock is held."""
        end = time.monotonic() + seconds
        while not (is_so() or self._damaged is not None):
            left = end - time.monotonic()
            if not self._read_on(left) and left <= 0:
                return False
        return True

    def _read_on(self, seconds: float) -> bool:
        """Takes what the watch says next, within so many seconds; whether it says something. It begins with the first entry that is not known."""
        with contextlib.suppress(*NO_ANSWER):
            if self._watch is None:
                watch = {**self._range, "range_end": coded(self.prefix + b"/opened0"), "start_revision": str(self._revision + 1)}
                self._watch = self._gateway.lines("watch", {"create_request": watch}, SILENCE)
            lines = self._watch.next(min(seconds, SILENCE))
            is_silent = 0 < seconds and self._watch.heard + SILENCE < time.monotonic()
            if all(self._take(json.loads(line).get("result", {})) for line in lines) and not is_silent:
                return bool(lines)
        self._watch = None
        self._gateway.take_next()
        time.sleep(PAUSE)
        return False

    def _take(self, response: Dict) -> bool:
        """Takes an answer of the watch; whether it goes on."""
        if "compact_revision" in response:
            self._load()
        for event in response.get("events", []):
            kv = event["kv"]
            self._revision = int(kv["mod_revision"])
            if kv["key"] == self._opened:
                continue
            if event.get("type", "PUT") != "PUT" or kv.get("version") != "1":
                self._damaged = len(self._entries)
                break
            self._entries.append(base64.b64decode(kv.get("value", "")))
        return not response.get("canceled") and self._damaged is None

    def _load(self) -> None:
        """All entries as they are now, where etcd no longer knows how they came; as many as were ever counted."""
        entries = {**self._range, "sort_target": "CREATE", "sort_order": "ASCEND"}
        found = self._gateway.ask("kv/txn", {"success": [{"request_range": one} for one in (entries, {"key": self._count})]}, 30.0)
        kvs, counts = (answer["response_range"].get("kvs", []) for answer in found["responses"])
        texts = [base64.b64decode(kv.get("value", "")) for kv in kvs]
        if len(texts) != int(counts[0]["version"]) or texts[:len(self._entries)] != self._entries or any(kv["version"] != "1" for kv in kvs):
            self._damaged = len(self._entries)
        else:
            self._entries, self._revision = texts, int(found["header"]["revision"])
