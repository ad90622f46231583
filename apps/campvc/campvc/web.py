"""The page: branches, patches with their graph, files with who wrote each line, conflicts side by side.

It is read-only. It serves loopback; at another address it wants a token. Its HTML is made here, needs no script and loads nothing from
other machines. jinja2 escapes what users wrote, and `readable` what is not printable."""

from __future__ import annotations

import hmac
import os
import re
import secrets
import shutil
import subprocess
import sys
from itertools import groupby
from typing import Any, Dict, List, Tuple

import jinja2
from aiohttp import web

from camp import Edit, Fault, Hunk, NoBranch, NoPatch, sides
from camp.coding import decode_path, encode_path, file_name
from camp.described import change_lines
from camp.lanes import Row, lanes
from camp.worktree import text

from . import Failure, show
from .copy import Copy, find_top

LOOPBACK = ("127.0.0.1", "::1", "localhost")
# Patches on a page; lines around a conflict; the width of a lane in pixels.
PAGE, CONTEXT, LANE = 100, 3, 14
HEADERS = {
    "Content-Security-Policy": "default-src 'none'; style-src 'self'; img-src data:; base-uri 'none'; form-action 'none'; "
                               "frame-ancestors 'none'",
    "X-Content-Type-Options": "nosniff", "Referrer-Policy": "no-referrer", "Cache-Control": "no-store",
}
TEMPLATES = os.path.join(os.path.dirname(os.path.abspath(__file__)), "templates")


def readable(line: bytes | str) -> str:
    """Renders a line: bytes that are no text and characters that are not printable are escaped."""
    found = line.decode("utf-8", "backslashreplace") if isinstance(line, bytes) else line
    return "".join(c if c.isprintable() or c == "\t" else c.encode("unicode_escape", "replace").decode() for c in found)


class Page:
    """The views of a working copy. Each request first reads what other commands have changed."""

    def __init__(self, top: bytes, token: str) -> None:
        self.token, self.copy = token, Copy(top)
        self.copy.open()
        self.version = self.copy.version()
        # Loaded before the first request, so that none waits for that.
        self.copy.shared.accepted
        loader = jinja2.FileSystemLoader(TEMPLATES)
        self.templates = jinja2.Environment(loader=loader, autoescape=True, trim_blocks=True, lstrip_blocks=True)
        self.templates.filters["readable"] = readable

    def application(self) -> web.Application:
        app = web.Application(middlewares=[self.guard])
        views = {"": self.branch, "/conflicts": self.conflicts, "/picture": self.picture, "/file": self.file, "/patch/{name}": self.patch}
        app.add_routes([web.get("/b/{branch}" + path, view) for path, view in views.items()])
        app.add_routes([web.get("/", self.branches), web.get("/style.css", self.style)])
        return app

    @web.middleware
    async def guard(self, request: web.Request, handler: Any) -> web.StreamResponse:
        """Decides who may see the page, renders errors, and adds the headers of each response."""
        try:
            refused = self._refused(request)
            response = await handler(request) if refused is None else refused
        except (NoBranch, NoPatch, Failure) as error:
            response = self.render("error.html", 404, message=str(error))
        except (Fault, ValueError):
            response = self.render("error.html", 404, message="there is nothing of this name")
        except web.HTTPException as error:
            response = self.render("error.html", error.status, message=error.reason)
        response.headers.update(HEADERS)
        return response

    def _refused(self, request: web.Request) -> web.Response | None:
        """Refuses other sites' names for this machine, and who does not have the token. A token in the address becomes a cookie."""
        if not self.token:
            is_here = re.sub(r":\d+$", "", request.host).strip("[]") in LOOPBACK
            return None if is_here else self.render("error.html", 403, message="this page answers to localhost alone")
        given = request.query.get("token", "")
        if given and hmac.compare_digest(given.encode(), self.token.encode()):
            response = web.Response(status=303, headers={"Location": request.path})
            response.set_cookie("token", self.token, httponly=True, samesite="Strict")
            return response
        if hmac.compare_digest(request.cookies.get("token", "").encode(), self.token.encode()):
            return None
        return self.render("error.html", 403, message="open the address that `campvc web` has printed, with its token")

    def now(self) -> Copy:
        """Returns the working copy as it is now."""
        version = self.copy.version()
        if version != self.version:
            self.copy.open()
            self.version = version
        return self.copy

    def link(self, branch: str, path: str) -> Tuple[str, str]:
        """Returns the name of a file, and its path if the branch has it."""
        file = file_name(path)
        return text(file), encode_path(file) if self.copy.repository.file(branch, encode_path(file)) is not None else ""

    def render(self, template: str, status: int = 200, **values: Any) -> web.Response:
        found = self.templates.get_template(template).render(copy=self.copy, text=text, file_name=file_name, **values)
        return web.Response(text=found, status=status, content_type="text/html")

    async def style(self, request: web.Request) -> web.StreamResponse:
        return web.FileResponse(os.path.join(TEMPLATES, "style.css"))

    async def branches(self, request: web.Request) -> web.Response:
        copy, rows = self.now(), []
        for name in copy.repository.branches():
            names = copy.repository.names(name)
            rows.append((name, len(names), len(sides.open_pairs(copy.repository, name)), copy.note(names[-1]) if names else None, "--" in name))
        return self.render("branches.html", rows=sorted(rows, key=lambda row: row[4]))

    async def branch(self, request: web.Request) -> web.Response:
        """Shows the newest patches, and older ones page by page. A branch of many patches has no lanes, and its files are a link."""
        copy, branch, first = self.now(), request.match_info["branch"], max(0, int(request.query.get("from", "0")))
        names, states = copy.repository.names(branch), show.states_of(copy, branch)
        is_large = len(names) > show.MOST_WITH_GRAPH
        needs = {} if is_large else show.needs_of(copy, branch)
        rows = [Row(name, 0, [], [], False) for name in reversed(names)] if is_large else list(lanes(needs))
        shown = rows[first:first + PAGE]
        width = max([1, *(len(some) for row in shown for some in (row.before, row.after))])
        step = min(LANE, 168 / width)
        patches = [(row.name, copy.note(row.name), needs.get(row.name), states.get(row.name, ""), drawn(row, needs, step)) for row in shown]
        paths = copy.repository.tree(branch) if not is_large or "files" in request.query else None
        files = paths and [(text(file_name(path)), path) for path in paths if decode_path(path) is not None]
        return self.render(
            "branch.html", branch=branch, patches=patches, files=files, width=step * width, unresolved=len(sides.open_pairs(copy.repository, branch)),
            later=max(0, first - PAGE) if first else None, earlier=first + PAGE if first + PAGE < len(rows) else None,
            is_large=is_large)

    async def picture(self, request: web.Request) -> web.Response:
        """Draws the patches in unresolved conflicts and what they need; writes DOT if Graphviz is not installed."""
        source, dot = self.now().repository.picture(request.match_info["branch"], only_open=True), shutil.which("dot")
        if not dot:
            return web.Response(text=source)
        done = subprocess.run([dot, "-Tsvg"], input=source.encode(), stdout=subprocess.PIPE, check=True)
        return web.Response(body=done.stdout, content_type="image/svg+xml")

    async def patch(self, request: web.Request) -> web.Response:
        """Shows a patch, with what it needs directly and what it holds; in a branch of many patches that is a link, to all that it needs."""
        copy, branch, name = self.now(), request.match_info["branch"], request.match_info["name"]
        shown, unresolved = copy.repository.show(branch, name).changes, sides.open_pairs(copy.repository, branch)
        is_large, needs, held = len(copy.repository.names(branch)) > show.MOST_WITH_GRAPH, None, None
        if not is_large or "needs" in request.query:
            needs = copy.repository.needs(branch, [name]) if is_large else show.needs_of(copy, branch)[name]
            needs, held = ([it for it in some if it != name] for some in (needs, copy.repository.held(branch, [name])))
        conflicts = [pair for pair in copy.repository.conflicts(branch) if name in pair]
        pairs = [(other, pair in unresolved) for pair in conflicts for other in pair if other != name]
        changes = copy.repository.side(branch, name) if pairs else shown
        files = [(*self.link(branch, path), list(some)) for path, some in groupby(changes, lambda change: change.path)]
        return self.render("patch.html", branch=branch, name=name, note=copy.note(name), needs=needs, held=held, pairs=pairs,
                           files=files, words=words_of)

    async def file(self, request: web.Request) -> web.Response:
        copy, branch, path = self.now(), request.match_info["branch"], request.query.get("path", "")
        lines = copy.repository.annotate(branch, path)
        if lines is None:
            raise Failure("there is no such file in {}".format(branch))
        blocks, at = [], 1
        for name, some in groupby(lines, lambda line: line.name):
            block = [line.line for line in some]
            blocks.append((name, copy.note(name), at, block))
            at += len(block)
        return self.render("file.html", branch=branch, path=path, blocks=blocks)

    async def conflicts(self, request: web.Request) -> web.Response:
        copy, branch = self.now(), request.match_info["branch"]
        files = [(*self.link(branch, path), pairs, places(sides.hunks(copy.repository, branch, path, pairs)))
                 for path, pairs in sides.unresolved(copy.repository, branch).items()]
        return self.render("conflicts.html", branch=branch, files=files)


def drawn(row: Row, needs: Dict[str, List[str]], step: float) -> Dict[str, Any]:
    """Returns the lines of a row of the graph, in a box 100 high, from the lanes above to those below; and where its dot is."""
    x = {name: step * (lane + 0.5) for lane, name in enumerate(row.after)}
    own = step * (row.lane + 0.5)
    lines = [(step * (lane + 0.5), 0, x[it], 100) for lane, it in enumerate(row.before) if it != row.name]
    lines += [(own, 50, x[it], 100) for it in needs.get(row.name, [])] + [(own, 0, own, 50)] * row.is_needed
    return {"lines": lines, "dot": own}


def words_of(change: Any) -> str:
    """Says what a change does; nothing for an edit, of which the lines are shown."""
    shown = [readable(line) for line, _ in change_lines([change])]
    return shown[0] if shown and not (isinstance(change, Edit) and " line " in shown[0]) else ""


def places(hunks: sides.Hunks) -> List[Tuple[int, List[bytes], Hunk, List[bytes]]]:
    """Returns the hunks of a conflict, each with its line number and a few lines around it."""
    found, at = [], 1
    for number, hunk in enumerate(hunks):
        if isinstance(hunk, bytes):
            at += 1
            continue
        before, after = hunks[max(0, number - CONTEXT):number], hunks[number + 1:number + 1 + CONTEXT]
        if hunk.sides:
            found.append((at, [it for it in before if isinstance(it, bytes)], hunk, [it for it in after if isinstance(it, bytes)]))
        at += len(hunk.lines)
    return found


def serve(port: int, host: str) -> int:
    """Serves until Ctrl-C."""
    token = "" if host in LOOPBACK else os.environ.get("CAMPVC_TOKEN") or secrets.token_urlsafe(16)
    page = Page(find_top(), token)

    def tell(line: str) -> None:
        if "Running on" in line:
            show.emit("http://{}:{}/{}".format("[{}]".format(host) if ":" in host else host, port, token and "?token=" + token))
            show.emit("Ctrl-C ends")
            sys.stdout.flush()

    try:
        web.run_app(page.application(), host=host, port=port, print=tell, access_log=None)
    except (OSError, OverflowError) as error:
        problem = "port {} of {} can't be served: {}; take another one with --port"
        raise Failure(problem.format(port, host, getattr(error, "strerror", error)), 128) from None
    return 0
