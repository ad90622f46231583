"""campvc: its set-up, its size, sessions at a terminal, copies over SQLite, etcd and PostgreSQL, git both ways, and its page in a browser.

Words: coding, size, setup, help_texts, readme, sessions, etcd, postgres, git, page name parts; none: all. The library is found as golden/clients finds it. Etcd,
PostgreSQL with psycopg2, git, chromium and a Python with aiohttp and jinja2 are skipped where they are missing. Pictures of the page are left in out/campvc.

tests/data/campvc has the sessions. A line `session WORDS` begins one, in a folder of its own; `shared` among its words says that it is run over
etcd and PostgreSQL too. A line `NAME$ COMMAND` is a command for bash in the folder NAME, by the author of this name; what it writes follows, and
`[STATUS]` unless that is 0. LOG is the address of a log. In what is written the six digits of a patch's name stand as `#`, the folder of the
session as FOLDER, and the address as LOG.
"""

import contextlib
import functools
import glob
import html
import json
import os
import random
import re
import shutil
import signal
import sys
import tokenize
import urllib.parse
from concurrent.futures import ThreadPoolExecutor

from tests.harness import programs
from tests.harness.clients import built_library
from tests.harness.etcd import servers
from tests.harness.folders import temporary
from tests.harness.paths import DATA, TOP, read_text
from tests.harness.postgres import python_with_psycopg, server as server_of_postgres

SECONDS, GATE = 170, "after camp_c"
PARTS = ("coding", "size", "setup", "help_texts", "readme", "sessions", "etcd", "postgres", "git", "page")
AUTHORS = {"anna": "Anna Berg <anna@example.org>", "ben": "Ben Ole <ben@example.org>"}
DATE = "2026-11-30T03:00:00+00:00"
COMMAND = re.compile(r"^(\w+)\$ (.*)$")
# So many ports are tried for a page.
PORTS = 10
PACKAGES = (f"{TOP}/clients/python", f"{TOP}/apps/campvc")


def run(report, words):
    for name in (words or PARTS) if is_ready(report) else ():
        with temporary("campvc-") as folder:
            globals()[name](report, folder)


def is_ready(report):
    """Whether this machine has the library and a Python for campvc, which all that is started from now on finds."""
    library = built_library(report, makes=True)
    if library and not python_with(""):
        report.skip("Python 3.11")
    if not library or not python_with(""):
        return False
    # Beside proofs a log may get little of a processor.
    os.environ.update(CAMP_LIB_DIR=library, CAMP_PATIENCE="120")
    sys.path[:0] = PACKAGES
    return True


@functools.lru_cache(None)
def python_with(modules):
    """A Python 3.11 or later that has some modules, or None."""
    for it in dict.fromkeys((sys.executable, "/usr/bin/python3")):
        if os.path.exists(it) and programs.run([it, "-c", f"import sys {modules}; assert sys.version_info >= (3, 11)"]).returncode == 0:
            return it
    return None


def environment(folder, who="anna", **more):
    """The environment of a command: `campvc` is on the PATH, and names and dates are the same each time."""
    own = {"PATH": f"{folder}/bin:{os.environ['PATH']}", "PYTHONPATH": ":".join(PACKAGES), "PYTHONDONTWRITEBYTECODE": "1", "HOME": folder,
           "CAMPVC_COPY": who, "CAMPVC_AUTHOR": AUTHORS.get(who, who), "CAMPVC_DATE": DATE, "CAMPVC_PATIENCE": "300", "CAMPVC_SERVER": os.environ.get("CAMPVC_SERVER", "0"), "LC_ALL": "C.UTF-8"}
    return {**os.environ, **own, **more}


def prepare(folder, python=None):
    """Puts a command `campvc` into a folder, for a Python."""
    os.makedirs(f"{folder}/bin", exist_ok=True)
    with open(f"{folder}/bin/campvc", "w", encoding="utf-8") as file:
        file.write(f"#!/bin/sh\nexec {python or python_with('')} -m campvc \"$@\"\n")
    os.chmod(f"{folder}/bin/campvc", 0o755)


def call(folder, who, command, **more):
    """Runs a command of bash in the folder of somebody: its output with standard error, and its status."""
    os.makedirs(f"{folder}/{who}", exist_ok=True)
    return programs.run(["bash", "-c", f"exec 2>&1\n{command}"], cwd=f"{folder}/{who}", env=environment(folder, who, **more))


# Coding.

def random_files(chance):
    """A tree of files: odd names, modes, links, lines of all lengths."""
    from camp.coding import EXECUTABLE, LINK, PLAIN, SUBMODULE, File
    letters = [bytes([it]) for it in (*range(1, 47), *range(48, 256))]
    files = {}
    for _ in range(chance.randrange(6)):
        parts = [b"".join(chance.choices(letters, k=chance.randrange(1, 5))) for _ in range(chance.randrange(1, 4))]
        content = b"\n".join(chance.choice((b"", b"a", b"\0\r", b"+", b"=", b"x" * chance.choice((4_095, 4_096, 4_097, 8_190, 9_000)))) for _ in range(chance.randrange(5)))
        files[b"/".join(parts)] = File(chance.choice((PLAIN, PLAIN, EXECUTABLE, LINK, SUBMODULE)), content + chance.choice((b"", b"\n")))
    return files


def coding(report, folder):
    """Trees of files come back as they were, camp takes their paths and lines, and what is too long is named."""
    from camp import Add, Edit, Repository, diff
    from camp.changes import apply
    from camp.coding import File, PLAIN, Unheld, decode, encode
    chance = random.Random(1)
    for number in range(3_000):
        files = random_files(chance)
        tree = encode(files)
        report.expect(f"tree {number}", decode(tree), files)
        if number % 100 == 0:
            record_tree(report, tree, Repository, Add, Edit)
        path, old, new = "f", chance.choice((None, [b"a", b"b", b"c"])), [b"a", b"x", b"c"]
        lines = old
        for change in diff(path, old, new):
            lines = apply(lines, change)
        report.expect("apply", lines, new)
        report.count("trees")
    for name, content in ((b"x" * 198, b""), (b"\xff" * 67, b""), (b"x", b"\n" * 1_000_001)):
        with contextlib.suppress(Unheld):
            encode({name: File(PLAIN, content)})
            report.fail(f"a file that camp can't hold is encoded: {name[:10]}")
        report.count("files that are too long")


def record_tree(report, tree, Repository, Add, Edit):
    """A repository takes a tree, and answers it."""
    with Repository() as repository:
        for number, (path, lines) in enumerate(tree.items()):
            repository.record("main", f"p{number}", [Add(path), *([Edit(path, 1, [], lines)] if lines else [])])
        report.expect("tree of the repository", repository.tree("main"), tree)


# Its size.

# The lines that campvc may have, with its page.
LINES = 1_500
# Tokens that are no code.
BLANK = (tokenize.ENCODING, tokenize.COMMENT, tokenize.NL, tokenize.NEWLINE, tokenize.INDENT, tokenize.DEDENT, tokenize.ENDMARKER)


def size(report, folder):
    """Lines of code in Python, without comments and docstrings, and of the page's templates; blank lines do not count."""
    sources = glob.glob(f"{TOP}/apps/campvc/**/*.py", recursive=True)
    templates = glob.glob(f"{TOP}/apps/campvc/campvc/templates/*")
    count = sum(map(code_lines, sources)) + sum(bool(line.strip()) for path in templates for line in read_text(path).splitlines())
    report.expect(f"at most {LINES} lines", min(count, LINES), count)
    report.count("lines of campvc", count)


def code_lines(path):
    """The number of lines that have code in a source."""
    with open(path, "rb") as file:
        tokens = list(tokenize.tokenize(file.readline))
    found = set()
    for before, token, after in zip(tokens, tokens[1:], tokens[2:]):
        is_docstring = token.type == tokenize.STRING and before.type in BLANK and after.type == tokenize.NEWLINE
        if token.type not in BLANK and not is_docstring:
            found.update(range(token.start[0], token.end[0] + 1))
    return len(found)


# What its README says first, and the words of its commands.

def setup(report, folder):
    """The two commands of README: the packages are installed with what the page needs, and make a working copy."""
    import importlib.util
    import venv
    if not importlib.util.find_spec("ensurepip"):
        report.skip("a Python that makes virtual environments")
        return
    first, second = re.search(r"```text\n(.*)\n(.*)\n```", read_text(f"{TOP}/apps/campvc/README.md")).groups()
    report.expect("the first command", first, "clients/build && pip install clients/python apps/campvc")
    venv.create(f"{folder}/venv", with_pip=True)
    words = ["python", "-m", "pip", "install", "--quiet", "--no-index", "--disable-pip-version-check", *PACKAGES]
    bare = {name: value for name, value in os.environ.items() if name not in ("PYTHONPATH", "CAMP_LIB_DIR")}
    how = {"env": {**bare, "PATH": f"{folder}/venv/bin:{os.environ['PATH']}", "CAMPVC_AUTHOR": AUTHORS["anna"], "CAMPVC_COPY": "anna", "CAMPVC_SERVER": "0"}, "cwd": folder}
    done = programs.run([f"{folder}/venv/bin/{words[0]}", *words[1:]], cwd=folder, env={**how["env"], "CAMP_LIB_DIR": os.environ["CAMP_LIB_DIR"], "PYTHONDONTWRITEBYTECODE": "1"})
    report.expect("pip install", (done.returncode, done.stderr), (0, b""))
    done = programs.run(["bash", "-c", f"{second} && echo soup >menu && campvc record -m Menu && campvc log"], **how)
    report.expect("the second command", (done.returncode, done.stderr), (0, b""))
    report.expect("what it says", all(it in done.stdout for it in (b"copy anna of branch main", b"annotate", b"recorded menu-")), True)
    (installed,) = glob.glob(f"{folder}/venv/lib/python3*/site-packages/campvc")
    own = f"{TOP}/apps/campvc/campvc"
    report.expect("the templates", sorted(os.listdir(f"{installed}/templates")), sorted(os.listdir(f"{own}/templates")))
    report.count("commands of README", 2)


def help_texts(report, folder):
    """Each command of README has `--help`, which says what it does and explains its words; wrong words have git's exit status."""
    prepare(folder)
    table = re.findall(r"^\| (`.*) \|.*\|$", read_text(f"{TOP}/apps/campvc/README.md"), re.M)
    names = sorted(dict.fromkeys(it.split()[0] for row in table for it in re.findall(r"`([^`]*)`", row)))
    listed = call(folder, "anna", "campvc --help")
    report.expect("the commands of README", sorted(re.findall(r"^    (\w+)(?: |$)", listed.stdout.decode(), re.M)), names)
    for name in names:
        done = call(folder, "anna", f"campvc {name} --help")
        text = done.stdout.decode()
        report.expect(f"{name} --help", (done.returncode, text.startswith(f"usage: campvc {name} [-h]")), (0, True))
        report.expect(f"{name} --help: a sentence", bool(re.search(r"\n\n[A-Z][^\n]*", text)), True)
        report.count("helps")
    for words, status in (("", 129), ("nothing", 129), ("record --nothing", 129), ("show", 129), ("status more", 129), ("web --port x", 129), ("--version", 0), ("--help", 0)):
        done = call(folder, "anna", f"campvc {words}")
        report.expect(f"campvc {words}", (done.returncode, b"Traceback" in done.stdout), (status, False))
        report.count("command lines")


# Sessions.

def sessions_of(text):
    """The sessions of the table: their words, and steps of who, command and lines."""
    found = []
    for line in text.splitlines():
        step = COMMAND.match(line)
        if line.startswith("session "):
            found.append((line.replace(":", "").split()[1:], []))
        elif step and found:
            found[-1][1].append((step[1], step[2], []))
        elif found and found[-1][1]:
            found[-1][1][-1][2].append(line)
    return found


def shown(done, folder, address):
    """What a command wrote, without what differs from run to run."""
    text = done.stdout.decode("utf-8", "backslashreplace").replace(address, "LOG").replace(folder, "FOLDER")
    lines = re.sub(r"(?<=[a-z0-9])-[0-9a-f]{6}\b", "-#", text).rstrip("\n").split("\n")
    return [it for it in lines + [f"[{done.returncode}]"] * bool(done.returncode) if it or len(lines) > 1]


def play(report, folder, title, steps, address, python=None):
    """Runs the steps of a session, up to the first that writes something else."""
    prepare(folder, python)
    for who, command, wanted in steps:
        while wanted and not wanted[-1]:
            wanted.pop()
        done = call(folder, who, command, LOG=address)
        if not report.expect(f"{title}: {who}$ {command}", "\n".join(shown(done, folder, address)), "\n".join(wanted)):
            return
        report.count("commands")
    report.count("sessions")


def play_all(report, folder, address, is_wanted, python=None):
    """Plays the sessions of the table that are wanted, several at once; the address of a log is made of the number of its session."""

    def play_one(numbered):
        number, (words, steps) = numbered
        if is_wanted(words):
            play(report, f"{folder}/{number}", f"{address}: {' '.join(words)}", steps, address.format(number=number), python)

    with ThreadPoolExecutor(programs.JOBS) as pool:
        list(pool.map(play_one, enumerate(all_sessions())))


def all_sessions():
    return sessions_of(read_text(f"{DATA}/campvc"))


def readme(report, folder):
    """The conflict of README, as it is shown there, and as Ben ends it."""
    shown_there = re.search(r"## A conflict\n.*?```text\n(.*?)```", read_text(f"{TOP}/apps/campvc/README.md"), re.S)[1]
    prepare(folder)
    call(folder, "anna", "campvc init; printf 'soup\nbread\ncheese\n' >menu; campvc record -m 'The menu'")
    call(folder, "ben", "campvc clone ../anna .; sed -i s/bread/rolls/ menu")
    call(folder, "anna", "sed -i s/bread/'rye bread'/ menu; campvc record -m 'Rye bread'")
    ((_, steps),) = sessions_of("session readme\n" + re.sub(r"(?<=[a-z0-9])-[0-9a-f]{6}\b", "-#", shown_there))
    play(report, folder, "README", [(who, f"{command}; true", wanted) for who, command, wanted in steps], "LOG")
    done = call(folder, "ben", "printf 'soup\nrolls of rye\ncheese\n' >menu; campvc record -m 'Rolls of rye'; campvc status")
    report.expect("the end of README's conflict", (done.returncode, b"resolves the conflict of" in done.stdout, b"nothing to record" in done.stdout), (0, True, True))


def sessions(report, folder):
    play_all(report, folder, f"sqlite:{folder}/{{number}}/log.db", lambda words: True)


def etcd(report, folder):
    """The shared sessions over three members of etcd."""
    with servers(report, folder) as endpoints:
        if endpoints:
            play_all(report, folder, f"etcd:{endpoints}/s{{number}}", lambda words: "shared" in words)


DATABASES = """
import sys
import psycopg2
base = psycopg2.connect(host=sys.argv[1], user="camp", dbname="postgres")
base.autocommit = True
for number in range(int(sys.argv[2])):
    base.cursor().execute("CREATE DATABASE s%d" % number)
"""


def postgres(report, folder):
    """The shared sessions over a server of PostgreSQL, each in a database of its own."""
    python = python_with_psycopg()
    if not python:
        report.skip("PostgreSQL with psycopg2")
        return
    with server_of_postgres() as socket:
        done = programs.run([python, "-c", DATABASES, socket, str(len(all_sessions()))])
        report.expect("databases", (done.returncode, done.stderr), (0, b""))
        play_all(report, folder, f"postgres:postgresql://camp@/s{{number}}?host={socket}", lambda words: "shared" in words, python)


# Git.

def git(report, folder):
    """The trees of commits come in and go out as they are; a second import brings what is new."""
    if not shutil.which("git"):
        report.skip("git")
        return
    prepare(folder)
    own = "git -c user.name=Cleo -c user.email=cleo@example.org -c init.defaultBranch=main"
    commits = (f"{own} init -q .; printf 'one\\ntwo' >f; mkdir d; printf 'a\\0b' >d/b; ln -s f l; {own} add -A; {own} commit -qm 'First'\n"
               f"chmod +x f; echo three >>f; printf 'x' >'ü \"q\"'; {own} add -A; {own} commit -qm 'Second\n\nwith a body'; {own} commit -q --allow-empty -m 'Nothing'\n"
               f"{own} checkout -qb side HEAD~1; seq 300 >n; rm l; mkdir l; echo in >l/f; {own} add -A; {own} commit -qm 'Side'; {own} checkout -q main; {own} merge -q -m 'Merge' side")
    report.expect("commits", call(folder, "git", commits).stdout, b"")
    done = call(folder, "anna", "campvc init >/dev/null; campvc import ../git; campvc import ../git; campvc status")
    wanted = b"4 of 4 commits came in\n0 of 4 commits came in\non branch main (copy anna)\n  nothing to record\n"
    report.expect("import", done.stdout, wanted)
    report.expect("the working tree", call(folder, "anna", "diff -r --no-dereference -x .git -x .camp . ../git").stdout, b"")
    call(folder, "anna", "campvc export --to ../out")
    trees = "git log --first-parent --format='%T %an %ae %at %B' main"
    report.expect("export", call(folder, "out", trees).stdout, call(folder, "git", trees).stdout)
    call(folder, "git", f"seq 400 >n; {own} commit -qam 'More'; for i in $(seq 90); do echo $i >m$i; done; {own} add -A; {own} commit -qm 'Much'")
    report.expect("a second import", call(folder, "anna", "campvc import ../git; campvc export | git -C ../out fast-import --quiet --force").stdout, b"2 of 6 commits came in\n")
    tree = "git rev-parse main^{tree}"
    report.expect("the last tree", call(folder, "out", tree).stdout, call(folder, "git", tree).stdout)
    report.expect("a branch with files takes no import", call(folder, "ben", "campvc init >/dev/null; echo x >x; campvc record -m x >/dev/null; campvc import ../git").returncode, 1)
    report.count("commits", 6)


# The page.

STORY = r"""
campvc init --log $LOG
printf 'soup\nbread\ncheese\n' >menu; campvc record -m 'The menu of the week'
printf '#!/bin/sh\necho "<script>document.title = 1</script>" & \033[31m\xff\n' >'a <b> "c".sh'; campvc record -m 'A script <script>alert(1)</script>

It prints <img src=//example.org/x.png>, which is text.'
(mkdir ../ben; cd ../ben; export CAMPVC_COPY=ben CAMPVC_AUTHOR='Ben <b>Ole</b> <ben@example.org>'; campvc clone $LOG
 printf 'soup\nrolls\nand butter, on a line that is so long that no window of 320 pixels shows the whole of it: it has to be broken\ncheese\n' >menu
 echo 9 to 5 >hours; campvc record -m 'Rolls and butter instead of the bread that nobody eats any more')
sed -i s/bread/'rye bread'/ menu; echo 10 to 6 >hours; campvc record -m 'Rye bread'; campvc sync; echo wine >>menu; campvc record -m 'Wine'; campvc branch empty-talk
"""


MANY = """
import sys
from camp import Add, Edit
from camp.changes import command, record_command
from camp.logs import open_log
from camp.shared import Shared
with Shared(open_log(sys.argv[1])) as shared:
    shared.sync()
    records = [record_command("large", "p%d" % at, [Add("f%d" % at)] if at % 2 else [Edit("menu", 1, [], ["line"])]) for at in range(260)]
    shared.write_all([(call, b"") for call in [command("branch", "large", "empty-talk"), *records]])
"""


@contextlib.contextmanager
def server(folder, python, *words, **more):
    """A page that is served: its address. Another port is tried where a program has the first one."""
    for _ in range(PORTS):
        command = [python, "-m", "campvc", "web", "--port", str(random.randrange(20_000, 30_000)), *words]
        process = programs.start(command, cwd=f"{folder}/anna", env=environment(folder, **more), start_new_session=True)
        address = process.stdout.readline().decode().strip()
        if address or b"can't be served" not in process.communicate()[1]:
            break
    try:
        yield address
    finally:
        if process.poll() is None:
            os.kill(process.pid, signal.SIGINT)
            process.communicate(timeout=programs.TIMEOUT)


def fetch(address, **headers):
    """The status, headers and text of a page."""
    import urllib.error
    import urllib.request
    try:
        with urllib.request.urlopen(urllib.request.Request(address, headers=headers), timeout=programs.TIMEOUT) as found:
            return found.status, found.headers, found.read().decode()
    except urllib.error.HTTPError as error:
        return error.code, error.headers, error.read().decode()


def page(report, folder):
    python = python_with(", aiohttp, jinja2")
    if not python:
        report.skip("aiohttp and jinja2")
        return
    prepare(folder)
    how = {"LOG": f"sqlite:{folder}/log.db"}
    call(folder, "anna", STORY, **how)
    with server(folder, python, **how) as address:
        views(report, address.rstrip("/"))
        links(report, address.rstrip("/"))
        call(folder, "anna", "echo later >later; campvc record -m 'Later than the page'", **how)
        report.expect("the page shows what was recorded since", "Later than the page" in fetch(f"{address}b/main")[2], True)
        large(report, folder, python, address.rstrip("/"), how)
        look(report, folder, python, address.rstrip("/"))
    with server(folder, python, "--host", "0.0.0.0", CAMPVC_TOKEN="secret", **how) as address:
        guarded(report, address)


def views(report, address):
    """Each view says what it is for, as text that is escaped; what is not there is 404; names of other sites are refused."""
    names = {name.rsplit("-", 1)[0]: name for name in re.findall(r'href="/b/main/patch/([^"]*)"', fetch(f"{address}/b/main")[2])}
    wanted = {
        "/": ["main", "empty-talk", "main--anna", "unresolved conflict"],
        "/b/main": ["The menu of the week", "A script &lt;script&gt;alert(1)&lt;/script&gt;", "in conflict with", "<svg", "Ben &lt;b&gt;Ole&lt;/b&gt;", "a &lt;b&gt; &#34;c&#34;.sh"],
        f"/b/main/patch/{names['wine']}": ["Held by", "no other patch", "+wine", "Anna Berg"],
        f"/b/main/patch/{names['rye-bread']}": ["Needs", "In conflict with", "unresolved", "-bread", "+rye bread"],
        f"/b/main/patch/{names['a-script-script-alert-1-sc']}": ["new file", "+echo &#34;&lt;script&gt;", "\\x1b[31m\\xff", "&lt;img src=//example.org/x.png&gt;"],
        "/b/main/file?path=a%2520%3Cb%3E%2520%22c%22.sh": ["&lt;script&gt;document.title = 1&lt;/script&gt;", "\\x1b[31m", "\\xff", "Anna Berg"],
        "/b/main/conflicts": ["as it is now", "rye bread", "and butter", "10 to 6", "9 to 5"],
    }
    for path, words in wanted.items():
        status, headers, text = fetch(address + path)
        report.expect(f"{path}: status", status, 200)
        report.expect(f"{path}: what it lacks", [it for it in words if it not in text], [])
        report.expect(f"{path}: scripts", "<script" in text or "<img" in text, False)
        report.expect(f"{path}: policy", headers["Content-Security-Policy"].startswith("default-src 'none'"), True)
        report.count("views")
    for path in ("/b/nowhere", "/b/main/patch/nothing", "/b/main/file?path=nothing", "/b/main/file?path=a%20b", "/b/main/file", "/b/A%20b", "/nowhere", "/b/main?from=x"):
        status, _, text = fetch(address + path)
        report.expect(f"{path}: status", status, 404)
        report.expect(f"{path}: no trace", "Traceback" in text or "Internal" in text, False)
        report.count("wrong addresses")
    report.expect("the name of another site", fetch(f"{address}/", Host="example.org")[0], 403)
    report.expect("a file that is not there has no link", "hours</h2>" in fetch(f"{address}/b/main/conflicts")[2], True)


def links(report, address):
    """Each link of a page leads to a page."""
    left, seen = ["/"], set()
    while left:
        path = left.pop()
        if path not in seen:
            status, _, text = fetch(address + path)
            report.expect(f"{path}: a link to it", status, 200)
            left += [urllib.parse.urljoin(path, html.unescape(it)) for it in re.findall(r'href="([^"#:]*)"', text)]
        seen.add(path)
    report.count("links", len(seen))


def large(report, folder, python, address, how):
    """A branch of more than 250 patches is shown 100 at a time, without its graph; what is not asked for at first is a link."""
    done = programs.run([python, "-c", MANY, how["LOG"]], env=environment(folder))
    report.expect("a large branch", (done.returncode, done.stderr), (0, b""))
    call(folder, "anna", "campvc sync", **how)
    for path, first, links in (("", "p259", {"?from=100", "?files=all"}), ("?from=100", "p159", {"?from=0", "?from=200"}), ("?from=200", "p59", {"?from=100"})):
        text = fetch(f"{address}/b/large{path}")[2]
        report.expect(f"/b/large{path}: the first patch", re.findall(r"/b/large/patch/([^\"]*)", text)[0], first)
        report.expect(f"/b/large{path}: links", links - set(re.findall(r'href="(\?[^"]*)"', text)), set())
        report.count("pages of a large branch")
    report.expect("files of a large branch", "/b/large/file?path=f1\"" in fetch(f"{address}/b/large?files=all")[2], True)
    report.expect("a patch of a large branch", 'href="?needs=all"' in fetch(f"{address}/b/large/patch/p258")[2], True)
    report.expect("what it needs", "/b/large/patch/p256\"" in fetch(f"{address}/b/large/patch/p258?needs=all")[2], True)
    report.expect("a picture of conflicts", "rye-bread" in html.unescape(fetch(f"{address}/b/main/picture")[2]), True)


def guarded(report, address):
    """Beyond loopback the page wants its token, which then is a cookie."""
    bare, _, query = address.replace("0.0.0.0", "127.0.0.1").partition("?")
    report.expect("the printed address", query, "token=secret")
    for path, headers, status in (("", {}, 403), ("?token=wrong", {}, 403), ("", {"Cookie": "token=secret"}, 200), ("b/main", {"Cookie": "token=wrong"}, 403), ("style.css", {}, 403)):
        report.expect(f"{path} with {headers}", fetch(bare + path, **headers)[0], status)
        report.count("tokens")


def look(report, folder, python, address):
    """The views in Chromium, with pictures: nothing leaves the machine, 320 pixels suffice, links have names and are reached."""
    if not shutil.which("chromium"):
        report.skip("chromium")
        return
    pictures = f"{TOP}/out/campvc"
    shutil.rmtree(pictures, ignore_errors=True)
    os.makedirs(pictures)
    rye = re.search(r"/b/main/patch/rye-bread-\w*", fetch(f"{address}/b/main")[2])[0]
    paths = ["/", "/b/main", rye, "/b/main/file?path=menu", "/b/main/file?path=a%2520%3Cb%3E%2520%22c%22.sh", "/b/main/conflicts", "/b/nowhere"]
    done = programs.run([python, f"{TOP}/tests/harness/browser.py", pictures, address, *paths], env=environment(folder))
    report.expect("the browser", (done.returncode, done.stderr[-400:]), (0, b""))
    for line in done.stdout.decode().splitlines():
        facts = json.loads(line)
        path, well = facts["path"], {"headings": 1, "lang": "en", "scripts": 0, "unreached": 0, "nameless": 0, "outside": []}
        report.expect(f"{path} in the browser", {key: facts[key] for key in well}, well)
        report.expect(f"{path}: status", facts["status"], [404 if "nowhere" in path else 200])
        report.expect(f"{path}: words in the console", [it for it in facts["console"] if "404" not in it], [])
        report.expect(f"{path}: at most 320 pixels wide", facts["width"] <= 320, True)
        report.count("pictures", 2)
