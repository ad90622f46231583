"""What a copy of campvc keeps to be fast: a cache that is cut, old or of another log shows nothing wrong, and a server answers as a process does.

Words: damage, copies, server; none: all. The library is found as golden/clients finds it.
"""

import contextlib
import os
import random
import shutil
import signal
import sqlite3
import tempfile
import time

from tests.golden.campvc import call, environment, is_ready, play_all, prepare
from tests.harness import programs

SECONDS, GATE = 60, "after camp_c"
PARTS = ("damage", "copies", "server")
STORY = """campvc init --log $LOG >/dev/null; printf 'soup\\nbread\\ncheese\\n' >menu; campvc record -m 'The menu of the week'
echo 9 to 5 >hours; campvc record -m 'Hours'; sed -i s/bread/rolls/ menu; campvc record -m 'Rolls'; campvc log; campvc status"""
SHOWN = "campvc log; campvc log --graph; campvc annotate menu; campvc annotate hours; campvc show rolls; campvc branches --all; campvc conflicts; campvc status"
QUESTIONS = ["names main", "names {own}", "conflicts main", "open {own}", "branches", "annotate {own} menu", "annotate main hours", "annotate main no",
             "missing main {own}", "missing {own} main", "names nowhere"]


def run(report, words):
    for name in (words or PARTS) if is_ready(report) else ():
        with tempfile.TemporaryDirectory(prefix="campvc-") as folder:
            prepare(folder)
            globals()[name](report, folder)


# Damage.

def damage(report, folder):
    """Answers are those of the repository, whatever stands in the place of the cache."""
    how = {"LOG": f"sqlite:{folder}/log.db"}
    call(folder, "anna", STORY, **how)
    cache, wanted = f"{folder}/anna/.camp/cache.db", answers(folder, report=report)
    kept = f"{folder}/kept.db"
    shutil.copy(cache, kept)
    call(folder, "other", f"campvc init --log sqlite:{folder}/other.db; echo x >menu; campvc record -m 'Another log'; campvc log", **how)
    shutil.copy(f"{folder}/other/.camp/cache.db", f"{folder}/other-log.db")
    for name, content in files_in_place(folder, kept):
        remove(cache)
        if content is not None:
            with open(cache, "wb") as file:
                file.write(content)
        report.expect(f"the answers with {name}", answers(folder), wanted)
        report.count("damaged files")
    remove(cache)
    os.mkdir(cache)
    report.expect("the answers with a folder", answers(folder), wanted)
    os.rmdir(cache)
    shown = call(folder, "anna", SHOWN, **how).stdout
    for name, place in (("a cut file", kept), ("the cache of another log", f"{folder}/other-log.db")):
        shutil.copy(place, cache)
        os.truncate(cache, os.path.getsize(cache) - 4096 if place == kept else os.path.getsize(cache))
        report.expect(f"commands with {name}", call(folder, "anna", SHOWN, **how).stdout, shown)
    read_only(report, folder)


def answers(folder, who="anna", report=None):
    """What a copy answers to questions, with its notes and conflicts. With a report they are expected to be in the cache the second time."""
    from campvc.copy import LOADED, Copy
    for _ in range(2 if report else 1):
        with Copy(os.fsencode(f"{folder}/{who}")) as copy:
            copy.open()
            found = [copy.repository.ask(question.format(own=copy.own) + "\n") for question in QUESTIONS[:-1]]
            found += [sorted(copy.repository.notes.items()), copy.unresolved(), copy.is_interrupted()]
            is_loaded = copy.is_loaded
            found.append(copy.repository.ask(QUESTIONS[-1] + "\n"))
        LOADED.clear()
    if report:
        report.expect("the second time no repository is loaded", is_loaded, False)
    return found


def files_in_place(folder, kept):
    """What may stand in the place of the cache: nothing, parts of it, changed bytes, other files, and rows that another state or version left."""
    with open(kept, "rb") as file:
        content = file.read()
    yield "no file", None
    yield "the file itself", content
    for size in (0, 1, 15, 16, 100, 4095, 4096, 4097, 8192, len(content) // 2, len(content) - 4096, len(content) - 1):
        yield f"{size} bytes", content[:size]
    chance = random.Random(1)
    for number in range(60):
        changed = bytearray(content)
        for _ in range(chance.choice((1, 4, 200))):
            changed[chance.randrange(100 if number % 4 == 0 else 0, len(content))] ^= 1 << chance.randrange(8)
        yield f"changed bytes {number}", bytes(changed)
    yield "text", b"no database\n" * 2_000
    for name, change in (("answers of others", "UPDATE answers SET answer = (SELECT answer FROM answers WHERE question = CAST('branches\n' AS BLOB))"),
                         ("another state", "UPDATE answers SET state = zeroblob(16)"), ("text for bytes", "UPDATE answers SET answer = 'names 0'"),
                         ("another digest", "UPDATE answers SET digest = zeroblob(16)"), ("numbers", "UPDATE answers SET answer = 1, digest = 2"),
                         ("another table", "DROP TABLE answers; CREATE TABLE answers (question, answer)")):
        yield name, with_change(content, folder, change)
    with open(f"{folder}/other-log.db", "rb") as file:
        yield "the cache of another log", file.read()
    yield "another version", of_another_version(folder)


def with_change(content, folder, change):
    """The file after statements."""
    with open(f"{folder}/changed.db", "wb") as file:
        file.write(content)
    with contextlib.closing(sqlite3.connect(f"{folder}/changed.db")) as base:
        base.executescript(change)
    with open(f"{folder}/changed.db", "rb") as file:
        return file.read()


def of_another_version(folder):
    """What another version keeps, which here has wrong answers."""
    from camp import cached
    from campvc.copy import LOADED, Copy
    path, version, cached.VERSION = f"{folder}/anna/.camp/cache.db", cached.VERSION, "another"
    remove(path)
    with Copy(os.fsencode(f"{folder}/anna")) as copy:
        copy.open()
        state = copy.repository.state()
        for question in QUESTIONS:
            copy.repository.cache.put(state, question.format(own=copy.own).encode() + b"\n", b"names main 0\n")
    LOADED.clear()
    cached.VERSION = version
    with open(path, "rb") as file:
        return file.read()


def remove(path):
    with contextlib.suppress(FileNotFoundError):
        os.remove(path)


def read_only(report, folder):
    """A cache that can't be written, as one of somebody else, is read where it fits and left alone."""
    from camp.cached import Cache
    os.chmod(folder, 0o755)
    os.makedirs(f"{folder}/closed")
    path, states = f"{folder}/closed/cache.db", (b"state", b"other")
    with contextlib.closing(Cache(path)) as cache:
        cache.put(b"state", b"names main\n", b"names main 0\n")
    os.chmod(path, 0o444)
    os.chmod(f"{folder}/closed", 0o555)

    def ask():
        with contextlib.closing(Cache(path)) as cache, contextlib.closing(Cache(f"{path}/no")) as other:
            cache.put(b"other", b"names main\n", b"wrong\n")
            other.put(b"other", b"names main\n", b"wrong\n")
            return [it.get(state, b"names main\n") for it in (cache, other) for state in states]

    report.expect("a cache in a folder that is closed", as_nobody(ask), str([b"names main 0\n", None, None, None]))
    os.chmod(f"{folder}/closed", 0o755)


def as_nobody(action):
    """What an action returns, as text, where nobody runs it in place of root."""
    source, sink = os.pipe()
    if os.fork() == 0:
        try:
            if os.geteuid() == 0:
                os.setuid(65534)
            os.write(sink, str(action()).encode())
        finally:
            os._exit(0)
    os.close(sink)
    with open(source, "rb") as file:
        return file.read().decode()


# Copies.

def copies(report, folder):
    """Two copies over one log show what each has read, before and after the other writes; what waits and is refused later is shown no more."""
    how = {"LOG": f"sqlite:{folder}/log.db"}
    call(folder, "anna", STORY, **how)
    call(folder, "ben", "campvc clone $LOG; sed -i s/soup/stew/ menu; campvc record -m 'Stew'", **how)
    for who, command in (("anna", "campvc sync"), ("anna", "echo wine >>menu; campvc record -m Wine"), ("ben", "campvc sync"), ("ben", "campvc obliterate stew -y"),
                         ("anna", "campvc sync"), ("anna", f"mv {folder}/log.db {folder}/away.db; echo salt >salt; campvc record -m 'Salt'"),
                         ("anna", f"mv {folder}/away.db {folder}/log.db; campvc sync"), ("ben", "campvc sync"), ("ben", "sed -i s/cheese/ham/ menu; campvc record -m Ham"),
                         ("anna", "sed -i s/cheese/brie/ menu; campvc record -m Brie; campvc sync"), ("anna", "campvc resolve --take brie; campvc record -m Brie")):
        call(folder, who, command, **how)
        for other in ("anna", "ben"):
            kept = answers(folder, other)
            remove(f"{folder}/{other}/.camp/cache.db")
            report.expect(f"what {other} sees after {who}: {command}", kept, answers(folder, other))
            report.count("states of two copies")


# The server.

def server(report, folder):
    """Sessions over servers write the same; a server sees what others write, what is away, and Ctrl-C, and ends with its folder."""
    on = {"CAMPVC_SERVER": "1"}
    os.environ.update(on)
    play_all(report, f"{folder}/sessions", f"sqlite:{folder}/sessions/{{number}}/log.db", lambda words: "shared" in words or "offline" in words)
    del os.environ["CAMPVC_SERVER"]
    how = {"LOG": f"sqlite:{folder}/log.db", **on}
    call(folder, "anna", STORY, **how)
    process = wait_for_server(report, folder, how)
    call(folder, "ben", "campvc clone $LOG; sed -i s/soup/stew/ menu; campvc record -m 'Stew'", **how)
    report.expect("what another copy wrote", b"Stew" in call(folder, "anna", "campvc sync; campvc log", **how).stdout, True)
    report.expect("the same server", process, server_of(folder))
    done = call(folder, "anna", f"mv {folder}/log.db {folder}/away.db; echo salt >salt; campvc record -m 'Salt'; mv {folder}/away.db {folder}/log.db", **how)
    report.expect("a log that is away", b"the log is away" in done.stdout, True)
    report.expect("a folder, a mask and a status", call(folder, "anna", "mkdir -p d; cd d; umask 077; campvc export --to ../../out; campvc annotate ../no; echo $?; stat -c %a ../../out/.git/HEAD", **how).stdout[-6:], b"1\n600\n")
    interrupted(report, folder, how)
    os.kill(server_of(folder) or process, signal.SIGKILL)
    report.expect("without the server that was killed", call(folder, "anna", "campvc status", **how).returncode, 0)
    process = wait_for_server(report, folder, how)
    shutil.rmtree(f"{folder}/anna")
    report.expect("a server ends with its folder", ends(process), True)
    report.count("servers", 2)


def server_of(folder):
    """The process that has anna's repository loaded, or None."""
    done = programs.run(["ps", "-eo", "pid,args"])
    for line in done.stdout.decode(errors="replace").splitlines():
        process, _, _ = line.strip().partition(" ")
        with contextlib.suppress(OSError):
            if "campvc" in line and os.readlink(f"/proc/{process}/cwd").startswith(f"{folder}/anna") and os.getsid(int(process)) == int(process):
                return int(process)
    return None


def wait_for_server(report, folder, how):
    """Asks until a server is there."""
    end = time.monotonic() + programs.TIMEOUT
    while not (process := server_of(folder)) and time.monotonic() < end:
        call(folder, "anna", "rm -f .camp/cache.db; campvc status", **how)
        time.sleep(0.2)
    report.expect("a server is there", process is not None, True)
    return process


def interrupted(report, folder, how):
    """Ctrl-C at a question: the command ends, and nothing is recorded."""
    call(folder, "anna", "echo more >>hours", **how)
    process = programs.start(["campvc", "record", "-i", "-m", "More"], cwd=f"{folder}/anna", env=environment(folder, **how))
    shown = b""
    while b"record this change" not in shown and (more := process.stdout.read1()):
        shown += more
    process.send_signal(signal.SIGINT)
    _, error = process.communicate(timeout=programs.TIMEOUT)
    report.expect("Ctrl-C at a question", (process.returncode, error), (130, b"campvc: interrupted: `campvc status` shows where you are\n"))
    report.expect("nothing is recorded", b"changed  hours" in call(folder, "anna", "campvc status", **how).stdout, True)


def ends(process):
    """Whether a process ends in a while."""
    end = time.monotonic() + programs.TIMEOUT
    while os.path.exists(f"/proc/{process}") and time.monotonic() < end:
        time.sleep(0.1)
    return not os.path.exists(f"/proc/{process}")
