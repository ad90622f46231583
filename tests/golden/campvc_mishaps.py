"""Mishaps of campvc: names that lead out, Ctrl-C and kills, full disks, several terminals, a `.camp` that is read-only, logs that are none.

Words: names_that_lead_out, interrupted, interrupted_records, full_disk, at_once, busy, read_only name parts; none: all. What fails says what to do,
and leaves the working tree as it was. The library is found as golden/clients finds it. tests/data/campvc has more of what may go wrong.
"""

import contextlib
import os
import random
import re
import shutil
import signal
import sys
import time

from tests.golden.campvc import call, environment, is_ready, prepare
from tests.harness import programs
from tests.harness.folders import temporary

SECONDS, GATE = 80, "after camp_c"
PARTS = ("names_that_lead_out", "interrupted", "interrupted_records", "full_disk", "at_once", "busy", "read_only")
SETUP = "campvc init --log $LOG; seq 200 >f; for i in $(seq 60); do echo $i >g$i; done; campvc record -m 'Start'; campvc branch other; campvc switch other;" \
        "sed -i s/100/hundred/ f; rm g1 g2; echo new >h; campvc record -m 'Other'; campvc switch main"


def run(report, words):
    for name in (words or PARTS) if is_ready(report) else ():
        with temporary("campvc-") as folder:
            prepare(folder)
            how = {"LOG": f"sqlite:{folder}/log.db"}
            report.expect("setup", call(folder, "anna", SETUP, **how).returncode, 0)
            globals()[name](report, folder, how)


def tree_of(folder):
    """What stands in a working tree: its files, their modes and bytes."""
    found = {}
    for place, folders, names in os.walk(folder):
        folders[:] = [it for it in folders if it != ".camp"]
        for name in names:
            path = os.path.join(place, name)
            with open(path, "rb") as file:
                found[os.path.relpath(path, folder)] = (os.stat(path).st_mode & 0o777, file.read())
    return found


OUT = """
import sys
from camp import Add, Edit
from camp.logs import open_log
from camp.shared import Shared
with Shared(open_log(sys.argv[1])) as shared:
    shared.sync()
    for number, path in enumerate(sys.argv[2:]):
        shared.record("main", f"out-{number}", [Add(path), Edit(path, 1, [], ["/etc"]), *([Add(f"%m/{path}"), Edit(f"%m/{path}", 1, [], ["120000"])] if path == "etc" else [])])
"""


def names_that_lead_out(report, folder, how):
    """Files that somebody else writes into `.camp`, `.git` or through a link are refused by name, and nothing changes."""
    call(folder, "anna", f"campvc init ../out --log sqlite:{folder}/out.db; ln -s /tmp ../out/aside; echo aside >../out/.campignore; cd ../out && campvc record -m 'Ignored'")
    before = tree_of(f"{folder}/out")
    for number, paths in enumerate(([".camp/state.db"], ["d/.GIT/config"], ["etc", "etc/passwd"], ["aside/x"], ["%2E%2E/x"])):
        own, where = f"out-{number}", f"sqlite:{folder}/out-{number}.db"
        shutil.copytree(f"{folder}/out", f"{folder}/{own}", symlinks=True)
        shutil.copy(f"{folder}/out.db", f"{folder}/{own}.db")
        report.expect(f"{paths}: recorded", programs.run([sys.executable, "-c", OUT, where, *paths], env=environment(folder)).stderr, b"")
        done = call(folder, own, f"campvc sync --log {where}")
        is_nothing = paths == ["%2E%2E/x"]
        report.expect(f"{paths}: status", done.returncode, 0 if is_nothing else 1)
        report.expect(f"{paths}: named", is_nothing or paths[0].partition("/x")[0] in done.stdout.decode(), True)
        report.expect(f"{paths}: the tree", tree_of(f"{folder}/{own}"), before)
        report.count("names that lead out")


def interrupted(report, folder, how):
    """Ctrl-C or a kill at any moment of a pull and of a taking out: after the next command the tree is one of the two."""
    before = tree_of(f"{folder}/anna")
    report.expect("a pull", call(folder, "anna", "campvc pull other", **how).returncode, 0)
    after = tree_of(f"{folder}/anna")
    commands, chance, ended = ["campvc obliterate other -y", "campvc pull other"], random.Random(1), 0
    for number in range(16):
        process = programs.start(["bash", "-c", f"exec {commands[number % 2]}"], cwd=f"{folder}/anna", env=environment(folder, **how), start_new_session=True)
        time.sleep(chance.uniform(0.05, 0.45))
        with contextlib.suppress(ProcessLookupError):
            os.killpg(process.pid, signal.SIGINT if number % 4 < 2 else signal.SIGKILL)
        _, error = process.communicate()
        ended += process.returncode != 0
        # What Python itself says where it is interrupted before it runs the program is not the program's.
        report.expect("what an interrupted command says", error[-2000:] if b"/apps/campvc/" in error else b"", b"")
        report.expect("sync after Ctrl-C", call(folder, "anna", "campvc sync", **how).returncode, 0)
        found = tree_of(f"{folder}/anna")
        report.expect("the tree after Ctrl-C is one of the two", found in (before, after), True)
        report.expect("status after Ctrl-C", b"nothing to record" in call(folder, "anna", "campvc status", **how).stdout, True)
        call(folder, "anna", commands[number % 2], **how)
        report.count("interruptions")
    report.expect("interruptions before the end", ended > 0, True)


def interrupted_records(report, folder, how):
    """Ctrl-C or a kill at any moment of a record: the files are as they were, and each change is recorded once in the end."""
    chance, count, ended = random.Random(1), 12, 0
    for number in range(count):
        call(folder, "anna", f"echo {number} >>numbers", **how)
        before = tree_of(f"{folder}/anna")
        process = programs.start(["campvc", "record", "-m", f"Number {number}"], cwd=f"{folder}/anna", env=environment(folder, **how), start_new_session=True)
        time.sleep(chance.uniform(0.05, 0.45))
        with contextlib.suppress(ProcessLookupError):
            os.killpg(process.pid, signal.SIGINT if number % 2 else signal.SIGKILL)
        _, error = process.communicate()
        ended += process.returncode != 0
        report.expect("what an interrupted record says", error[-2000:] if b"/apps/campvc/" in error else b"", b"")
        report.expect("sync after a record that was interrupted", call(folder, "anna", "campvc sync", **how).returncode, 0)
        done = call(folder, "anna", f"campvc record -m 'Number {number}'", **how)
        report.expect("it is recorded, or was", done.returncode == 0 or b"nothing to record" in done.stdout, True)
        report.expect("the tree after a record that was interrupted", tree_of(f"{folder}/anna"), before)
        report.count("interrupted records")
    done = call(folder, "anna", "campvc log; campvc status", **how)
    report.expect("each once", sorted(re.findall(rb"    Number (\d+)", done.stdout), key=int), [b"%d" % it for it in range(count)])
    report.expect("nothing is left to record", b"nothing to record" in done.stdout, True)
    report.expect("interruptions before the end", ended > 0, True)


# Commands, what is done before them, the sizes past which files can't grow then, and the exit status.
DISK = (
    ("campvc pull other", "", (0, 4_096, 100_000, 250_000), 128), ("campvc switch other", "", (0, 4_096, 320_000, 350_000, 400_000, 500_000, 600_000), 128),
    ("campvc obliterate both -y", "campvc switch main", (0, 4_096), 128),
    ("campvc record -m 'Big'", "head -c 300000 /dev/urandom >large", (0, 4_096, 100_000, 250_000), 128),
    ("campvc sync", "cd ../ben; head -c 300000 /dev/urandom >ben; campvc record -m 'Of Ben'", (0, 100_000, 250_000), 128),
    ("campvc init ../new", "", (0, 4_096), 128), ("campvc clone $LOG ../newer --copy newer", "", (0, 4_096), 128),
)


def full_disk(report, folder, how):
    """Files that can't grow past a size: words without a trace, the working tree as it was, and all goes on when there is room."""
    call(folder, "anna", "head -c 300000 /dev/urandom >both; campvc record -m 'Both'; campvc switch other; head -c 300000 /dev/urandom >big; campvc record -m 'Big'; campvc switch main", **how)
    report.expect("a second copy", call(folder, "ben", "campvc clone $LOG", **how).returncode, 0)
    for command, setup, sizes, status in DISK:
        call(folder, "anna", setup, **how)
        before = tree_of(f"{folder}/anna")
        for size in sizes:
            # A log whose file can't grow may take an entry later, so a command waits for that as long as for a log that is slow.
            limited = environment(folder, **how, CAMP_PATIENCE="15")
            done = programs.run(["bash", "-c", command], cwd=f"{folder}/anna", env=limited, preexec_fn=programs.limit_files(size))
            said = done.stderr
            report.expect(f"{command} where files have {size} bytes: status and words", (done.returncode, said.count(b"\n"), b"Traceback" in said), (status, 1, False))
            report.expect(f"{command} where files have {size} bytes: the tree", tree_of(f"{folder}/anna"), before)
            report.expect(f"{command} where files have {size} bytes: a new copy", [it for it in os.listdir(folder) if it.startswith("new")], [])
            report.count("full disks")
        report.expect(f"{command} with room", call(folder, "anna", f"{command}; campvc status", **how).returncode, 0)
        for name in ("new", "newer"):
            shutil.rmtree(f"{folder}/{name}", ignore_errors=True)


def at_once(report, folder, how):
    """Records from several terminals at once: each is there once."""
    call(folder, "anna", "echo 0 >at-once; campvc record -m 'At once'", **how)
    words = ["bash", "-c", "echo $0 >at-once-$0; campvc record -m \"Number $0\" at-once-$0"]
    started = [programs.start([*words, str(number)], cwd=f"{folder}/anna", env=environment(folder, **how)) for number in range(6)]
    for process in started:
        out, error = process.communicate()
        report.expect("a record of several at once", (process.returncode, error), (0, b""))
    done = call(folder, "anna", "campvc log; campvc status", **how)
    report.expect("records at once", sorted(re.findall(rb"Number (\d)", done.stdout)), [b"%d" % it for it in range(6)])
    report.expect("nothing is left to record", b"nothing to record" in done.stdout, True)
    report.count("records at once", len(started))


def busy(report, folder, how):
    """A second terminal: a command waits for another one in the folder, then says which process that is, and has changed nothing."""
    call(folder, "anna", "echo more >>f", **how)
    with programs.start(["campvc", "record", "-i", "-m", "More"], cwd=f"{folder}/anna", env=environment(folder, **how)) as process:
        asked = b""
        while b"record this change" not in asked and (more := process.stdout.read1()):
            asked += more
        done = call(folder, "anna", "campvc record -m 'Also more'", **how, CAMPVC_PATIENCE="0.2")
        words = f"campvc: another campvc (process {process.pid}) is at work in this folder: wait until it ends, and try again\n"
        report.expect("a record beside another one", (done.stdout.decode(), done.returncode), (words, 128))
        report.expect("status beside a record", b"changed  f" in call(folder, "anna", "campvc status", **how).stdout, True)
        out, error = process.communicate(b"y\n")
    report.expect("the first one", (process.returncode, error), (0, b""))
    report.expect("what is recorded", re.findall(rb"(?i)    (?:also )?more", call(folder, "anna", "campvc log", **how).stdout), [b"    More"])
    report.count("second terminals")


# Commands that read, and those that write, in a copy whose `.camp` is read-only, each with what has to stand in its words.
READ = ("status", "diff", "log", "log --graph", "show start", "annotate f", "branches", "conflicts", "export")
WRITE = ("record -m More", "pull other", "switch other", "branch new", "obliterate start -y", "unrecord -y", "sync", "resolve", "import .")


def read_only(report, folder, how):
    """A `.camp` that is read-only, as a whole or the folder alone: what only reads answers as ever, what writes names what it can't write."""
    call(folder, "anna", "echo more >>f", **how)
    wanted = {command: call(folder, "anna", f"campvc {command}", **how) for command in READ}
    os.chmod(folder, 0o755)
    programs.run(["chmod", "-R", "a+rwX", f"{folder}/anna"])
    programs.run(["chmod", "a+rw", f"{folder}/log.db"])
    before, state = tree_of(f"{folder}/anna"), everything_in(f"{folder}/anna/.camp")
    for words in (["-R", "a-w"], ["a-w"]):
        programs.run(["chmod", *words, f"{folder}/anna/.camp"])
        for command in READ:
            status, text = as_nobody(folder, command)
            report.expect(f"{command} in a copy that is read-only", (status, text), (wanted[command].returncode, wanted[command].stdout))
            report.count("commands in a read-only copy")
        for command in WRITE:
            status, text = as_nobody(folder, command)
            report.expect(f"{command} in a copy that is read-only", (status, text.count(b"\n"), b"Traceback" in text), (128, 1, False))
            report.expect(f"{command}: it names the folder", b"/anna/.camp can't be written" in text, True)
            report.expect(f"{command}: the tree", tree_of(f"{folder}/anna"), before)
            report.count("commands in a read-only copy")
        report.expect("what is in `.camp`", everything_in(f"{folder}/anna/.camp"), state)
    programs.run(["chmod", "-R", "u+w", f"{folder}/anna/.camp"])
    report.expect("once it can be written", call(folder, "anna", "campvc record -m More", **how).returncode, 0)


def everything_in(folder):
    """The files of a folder, with their bytes."""
    found = {}
    for name in sorted(os.listdir(folder)):
        with open(f"{folder}/{name}", "rb") as file:
            found[name] = file.read()
    return found


def as_nobody(folder, command):
    """The status of a command and what it writes, where a user runs it who has no rights but those of everybody."""
    # All that it needs is loaded before: the sources may be where nobody may read.
    import camp.pictures  # noqa: F401
    import campvc.command_line
    import campvc.commands
    import campvc.git  # noqa: F401
    source, sink = os.pipe()
    child = os.fork()
    if child == 0:
        status = 99
        try:
            os.dup2(sink, 1)
            os.dup2(sink, 2)
            sys.stdout, sys.stderr = open(1, "w", encoding="utf-8", closefd=False), open(2, "w", encoding="utf-8", closefd=False)
            os.environ.update(environment(folder, LOG=f"sqlite:{folder}/log.db"))
            os.chdir(f"{folder}/anna")
            if os.geteuid() == 0:
                os.setuid(65534)
            status = campvc.command_line.run(command.split())
            sys.stdout.flush()
            sys.stderr.flush()
        finally:
            os._exit(status)
    os.close(sink)
    with open(source, "rb") as file:
        text = file.read()
    return os.waitstatus_to_exitcode(os.waitpid(child, 0)[1]), text
