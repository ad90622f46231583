"""Links of three members of etcd are cut, the leader's and others: each answered call is in the log once.

Words: none. It needs the library for C, etcd, root and the command ip, and is skipped without them.
"""

import time

from tests.faults.logs import Members, check
from tests.harness.clients import python_client
from tests.harness.folders import temporary
from tests.harness.networks import Networks, is_there

SECONDS, GATE = 220, "never"
# Nobody reaches any member for so many seconds.
ALONE = 5


def run(report, words):
    if not is_there():
        return report.skip("networks of one's own")
    environment = python_client(report)
    if not environment:
        return
    with temporary("networks-") as folder, Networks(folder) as networks:
        networks.leader()
        members = Members(f"etcd:{','.join(networks.endpoints)}/log", folder, environment, within=networks.within)
        try:
            report.expect("members answer", members.wait(1), "")
            cut_links(report, networks, members)
        finally:
            members.end()
        check(report, members)


def cut_links(report, networks, members):
    """The leader is alone while the others go on, then another member is, then all are."""
    first = networks.leader()
    with networks.cut(first):
        report.expect("members answer while the leader is alone", members.wait(2), "")
        second = next(at for at in (1, 2, 3) if at not in (first, networks.leader()))
    report.expect("members answer with the old leader", members.wait(2), "")
    with networks.cut(second):
        report.expect("members answer while another one is alone", members.wait(2), "")
    with networks.cut(1, 2, 3):
        time.sleep(ALONE)
    report.expect("members answer after all were alone", members.wait(2), "")
    report.count("links cut", 5)
