"""Several members share one log under faults, and a replay of the log in one session checks what each was answered.

    python3 check_members.py sqlite:PATH | etcd:HOST:PORT[,HOST:PORT ..]/PREFIX | postgres:DSN [--members N] [--calls N] [--rounds N] [--wrong NAME]

The library is found as `import camp` finds it. A fifth of the appends get no answer: of these a quarter never come, a quarter come, a
quarter come late, mostly after the retry, and a quarter come twice. A twentieth of the reads get none either. Each member is a thread with a
session of its own. Each round has a log of its own; a hundred of eight members with 1,250 calls each are a million calls. `--wrong` plants a
member that is wrong in one way (`WRONG`), which the check has to find. The exit status is 0 where the replies are as promised, or where what
was planted is found."""

import argparse
import collections
import random
import sys
import threading
import time

from camp import Repository
from camp._entries import CALLS, calls_of
from camp.logs import AppendOutcome, Away, open_log
from camp.shared import NOT_READ, NOT_TAKEN, Member, Stopped, turn, what_if
from member_model import ModelMember

NO_REPLY = (b"stopped\n", NOT_READ, NOT_TAKEN)
# What comes late comes within so many seconds.
LATE = 0.5
# A member that had no answer for so many seconds gives up.
SILENCE = 300
Asked = collections.namedtuple("Asked", "seat turn call at_least asked")
Answered = collections.namedtuple("Answered", "request answer place answered")


class Lossy:
    """A log that is told a fifth of the appends without an answer: some never come, some come, some come late, and some come twice,
    as in an engine that does not know their tags. Some reads get no answer."""

    def __init__(self, log, chance: random.Random, rate: float = 0.2, unread_rate: float = 0.05):
        self.log, self.chance, self.rate, self.unread_rate = log, chance, rate, unread_rate
        self.length = log.length
        self.lost, self.late, self.doubled, self.unread = 0, 0, 0, 0
        # How often a log is read is a matter of time: which appends are lost does not depend on it.
        self.chance_of_reads = random.Random(1)
        # What comes late: when, its tag and its text.
        self.held = []

    def append(self, tag, text):
        self.deliver(time.monotonic())
        fate = self.chance.random() / self.rate
        if fate >= 1:
            return self.log.append(tag, text)
        self.lost += 1
        if 0.25 <= fate < 0.5:
            self.log.append(tag, text)
        elif 0.5 <= fate < 0.75:
            self.held.append((time.monotonic() + self.chance.uniform(0, LATE), tag, text))
        elif 0.75 <= fate:
            self.log.append(tag, text)
            self.double(tag, text)
        return AppendOutcome.UNKNOWN

    def double(self, tag, text):
        """Appends an entry that is there already, under another tag of the engine."""
        self.doubled += self.log.append("%s+%d" % (tag, self.doubled), text) is AppendOutcome.APPENDED

    def deliver(self, until):
        """Appends what was held back until a time, which is mostly after the retry: under its tag, or as if the engine knew no tags."""
        due, self.held = [it for it in self.held if it[0] <= until], [it for it in self.held if it[0] > until]
        for _, tag, text in due:
            self.late += 1
            if self.log.append(tag, text) is AppendOutcome.TAKEN and self.chance.random() < 0.5:
                self.double(tag, text)

    def read(self, index, wait=0.0):
        self.deliver(time.monotonic())
        if self.chance_of_reads.random() < self.unread_rate:
            self.unread += 1
            raise Away("an answer was lost")
        return self.log.read(index, wait)

    def close(self):
        self.deliver(time.monotonic() + LATE)
        self.log.close()


class NewTag(ModelMember):
    """Where it does not see its entry it asks again under a new number."""
    extra, last = 0, None

    def number(self):
        return super().number() + self.extra

    def want(self):
        self.extra = self.extra + 1 if self.under_way and self.last is self.under_way else 0
        want = super().want()
        self.last = self.under_way
        return want

    def found(self, index, text):
        try:
            super().found(index, text)
        except Stopped:
            self.stopped, self.index = None, self.index + 1


class Early(ModelMember):
    """It answers before the append is known."""

    def want(self):
        want = super().want()
        if want[0] == "append" and self.under_way[0].request is not None:
            for at, one in enumerate(self.under_way):
                self.answers.append((one.request, b"ok %d\n" % (self.count + at + 1), (self.index, at)))
                self.under_way[at] = one._replace(request=None)
        return want


class Stale(ModelMember):
    """It answers at what it has read where more was wanted."""

    def ask(self, call, at_least=0, request=None, note=b""):
        super().ask(call, 0, request, note)


class Skips(ModelMember):
    """It skips a number."""

    def number(self):
        return super().number() + (self.numbers.get(self.seat, 0) == 3)


class Twice(ModelMember):
    """It appends two calls where one was asked."""

    def want(self):
        want = super().want()
        return want[:2] + (want[2] + b"branch twice-%s main\n" % self.seat[:8].encode(),) if want[0] == "append" and self.number() == 2 else want


WRONG = {"new-tag": NewTag, "early": Early, "stale": Stale, "skips": Skips, "twice": Twice}


def some_call(chance, member, number):
    """A call, often in the way of another member's."""
    branch = b"b%d" % chance.randrange(4)
    kind = chance.randrange(8)
    if kind == 0:
        return b"branch b%d main\n" % chance.randrange(4)
    if kind == 1:
        return b"record %s p%d-%d add f%d\n" % (branch, member, number, chance.randrange(40))
    if kind == 2:
        return b"record %s q%d group\nadd g%d\nedit g%d 1\n+a\nend\ndone\n" % (branch, chance.randrange(60), number % 50, number % 50)
    if kind == 3:
        return b"pull main %s\n" % branch
    if kind == 4:
        return b"pull %s main\n" % branch
    if kind == 5:
        return b"names %s\n" % branch
    if kind == 6:
        return b"tree main\n"
    return b"record main p%d-%d edit f%d 1\n+%d\nend\n" % (member, number, chance.randrange(40), number)


class Run:
    """What members asked and were answered."""

    def __init__(self, log_name, members, calls, wrong, seed):
        self.log_name, self.calls, self.seed = log_name, calls, seed
        self.answered, self.lock, self.seen = [], threading.Lock(), 0
        self.stops, self.ends, self.lost, self.late, self.doubled, self.unread = [], [], 0, 0, 0, 0
        kinds = [WRONG[wrong] if wrong and at == 0 else Member for at in range(members)]
        self.threads = [threading.Thread(target=self._member, args=(at, kind)) for at, kind in enumerate(kinds)]

    def go(self):
        for thread in self.threads:
            thread.start()
        for thread in self.threads:
            thread.join()

    def _member(self, at, kind):
        chance = random.Random("%s %d" % (self.seed, at))
        member, log = kind(), Lossy(open_log(self.log_name), chance)
        asked, answered, last = 0, 0, time.monotonic()
        try:
            while answered < self.calls and time.monotonic() < last + SILENCE:
                while asked < self.calls and asked - answered < 1 + chance.randrange(8):
                    with self.lock:
                        at_least = self.seen if chance.random() < 0.3 else 0
                    call = some_call(chance, at, asked)
                    member.ask(call, at_least, Asked(member.seat, asked, call, at_least, time.monotonic()))
                    asked += 1
                turn(member, log)
                taken = self._take(member)
                answered, last = answered + taken, time.monotonic() if taken else last
        except Stopped as stopped:
            self._take(member)
            self.stops.append(stopped)
        with self.lock:
            self.ends.append((member.index, member.repository.ask(b"history\n"), member.stopped))
        member.repository.close()
        log.close()
        with self.lock:
            self.lost, self.late, self.doubled = self.lost + log.lost, self.late + log.late, self.doubled + log.doubled
            self.unread += log.unread

    def _take(self, member):
        taken = 0
        while member.answers:
            request, answer, place = member.answers.popleft()
            if request is not None:
                taken += 1
                with self.lock:
                    self.answered.append(Answered(request, answer, place, time.monotonic()))
                    if answer.startswith(b"ok"):
                        self.seen = max(self.seen, int(answer.split()[1]))
        return taken


class Replay:
    """The log in one session: the answer at each place, at each index how many calls were accepted, and the history where members ended."""

    def __init__(self, texts, questions, ends):
        session, numbers, count = Repository(), {}, 0
        self.answers, self.counts, self.requests, self.at_index, self.histories = {}, {}, [], {}, {}
        self.gap, self.length = None, len(texts)
        for index, text in enumerate(texts):
            self._ask_at(session, index, count, questions, ends)
            if index:
                head, _, body = text.partition(b"\n")
                _, seat, number = head.split(b" ")
                last = numbers.get(seat, 0)
                if int(number) > last + 1:
                    self.gap = index
                    break
                if int(number) == last + 1:
                    numbers[seat] = int(number)
                    for place, (call, _) in enumerate(calls_of(body)):
                        answer = session.ask(call)
                        count += answer.startswith(b"ok")
                        self.answers[index, place], self.counts[index, place] = answer, count
                        self.requests.append((seat.decode(), call))
        else:
            self._ask_at(session, len(texts), count, questions, ends)
        self.count = count
        session.close()

    def _ask_at(self, session, index, count, questions, ends):
        self.counts[index] = count
        if index in ends:
            self.histories[index] = session.ask(b"history\n")
        for call in questions.get(index, ()):
            question = call.split()[0] not in CALLS
            self.at_index[index, call] = session.ask(call) if question else what_if(session, call)


def check(run, texts):
    """What is wrong with the answers of a run, by the log that it left."""
    questions = collections.defaultdict(set)
    for one in run.answered:
        if isinstance(one.place, int):
            questions[one.place].add(one.request.call)
    replay, wrong = Replay(texts, questions, {index for index, _, _ in run.ends}), []
    if replay.gap is not None:
        wrong.append("entry %d: a number is skipped" % replay.gap)
    for one in run.answered:
        if one.answer in NO_REPLY:
            continue
        expected = replay.at_index.get((one.place, one.request.call)) if isinstance(one.place, int) else replay.answers.get(one.place)
        count = replay.counts.get(one.place, -1)
        if expected != one.answer:
            wrong.append("%r: answered %r in place of %r" % (one.request.call[:60], one.answer[:60], expected and expected[:60]))
        elif count < one.request.at_least:
            wrong.append("%r: answered at %d where %d were seen" % (one.request.call[:60], count, one.request.at_least))
    wrong += out_of_turn(run, replay) + not_asked(run, replay)
    for index, history, _ in run.ends:
        if replay.histories.get(index) != history:
            wrong.append("a member's history at %d is not the log's" % index)
    return replay, wrong


def out_of_turn(run, replay):
    """Answers out of the order of the requests, and entries before all that was answered when they were asked."""
    wrong, newest = [], (0, 0)
    by_seat = collections.defaultdict(list)
    for one in run.answered:
        by_seat[one.request.seat].append(one.request.turn)
    wrong += ["answers of one member out of turn" for turns in by_seat.values() if turns != sorted(turns)]
    events = sorted([(one.request.asked, 0, at) for at, one in enumerate(run.answered)] + [(one.answered, 1, at) for at, one in enumerate(run.answered)])
    least = {}
    for _, is_answer, at in events:
        place = run.answered[at].place
        if not is_answer:
            least[at] = newest
        elif not isinstance(place, int):
            if place <= least[at]:
                wrong.append("an entry before one that was answered when it was asked")
            newest = max(newest, place)
    return wrong


def not_asked(run, replay):
    """Calls in the log that nobody asked, or oftener than they were asked; tags that stand there twice are passed over."""
    asked = collections.Counter((one.request.seat, one.request.call) for one in run.answered)
    there = collections.Counter(replay.requests)
    return ["%r stands %d times and was asked %d times" % (key[1][:60], times, asked[key]) for key, times in there.items() if times > asked[key]]


def try_round(log_name, given, seed):
    """Runs the members over a log and checks it; prints what was found, and returns whether it is as wanted."""
    run, began = Run(log_name, given.members, given.calls, given.wrong, seed), time.monotonic()
    run.go()
    seconds, log, texts = time.monotonic() - began, open_log(log_name), []
    while len(texts) < log.length():
        texts += log.read(len(texts), 1.0)
    log.close()
    replay, wrong = check(run, texts)
    for line in wrong[:5] + run.stops[:1]:
        print(line)
    print("%d members, %d answers, %d entries, %d calls in the history, %d appends without an answer, %d reads without one, %d late, %d entries "
          "twice, %d stops, %.1f seconds, %d wrong" % (given.members, len(run.answered), len(texts), replay.count, run.lost, run.unread, run.late,
                                                       run.doubled, len(run.stops), seconds, len(wrong)), flush=True)
    lacks = len(run.answered) < given.members * given.calls and not run.stops
    return bool(wrong or run.stops) == bool(given.wrong) and not lacks


def main():
    words = argparse.ArgumentParser(description=__doc__.splitlines()[0])
    words.add_argument("log")
    words.add_argument("--members", type=int, default=4)
    words.add_argument("--calls", type=int, default=100)
    words.add_argument("--rounds", type=int, default=1)
    words.add_argument("--seed", default="1")
    words.add_argument("--wrong", choices=sorted(WRONG))
    given = words.parse_args()
    if given.rounds == 1:
        return 0 if try_round(given.log, given, given.seed) else 1
    found = [try_round("%s-%d" % (given.log, at), given, "%s %d" % (given.seed, at)) for at in range(given.rounds)]
    print("%d rounds of %d calls, %d not as wanted" % (given.rounds, given.members * given.calls, found.count(False)))
    return 0 if all(found) else 1


if __name__ == "__main__":
    sys.exit(main())
