"""How many small commands a second."""

import sys
import time

from camp import Add, Repository


def main() -> None:
    count = int(sys.argv[1]) if len(sys.argv) > 1 else 200_000
    with Repository() as repository:
        repository.record("main", "start", [Add("notes")])
        for what, call in (("ask of names", lambda: repository.ask(b"names main\n")),
                           ("names", lambda: repository.names("main"))):
            start = time.perf_counter()
            for _ in range(count):
                call()
            print("%-28s %10.0f a second" % (what, count / (time.perf_counter() - start)))


if __name__ == "__main__":
    main()
