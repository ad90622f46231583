"""A conflict: two branches edit one line, and one pulls the other. Its sides are shown, one is taken, and a view keeps what
was there before."""

from camp import Depends, Hunk, Repository


def main() -> None:
    with Repository() as repository:
        repository.record_text("main", "start", "notes", None, "one\n")
        repository.branch("other", "main")
        repository.record_text("main", "english", "notes", "one\n", "first\n")
        repository.record_text("other", "german", "notes", "one\n", "erstens\n")
        with repository.view() as before:
            repository.pull("other", "main")
            for conflict in repository.open("main"):
                print("in conflict:", conflict.left, "and", conflict.right)
            for part in repository.marks("main", "notes") or []:
                if isinstance(part, Hunk):
                    for side in part.sides:
                        print(side.name, "says", side.lines)
            repository.record("main", "decided", repository.side("main", "german"))
            print("unresolved:", len(repository.open("main")))
            print("now:", repository.tree("main"))
            print("before the pull:", before.tree("main"))
        try:
            repository.obliterate("main", ["german"])
        except Depends as refused:
            print(refused)
        print("to be taken out with it:", repository.held("main", ["german"]))


if __name__ == "__main__":
    main()
