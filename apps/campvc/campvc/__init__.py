"""campvc: a small version control system over camp, for one's own notes, and the example to copy."""

__version__ = "0.1.0"


class Failure(Exception):
    """Ends a command with a message that says what to do, and an exit status: 1 if it is refused or has nothing to do, 128 if it can't
    be done here."""

    def __init__(self, message: str, status: int = 1) -> None:
        super().__init__(message)
        self.status = status
