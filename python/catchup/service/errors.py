"""What a client gets in place of an answer."""
from collections.abc import Mapping

from catchup.errors import is_short
from catchup.service.telling import tell, traced


class Refusal(Exception):
    """An error that is told to a client: a status, what is wrong, and where it helps what to do."""

    def __init__(self, status: int, error: str, *, hint: str | None = None, headers: Mapping[str, str] | None = None,
                 more: Mapping[str, object] | None = None) -> None:
        super().__init__(error)
        self.status = status
        self.error = error
        self.hint = hint
        self.headers = dict(headers or {})
        self.more = dict(more or {})
        if status == 503:
            self.headers.setdefault("Retry-After", "1")

    def told(self) -> dict[str, object]:
        """The answer's object."""
        hint = {} if self.hint is None else {"hint": self.hint}
        return {"error": self.error, **hint, **self.more}


def ended(what: str = "the program has ended") -> Refusal:
    """What a request gets whose child has died: another try will do."""
    return Refusal(503, what, hint="it is started again: ask once more")


def told_briefly(text: str) -> str:
    """A client's word, cut short and without what a terminal or a page could take for more than text."""
    return "".join(each if each.isprintable() else "?" for each in text[:40])


def refusal_of(problem: BaseException) -> Refusal:
    """What a client gets in the place of an error that nobody has foreseen. The operator is told of it."""
    if is_short(problem):
        tell(f"no memory: {traced(problem)}")
        return Refusal(503, "no memory", hint="another try may find some")
    tell(f"an error that should not be: {traced(problem)}")
    return Refusal(500, "an error of the service")
