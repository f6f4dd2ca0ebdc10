"""How a call is refused."""


class CallRefused(Exception):
    """A refusal: its line and its status."""

    def __init__(self, line: str, status: int):
        super().__init__(line)
        self.line, self.status = line, status
