"""What went wrong, and where."""


class CardError(Exception):
    """Input that cannot be read. `line` and `column` count from 1, and are None where there is none."""

    def __init__(self, message, line=None, column=None):
        super().__init__(message)
        self.message = message
        self.line = line
        self.column = column

    def of(self, name):
        """The error as one line of a report, with the name of the file that it is about."""
        place = "".join(f":{part}" for part in (self.line, self.column) if part is not None)
        return f"{name}{place}: {self.message}"


class ProgramError(Exception):
    """The proved program is missing, stale, or failed."""
