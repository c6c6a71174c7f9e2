"""A refusal: the status with which the command ends, the line that it prints, and a sentence for people."""


class Refusal(Exception):
    def __init__(self, status, line, sentence=""):
        super().__init__(status, line, sentence)
        self.status, self.line, self.sentence = status, line, sentence


def read_file(name, most):
    """The octets of a file, or one more than the most that it may have."""
    try:
        with open(name, "rb") as file:
            return file.read(most + 1)
    except OSError as error:
        raise Refusal(4, f"read fault {name}", f"{name} can't be read: {error.strerror}") from None
