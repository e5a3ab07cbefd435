"""Why the work of a tool is not done."""


class Refusal(Exception):
    """Why the work is not done, as a line to print."""


def refusal_of(path, what, error):
    return Refusal(f"{path}: {what}: {error.strerror or error}")
