"""What can't be done."""


class Refused(Exception):
    """What can't be done: where, why, and what to do."""
