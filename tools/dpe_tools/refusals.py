"""What a tool says in one line when it does nothing."""


class Refused(Exception):
    """The statement, the database or the program doesn't allow an advice; the text says why in one line."""


RELATIONS_MAX = 20
"""The most relations that dpe plans."""
