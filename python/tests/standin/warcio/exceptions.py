"""The errors of the stand-in."""


class ArchiveLoadFailed(Exception):
    """The file is no archive, or it is damaged."""
