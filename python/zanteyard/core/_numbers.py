"""Numbers in words."""


def counted(number: int, what: str, several: str = "") -> str:
    """A number with its noun: "1 read", "2,000 reads"."""
    return f"{number:,} {what if number == 1 else several or what + 's'}"
