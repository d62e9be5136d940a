"""Counts and lists in words."""


def counted(number, noun):
    """So many of something, as in '1 row' or '2 rows'."""
    return f"{number:,} {noun}{'' if number == 1 else 's'}"


def listed(parts, last="and"):
    """Texts, joined by commas and, before the last one, by a word."""
    parts = list(parts)
    return f" {last} ".join([", ".join(parts[:-1]), parts[-1]]) if len(parts) > 1 else "".join(parts)
