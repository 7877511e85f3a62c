"""How a test of texts ends."""


def verdict(name, said, summary):
    """Prints what is wrong, a line each, or else the summary; gives the status."""
    for line in said or [summary]:
        print(f"{name}: {line}")
    return 1 if said else 0
