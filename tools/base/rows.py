"""crates.txt as it stands, read without the kit: each crate with what it stands on."""


def rows_of(text):
    """For each crate of the text of crates.txt the names that its row lists: crates, and libraries of the kit."""
    rows = (line.split("#")[0].partition(":") for line in text.splitlines())
    return {head.split()[0]: names.split() for head, colon, names in rows if colon}


def below(name, rows):
    """All that a crate stands on, and what that stands on."""
    return {it for used in rows.get(name, ()) for it in (used, *below(used, rows))}


def crates_below(name, rows):
    """The crates of the repository on which a crate stands."""
    return {it for it in below(name, rows) if it in rows}
