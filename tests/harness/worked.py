"""The tables of crates/worked and crates/worked_talks."""

import re

from tests.harness.paths import TOP, read


def tables(name, crate="worked"):
    """The tables of the file stdin, or stdout, of a crate, by their names."""
    found = re.split(rb"^(?=table )", read(f"{TOP}/crates/{crate}/{name}"), flags=re.M)[1:]
    return {it.split()[1].decode(): it for it in found}
