"""The crates of the repository, as crates.txt lists them."""
import os

Root = str | os.PathLike[str]


def named_in(root: Root) -> dict[str, list[str]]:
    """The crates of crates.txt in its order, each with the libraries that its line names."""
    with open(os.path.join(root, "crates.txt")) as file:
        lines = [line.split("#")[0].partition(":") for line in file]
    return {name.strip(): rest.split() for name, colon, rest in lines if colon}


def crates_of(root: Root) -> dict[str, set[str]]:
    """The crates of crates.txt, each with those that it names and all below them."""
    named = named_in(root)
    below: dict[str, set[str]] = {}

    def walk(crate: str) -> set[str]:
        if crate not in below:
            own = [it for it in named[crate] if it in named]
            below[crate] = set(own).union(*(walk(it) for it in own))
        return below[crate]

    for crate in named:
        walk(crate)
    return below
