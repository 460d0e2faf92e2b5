"""Tests of tools/seed on folders that stand for checkouts: which libraries are linked over, and which are not."""
import pathlib
import shutil

import frame

seed = frame.load("seed")
CRATES = {"low": [], "middle": ["low"], "beside": [], "high": ["middle", "beside"]}


class Crate:
    """A crate of a checkout, as the toolchain tells of it; its text is its stamp."""

    def __init__(self, top, name, text="text"):
        self.name, self.folder, self.text, self.own = name, str(pathlib.Path(top, "crates", name).absolute()), text, []

    def below(self):
        return self.own

    def stamp(self):
        return self.text + "".join(it.stamp() for it in self.own)

    def makes_rlib(self):
        return True

    def is_built(self):
        kept = pathlib.Path(self.folder, "out", "rlib", "stamp")
        return kept.is_file() and kept.read_text() == self.stamp()

    def build(self):
        """What a check of the crate leaves."""
        library = pathlib.Path(self.folder, "out", "rlib", f"{self.name}.rlib")
        library.mkdir(parents=True)
        (library / "format").write_text("library")
        (library.parent / "stamp").write_text(self.stamp())


def checkout(top, texts=(), built=()):
    """The crates of a checkout, lowest first, of which some have texts of their own and some a library."""
    shutil.rmtree(top, ignore_errors=True)
    crates = {name: Crate(top, name, dict(texts).get(name, "text")) for name in CRATES}
    for name, below in CRATES.items():
        direct = [crates[it] for it in below]
        crates[name].own = list({it.name: it for crate in direct for it in [*crate.below(), crate]}.values())
    for name in built:
        crates[name].build()
    return crates


def given(own, gate):
    return seed.give_all(own, gate)


def test_all_are_given_and_once(bench):
    gate, own = checkout("gate", built=CRATES), checkout("own")
    frame.same(given(own, gate), (list(CRATES), []))
    frame.holds(all(crate.is_built() for crate in own.values()), "a crate is not known as built")
    frame.same(given(own, gate), ([], []), "a second time")


def test_what_stands_on_a_library_that_is_not_there_is_not_given(bench):
    gate = checkout("gate", built=["middle", "beside", "high"])
    frame.same(given(checkout("own"), gate), (["beside"], ["low"]))


def test_what_stands_on_a_library_of_ones_own_is_not_given(bench):
    gate, own = checkout("gate", built=CRATES), checkout("own", built=["low"])
    frame.same(given(own, gate), (["beside"], ["low"]))


def test_what_stands_on_another_text_is_not_given(bench):
    gate, own = checkout("gate", built=CRATES), checkout("own", texts={"middle": "another text"})
    frame.same(given(own, gate), (["low", "beside"], ["middle"]))
