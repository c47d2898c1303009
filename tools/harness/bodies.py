"""The likely bugs that tests/named-bodies.txt names, and the wrong bodies that have them."""

from .program import ROOT

NAMED_BODIES = ROOT / 'tests' / 'named-bodies.txt'
PLANTED = 'planted '


def named_bodies() -> dict[str, list[str]]:
    """The bodies of each bug, as the file names them: CRATE/NAME, or planted CRATE/NAME."""
    bodies: dict[str, list[str]] = {}
    for line in NAMED_BODIES.read_text().splitlines():
        if line.startswith(' '):
            bodies[[*bodies][-1]].append(line.strip())
        elif not line.startswith('#'):
            bodies[line] = []
    return bodies


def refused_bodies() -> set[str]:
    """The bodies among them that the prover must refuse."""
    return {body for those in named_bodies().values() for body in those if not body.startswith(PLANTED)}
