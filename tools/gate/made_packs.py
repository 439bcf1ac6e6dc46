"""What several tools have in common: the setups of rows/data/files/setups.rows as volumes, what they hold, and cards."""

from pathlib import Path

from rows.player.files import made
from tools.common.volume_layouts import ebcdic

# The tracks of the two data sets of the setup `shared`, as they follow each other, and their extents.
LEFT_RUN, RIGHT_RUN = (10, 23), (14, 29)
LEFT = [10, 11, 12, 13, 20, 21, 22, 23]
RIGHT = [14, 15, 16, 17, 18, 19, 24, 25, 26, 27, 28, 29]
# The cards of the data set of the setup `worn`.
CARDS = ["ONE", "TWO", "THREE"]


def put_made(path: Path, setup: str) -> None:
    """Makes a file with the volume of a setup."""
    path.write_bytes(made(setup))


def card(text: str) -> bytes:
    """A record of 80 bytes."""
    return ebcdic(text, 80)


def raw(*lines: str) -> bytes:
    """Lines as the records of a data set."""
    return b"".join(map(card, lines))
