"""What the scripts here import as `lib` is the folder tests/lib."""

import pathlib

__path__ = [str(pathlib.Path(__file__).resolve().parent.parent / "lib")]
