"""Damaged copies of the repository, and what a check tells of them."""
import contextlib
import importlib
import io
import os
import tempfile
from collections.abc import Iterator, Mapping
from pathlib import Path

from gate import TOP


def link_all(folder: Path, copy: Path, but: str) -> None:
    """Links the files and folders of a folder into its copy, but for one name."""
    for it in folder.iterdir():
        if it.name != but and not (copy / it.name).is_symlink() and not (copy / it.name).exists():
            (copy / it.name).symlink_to(it)


def put(copy: Path, path: str, text: str) -> None:
    """Puts another text at a place of a copy, with links to all that stands beside it."""
    folder, place = TOP, copy
    for name in Path(path).parts:
        if place.is_symlink():
            place.unlink()
        place.mkdir(exist_ok=True)
        link_all(folder, place, name)
        folder, place = folder / name, place / name
    if place.is_symlink():
        place.unlink()
    place.write_text(text, encoding="utf-8")


@contextlib.contextmanager
def damaged(texts: Mapping[str, str]) -> Iterator[None]:
    """Runs what is within in a copy of the repository that has these texts."""
    before = os.getcwd()
    with tempfile.TemporaryDirectory() as room:
        for path, text in texts.items():
            put(Path(room), path, text)
        os.chdir(room)
        try:
            yield
        finally:
            os.chdir(before)


def changed(path: str, old: str, new: str) -> dict[str, str]:
    """A file in which something that stands there has become something else."""
    text = (TOP / path).read_text(encoding="utf-8")
    if old not in text:
        raise LookupError(f"{path} has no {old!r}")
    return {path: text.replace(old, new)}


def told(check: str, *words: str) -> tuple[int, str]:
    """The status of a check, and all that it says."""
    module, out = importlib.import_module(f"gate.{check}"), io.StringIO()
    with contextlib.redirect_stdout(out), contextlib.redirect_stderr(out):
        try:
            status = int(module.main(words))
        except SystemExit as ended:
            status = ended.code if isinstance(ended.code, int) else 1
            if isinstance(ended.code, str):
                print(ended.code)
    return status, out.getvalue()
