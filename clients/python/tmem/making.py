"""How a store is made: by `tmem init`, which puts its shape beside it."""

from __future__ import annotations

import json
import os
import subprocess
import tempfile
from typing import Any, Iterator, Mapping, Sequence, Tuple

from .errors import Exists, TmemError
from .link import Program, command, failure_of, not_started

# What the program says where something has the path of a new store, and what that of 1.0.0 said.
THERE = "tmem: something is there already", "tmem: the store is there already"
# Whether something has the store's path, and that of its shape.
There = Tuple[bool, bool]


def create(path: str | os.PathLike[str], shape: Mapping[str, Any], *, exist_ok: bool = False, program: Program | None = None) -> None:
    """Makes a store of a shape. What was cut off is brought to its end by the same call.

    Where something has the path, nothing is changed and `Exists` says so. But with `exist_ok` a store may be there, which is left as
    it is if the shape that it was made of, PATH.json, equals this one as JSON. If it does not, `TmemError` says where they differ."""
    path, text = os.fspath(path), json.dumps(shape).encode()
    while True:
        before = _there(path)
        if exist_ok and any(before):
            text = _same_text(path, text, before)
            if before[0]:
                return
        refusal = _init(path, text, command(program))
        if refusal is None:
            return
        # (where another process makes the same store meanwhile, each of the two goes on from what it finds)
        if not exist_ok or _there(path) == before:
            raise refusal


def _there(path: str) -> There:
    return os.path.lexists(path), os.path.lexists(f"{path}.json")


def _same_text(path: str, text: bytes, there: There) -> bytes:
    """The shape that is there, as it is written. `TmemError` unless it says the same as this text."""
    beside = f"{path}.json"
    try:
        with open(beside, "rb") as file:
            found = file.read()
        had, wanted = json.loads(found), json.loads(text)
    except (OSError, ValueError, RecursionError) as error:
        why = error.strerror if isinstance(error, OSError) else "this is not JSON"
        what = "something is there already, and its shape" if there[0] else "a shape is there already, and"
        raise TmemError(f"cannot create {path}: {what} cannot be read: {beside}: {why}") from None
    for at, here, there_too in _differences(had, wanted, ""):
        differ = f"{beside} has {here} at {at or 'its top'}, where the one given has {there_too}"
        raise TmemError(f"cannot create {path}: another shape is there already: {differ}")
    return found


def _differences(had: Any, wanted: Any, at: str) -> Iterator[Tuple[str, str, str]]:
    """Where two values differ as JSON, and what each has there."""
    if isinstance(had, dict) and isinstance(wanted, dict):
        keys: Sequence[Any] = sorted({*had, *wanted})
    elif isinstance(had, list) and isinstance(wanted, list):
        keys = range(max(len(had), len(wanted)))
        had, wanted = dict(enumerate(had)), dict(enumerate(wanted))
    else:
        # (to Python 1, 1.0 and True are equal)
        if json.dumps(had) != json.dumps(wanted):
            yield at, _short(had), _short(wanted)
        return
    for key in keys:
        if key in had and key in wanted:
            yield from _differences(had[key], wanted[key], f"{at}/{key}")
        else:
            yield f"{at}/{key}", *(_short(it[key]) if key in it else "nothing" for it in (had, wanted))


def _short(value: Any) -> str:
    text = json.dumps(value)
    return text if len(text) <= 60 else f"{text[:57]}..."


def _init(path: str, text: bytes, words: Sequence[str]) -> TmemError | None:
    """Has the program make the store of this text, or finish it: why it did not."""
    with tempfile.NamedTemporaryFile(suffix=".json") as file:
        file.write(text)
        file.flush()
        how: Mapping[str, Any] = {"stdin": subprocess.DEVNULL, "stdout": subprocess.DEVNULL, "stderr": subprocess.PIPE}
        try:
            ended = subprocess.run([*words, "init", path, file.name, "--explain"], check=False, **how)
        except OSError as error:
            return not_started(words, error)
    if ended.returncode == 0 and os.path.exists(path):
        return None
    return failure_of(words, ended.returncode, ended.stderr, lambda told: _refusal(path, told, file.name))


def _refusal(path: str, told: str, given: str) -> TmemError:
    """What the program said, which is to name no file that is gone again."""
    line = told.split("\n")[0]
    if line in THERE:
        return Exists(path, f"cannot create {path}: {line}")
    return TmemError(f"cannot create {path}: {told.replace(given, 'the shape')}")
