"""Proofs under the newest checkpoint, or under one of the few before it."""

from __future__ import annotations

from collections.abc import Callable
from http import HTTPStatus

from starlette.requests import Request
from starlette.responses import Response

from ..checkpoints import Checkpoints
from ..problems import Problem, bad_request, not_found
from ..trees import Kept
from .words import checkpoint_json, is_id, json_answer, no_checkpoint, number, query, registry_of

# What is proved under a checkpoint, as members of JSON.
_Proved = Callable[[Checkpoints, Kept], dict[str, object]]


async def inclusion(request: Request) -> Response:
    """That a leaf stands at its place."""
    words = query(request, "leaf", "length", "from")
    leaf = _wanted(words, "leaf")

    def proved(checkpoints: Checkpoints, under: Kept) -> dict[str, object]:
        if leaf >= under.length:
            raise not_found("NoLeaf", f"the checkpoint has {under.length} leaves")
        found = checkpoints.inclusion(under, leaf)
        return {"leaf": leaf, "logId": found.log_id, "recordId": found.record_id, "proof": found.proof}

    return await _proof(request, number(words, "length"), number(words, "from"), proved)


async def consistency(request: Request) -> Response:
    """That a checkpoint goes on from one of fewer leaves."""
    words = query(request, "from", "to")
    first = _wanted(words, "from")
    return await _proof(request, number(words, "to"), first, lambda *_: {"from": first}, "proof")


async def head(request: Request) -> Response:
    """A log's last record, or that it has none."""
    words = query(request, "log", "length", "from")
    log_id = words.get("log", "")
    if not is_id(log_id):
        raise bad_request("BadQuery", "log is missing, or no id of a log")

    def proved(checkpoints: Checkpoints, under: Kept) -> dict[str, object]:
        found = checkpoints.head(under, log_id)
        return {"logId": log_id, "recordId": found.record_id, "proof": found.proof}

    return await _proof(request, number(words, "length"), number(words, "from"), proved)


def _wanted(words: dict[str, str], name: str) -> int:
    """A number that may not be left out."""
    found = number(words, name)
    if found is None:
        raise bad_request("BadQuery", f"{name} is missing")
    return found


def _meant(checkpoints: Checkpoints, newest: Kept, length: int | None, first: int | None) -> Kept:
    """The checkpoint of a length, or the newest. Raises a `Problem` where none of that length is proved under."""
    if length is None:
        return newest
    found = checkpoints.kept(length)
    # One of fewer leaves than the asker has seen signed does not go on from these: the newest one does.
    if found is None or (first is not None and found.length < first <= newest.length):
        sentence = f"the newest checkpoint has the length {newest.length}"
        raise Problem(HTTPStatus.CONFLICT, "NotNewest", sentence, checkpoint=checkpoint_json(newest.text))
    return found


def _consistency(checkpoints: Checkpoints, under: Kept, first: int) -> str:
    proof = checkpoints.consistency(under, first)
    if proof is None:
        raise no_checkpoint(f" of length {first}")
    return proof


async def _proof(
    request: Request, length: int | None, first: int | None, proved: _Proved, name: str = "consistency"
) -> Response:
    """What is proved under the newest checkpoint, or under that of a length, and that it goes on from one of fewer
    leaves, by the name of that member."""
    registry = registry_of(request)

    def found() -> dict[str, object]:
        with registry.checkpoints.held() as newest:
            if newest is None:
                raise no_checkpoint()
            under = _meant(registry.checkpoints, newest, length, first)
            members = {"checkpoint": checkpoint_json(under.text), **proved(registry.checkpoints, under)}
            if first is not None:
                members[name] = _consistency(registry.checkpoints, under, first)
            return members

    return json_answer(await registry.read(found), 200, {"Cache-Control": "no-cache"})
