"""Whether signatures belong, by the library."""

from ._library import CALLS, REFUSED, Bytes, bytes_of, checked, text_bytes


def verify(key: str, message: Bytes, signature: str) -> bool:
    """Whether the signature belongs to the message under the key, by their texts, as they stand in questions.

    Raises `BadArgument` where the key's text can't be read, `UnknownAlgorithm` where its algorithm is not `ecdsa-p256`,
    and otherwise `BadArgument` where the signature's text can't be read.
    """
    passed: list[bytes | int] = []
    # What is no text, as half a surrogate pair, is none for the library either.
    for it in (text_bytes(key, "surrogatepass"), bytes_of(message), text_bytes(signature, "surrogatepass")):
        passed += [it, len(it)]
    status = CALLS["verify"](*passed)
    return False if status == REFUSED else checked("verify", status)
