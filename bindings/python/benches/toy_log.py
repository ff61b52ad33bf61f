"""Times the appending of a package log whose records are signed by the toy scheme:
`python3 toy_log.py RUNS < LOG`, a line an envelope.

Prints the least time of the runs in nanoseconds a record: asking, verifying, appending.
"""

import base64
import hashlib
import sys
import time

from weoldrin import PackageLog, SignatureCheck


def verify(question: SignatureCheck) -> bool:
    """A key is the bytes of a name, a signature the SHA-256 of these and the message."""
    key, signature = question.key.removeprefix("toy:"), question.signature.removeprefix("toy:")
    return base64.b64decode(signature) == hashlib.sha256(base64.b64decode(key) + question.message).digest()


def run(envelopes: list[bytes]) -> tuple[int, int, int]:
    """The time of asking, of verifying and of appending all records, in nanoseconds."""
    asking = verifying = appending = 0
    now = time.perf_counter_ns
    with PackageLog() as log:
        for envelope in envelopes:
            start = now()
            question = log.ask(envelope)
            asked = now()
            belongs = verify(question)
            verified = now()
            log.append_answered(envelope, question, belongs)
            appending += now() - verified
            verifying += verified - asked
            asking += asked - start
    return asking, verifying, appending


def main() -> None:
    """Times the log of standard input."""
    envelopes = [bytes.fromhex(line) for line in sys.stdin]
    runs = [run(envelopes) for _ in range(int(sys.argv[1]))]
    asking, verifying, appending = (it // len(envelopes) for it in min(runs, key=lambda it: it[0] + it[2]))
    print(f"ask {asking} verify {verifying} append {appending}")


if __name__ == "__main__":
    main()
