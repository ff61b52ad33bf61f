"""Wrong edits of the trees of a registry, and of the client and the monitor of registries, each of which a test has to
see.

    python3 tests/wrong_edits.py           tries all, and prints a line for each
    python3 tests/wrong_edits.py WORD..    those whose names have one of the words in them

in the folder of the package, with the library in the environment's WEOLDRIN_LIBRARY. The status is 1 where a test did
not see one.
"""

import os
import pathlib
import re
import shutil
import subprocess
import sys
import tempfile

FOLDER = pathlib.Path(__file__).resolve().parent.parent
# The longest that a test takes.
PATIENCE = 120

DEFINED, REFUSED, SAVED = (f"test_registry_trees.{it}" for it in ("AsDefined", "Refused", "Saved"))
COMPARED, CONTRADICTIONS = "test_comparisons", "test_contradictions"
COUNTED = "test_logs.Packages.test_counts_of_resumed_logs"
THREADS, FORGOTTEN = "test_registry_threads.Threads", "test_registry_threads.Forgotten"
SIGNALS, FORKS, ENDS = (f"test_registry_interrupted.{it}" for it in ("Signals", "Forks", "Ends"))
CLIENT, MONITOR = "test_registry_client", "test_registry_monitor"
PUBLISH, REFUSALS, LOST, HOSTILE = (
    f"test_registry_publish.{it}" for it in ("Publish", "Refusals", "LostAnswers", "Hostile")
)
SENT = "registry/publishing.py"

# The file, what stands there, what is put there, and the test that sees it.
Wrong = tuple[str, str, str, str]
WRONG: dict[str, Wrong] = {
    # Publishing
    "a key is saved over a file": (
        "_files.py", "os.link(beside, path)", "os.replace(beside, path)\n        os.link(path, beside)",
        f"{PUBLISH}.test_saved"),
    "what a key was written to stays": (
        "_files.py", "    finally:\n        os.unlink(beside)", "    finally:\n        pass", f"{PUBLISH}.test_saved"),
    "others may read a new key": (
        "_files.py", "O_NOFOLLOW | os.O_CLOEXEC, 0o600)", "O_NOFOLLOW | os.O_CLOEXEC, 0o666)",
        f"{PUBLISH}.test_saved"),
    "a key is made for a log that has begun": (
        SENT, "if not is_there and not begins:", "if False:", f"{PUBLISH}.test_keys"),
    "a log that no checkpoint has is begun anew": (
        SENT, "if next(follower.registry.records(its_id, 0), None) is None:", "if True:",
        f"{HOSTILE}.test_of_another_log"),
    "records that no checkpoint has are passed over": (
        SENT, "in follower.registry.records(its_id, len(envelopes)):", "in []:", f"{REFUSALS}.test_another_head"),
    "records behind the checkpoint may be any": (
        SENT, "except REFUSED as error:\n            sent", "except ZeroDivisionError as error:\n            sent",
        f"{HOSTILE}.test_of_another_log"),
    "a record that stands is published again": (SENT, "if its_id is None:", "if True:", f"{LOST}.test_run_again"),
    "the last record alone is looked at": (
        SENT, "first = min(at.seen, len(at.envelopes) - 1)", "first = len(at.envelopes) - 1", f"{LOST}.test_run_again"),
    "any record of the same entries is the one": (
        SENT, "first = min(at.seen, len(at.envelopes) - 1)", "first = 0", f"{LOST}.test_another_time"),
    "a record that got no answer is given up": (
        SENT, "_SENDINGS, _BETWEEN = 3,", "_SENDINGS, _BETWEEN = 1,", f"{LOST}.test_sent_again"),
    "what was seen is not kept": (
        SENT, "        if beside is not None:\n", "        if False:\n", f"{PUBLISH}.test_new"),
    "a record's time is the clock's": (
        SENT, "max(time.time_ns(), last.timestamp if last else 0)", "time.time_ns()", f"{PUBLISH}.test_clock"),
    "a release has the digest of its file's name": (
        SENT, "LogKind.PACKAGE, it, digest_of_file)", "LogKind.PACKAGE, it)", f"{PUBLISH}.test_new"),
    "a digest is a file": (SENT, "if is_hash(path):", "if False:", f"{PUBLISH}.test_digests"),
    "an init that is named comes twice": (
        SENT, "if entries and entries[0] == init", "if False", f"{PUBLISH}.test_begin_alone"),
    "a record may be said to stand anywhere": (
        SENT, "if found.place != len(at.envelopes) or found.leaf < at.length:", "if False:",
        f"{HOSTILE}.test_answers"),
    "a record that is served may have no leaf": (
        SENT, "if place is None:", "if False:", f"{HOSTILE}.test_leaf_denied"),
    "an answer of another record is taken": (
        "registry/answers.py", '!= (log_id, record_id):', "is None:", f"{HOSTILE}.test_answers"),
    "an index is any number": (
        "registry/answers.py", "if not all(0 <= it < 2**63 for it in found):", "if False:",
        f"{HOSTILE}.test_answers"),
    "a key with too many logs may come later": (
        "registry/answers.py", 'is_often and problem.name != "TooManyLogs"', "is_often",
        f"{REFUSALS}.test_refused"),
    "a proxy that is asked too often refuses": (
        "registry/answers.py", "(is_often and answer.headers.get_content_type() != _DOCUMENT)", "False",
        f"{REFUSALS}.test_later"),
    "serve is the program's word": (
        "_program.py", 'if sys.argv[1:2] == ["serve"]:', "if False:", "test_native.Program.test_serve"),
    # Calls
    "the place is one too great": (
        "trees.py", "return place.value", "return place.value + 1", f"{DEFINED}.test_each_length"),
    "the first of many leaves alone is pushed": (
        "trees.py", "for it in leaves:\n", "for it in leaves[:1]:\n", f"{DEFINED}.test_hundreds"),
    "many leaves are pushed from the last": (
        "trees.py", "for it in leaves:\n", "for it in leaves[::-1]:\n", f"{DEFINED}.test_hundreds"),
    "the length of none is 1": (
        "trees.py", "        self.push(leaves)\n        return self.length()\n",
        "        return self.push(leaves) + 1\n", f"{REFUSED}.test_one_of_many"),
    "a refused push is none": (
        "trees.py", 'checked("registry_push", call(self._registry, *it, place))', "call(self._registry, *it, place)",
        f"{REFUSED}.test_ids"),
    "what is behind a refused leaf is pushed": (
        "trees.py", 'checked("registry_push", call(self._registry, *it, place))',
        "refused = call(self._registry, *it, place)\n        checked('registry_push', refused)",
        f"{REFUSED}.test_one_of_many"),
    "leaves before one of another type are pushed": (
        "trees.py", "passed = [texts(log_id, record_id) for log_id, record_id in leaves]",
        "passed = (texts(log_id, record_id) for log_id, record_id in leaves)", f"{REFUSED}.test_types"),
    "the roots are swapped": (
        "trees.py", "self._own.made(self._handle.roots)[0]", "self._own.made(self._handle.roots)[1]",
        f"{DEFINED}.test_each_length"),
    "a checkpoint's roots are swapped": (
        "trees.py", "log_root, map_root = self.roots()", "map_root, log_root = self.roots()",
        f"{DEFINED}.test_checkpoint"),
    "a checkpoint is one leaf behind": (
        "trees.py", "Checkpoint(log_root, self.length(), map_root", "Checkpoint(log_root, self.length() + 1, map_root",
        f"{DEFINED}.test_checkpoint"),
    "no record is an empty text": (
        "trees.py", "text[: lengths.record_id_len] or None", "text[: lengths.record_id_len]",
        f"{DEFINED}.test_each_length"),
    "places are taken without their upper digits": (
        "trees.py", "if not 0 <= number <= GREATEST:", "if number < 0:", f"{REFUSED}.test_places"),
    "places are counted from the last": (
        "trees.py", "if not 0 <= number <= GREATEST:", "if number > GREATEST:", f"{REFUSED}.test_places"),
    "inclusion and consistency are swapped": (
        "trees.py", 'self._proof("registry_inclusion", place)', 'self._proof("registry_consistency", place)',
        f"{DEFINED}.test_each_length"),
    "trees of no leaves are false": (
        "trees.py", "        return True\n", "        return len(self) > 0\n", f"{REFUSED}.test_copies"),
    "trees are copied": ("trees.py", "def __reduce__", "def _reduce", f"{REFUSED}.test_copies"),
    "a bad id is told of the log": (
        "_library.py", '    "registry_push": NO_ID,\n', "", f"{REFUSED}.test_ids"),
    # The thread
    "a call is made by whoever asks": (
        "_own_thread.py", "        self._ask(call)\n        return call.outcome()",
        "        call.make()\n        return call.outcome()", f"{THREADS}.test_all_calls_are_of_one_thread"),
    "heads are asked for by any thread": (
        "trees.py", "return self._own.made(functools.partial(self._handle.head, *texts(log_id)))",
        "return self._handle.head(*texts(log_id))", f"{THREADS}.test_all_calls_are_of_one_thread"),
    "a registry is begun by any thread": (
        "trees.py", "self._own.made(self._handle.open)", "self._handle.open()",
        f"{THREADS}.test_all_calls_are_of_one_thread"),
    "a registry is closed by any thread": (
        "trees.py", "        self._finalizer()\n", "        self._handle.close()\n        self._finalizer()\n",
        f"{THREADS}.test_all_calls_are_of_one_thread"),
    "the collector closes a registry": (
        "trees.py", "weakref.finalize(self, self._own.end, self._handle.close)",
        "weakref.finalize(self, lambda own, handle: [handle.close(), own.end(int)], self._own, self._handle)",
        f"{FORGOTTEN}.test_collected"),
    "what is forgotten is not closed": (
        "trees.py", "weakref.finalize(self, self._own.end, self._handle.close)",
        "weakref.finalize(self, self._own.end, int)", f"{FORGOTTEN}.test_forgotten"),
    "the thread of what is forgotten stays": (
        "trees.py", "weakref.finalize(self, self._own.end, self._handle.close)", "weakref.finalize(self, int)",
        f"{FORGOTTEN}.test_one_that_was_not_begun"),
    "what was asked for is kept": (
        "_own_thread.py", "                del call\n", "", f"{FORGOTTEN}.test_what_is_asked_and_given"),
    "what was raised is kept": (
        "_own_thread.py", "            self._raised = None\n", "            pass\n",
        f"{FORGOTTEN}.test_what_is_asked_and_given"),
    "an exit ends the thread": (
        "_own_thread.py", "except BaseException as error:", "except Exception as error:",
        f"{FORGOTTEN}.test_what_is_asked_and_given"),
    "what is raised is lost": (
        "_own_thread.py", "            self._raised = error\n", "            pass\n", f"{REFUSED}.test_ids"),
    "closing waits for nothing": (
        "_own_thread.py", "            self._thread.join()\n", "            pass\n", f"{FORGOTTEN}.test_closed"),
    "a call behind the last waits for ever": (
        "_own_thread.py", "if self._is_ended:", "if False:", f"{THREADS}.test_a_call_behind_the_last"),
    "calls that wait for the last wait for ever": (
        "_own_thread.py", "            self._is_ended = True\n            self._refuse_all()\n",
        "            self._is_ended = True\n", f"{THREADS}.test_a_call_behind_the_last"),
    "the thread waits for itself": (
        "_own_thread.py", "if self._is_own():", "if False:", f"{THREADS}.test_the_own_thread"),
    "the thread waits for its own end": (
        "_own_thread.py", "and not self._is_own() and", "and", f"{THREADS}.test_the_own_thread"),
    "threads are told by their numbers": (
        "_own_thread.py", "threading.current_thread() is self._thread", "threading.get_ident() == self._thread.ident",
        f"{THREADS}.test_a_thread_of_the_same_number"),
    "a lock is held while a call waits": (
        "_own_thread.py", "        self._ask(call)\n        return call.outcome()",
        "        self._lock = getattr(self, '_lock', None) or threading.Lock()\n        with self._lock:\n"
        "            self._ask(call)\n            return call.outcome()", f"{SIGNALS}.test_a_handler_has_its_answer"),
    "an interrupted call is taken back": (
        "_own_thread.py", "        self._is_made.acquire()\n        if self._raised is None:",
        "        try:\n            self._is_made.acquire()\n        except BaseException:\n"
        "            self._work = lambda: self._given\n            raise\n        if self._raised is None:",
        f"{SIGNALS}.test_interrupts_of_what_waits"),
    "a copy that fork made waits for ever": (
        "_own_thread.py", "        if os.getpid() != self._process:\n            raise Forked(",
        "        if False:\n            raise Forked(", f"{FORKS}.test_forked"),
    "an interpreter does not end": (
        "_own_thread.py", "daemon=True", "daemon=False", f"{ENDS}.test_open_ones"),
    "trees are closed before the last calls": (
        "trees.py", "        self._finalizer.atexit = False\n", "", f"{ENDS}.test_the_last_calls"),
    "what is asked for too late waits for ever": (
        "_own_thread.py", "if sys.is_finalizing():", "if False:", f"{ENDS}.test_after_the_last"),
    "what is closed too late waits for ever": (
        "_own_thread.py", " and not sys.is_finalizing():", ":", f"{ENDS}.test_after_the_last"),
    # Logs that are resumed
    "the length of a resumed log is forgotten": (
        "logs.py", "        if length is None:\n", "        if True:\n", COUNTED),
    "a resumed log of no told length counts": (
        "logs.py", "        if length is None:\n", "        if False:\n", COUNTED),
    "any number is a length": (
        "logs.py", "_library.number(length)", "length", COUNTED),
    "a count that is not known is told": (
        "logs.py", "head.count if head.is_counted else None", "head.count", COUNTED),
    # Leaves that are saved, and comparisons
    "the ids of a saved leaf are swapped": (
        "trees.py", "for text in (log_id, record_id):", "for text in (record_id, log_id):",
        f"{SAVED}.test_saved_leaves"),
    "what is behind an id is passed over": (
        "trees.py", "_ID.fullmatch(text)", "_ID.match(text)", f"{SAVED}.test_saved_leaves"),
    "trees are made of no leaves": (
        "trees.py", "(self._registry, saved, len(saved))", "(self._registry, saved, 0)", f"{SAVED}.test_each_length"),
    "refused leaves are none": (
        "trees.py", 'checked("registry_resume", CALLS["registry_resume"](self._registry, saved, len(saved)))',
        'CALLS["registry_resume"](self._registry, saved, len(saved))', f"{SAVED}.test_lengths"),
    "no sentence tells of refused leaves": (
        "_library.py", '    "registry_resume": "BadLength: the bytes are no multiple of 64",\n', "",
        f"{SAVED}.test_lengths"),
    "trees are made anew by any thread": (
        "trees.py", "trees._own.made(functools.partial(trees._handle.resume, leaves))", "trees._handle.resume(leaves)",
        f"{THREADS}.test_all_calls_are_of_one_thread"),
    "leaves are saved by any thread": (
        "trees.py", "self._own.made(self._handle.save)", "self._handle.save()",
        f"{THREADS}.test_all_calls_are_of_one_thread"),
    "the older checkpoint is the newer one": (
        "proofs.py", "[*words[0], *words[1], *shown]", "[*words[1], *words[0], *shown]",
        f"{COMPARED}.Checkpoints.test_each_two_lengths"),
    "the roots of checkpoints are swapped": (
        "proofs.py", "_passed(it.log_length, it.log_root, it.map_root)",
        "_passed(it.log_length, it.map_root, it.log_root)", f"{COMPARED}.Checkpoints.test_each_two_lengths"),
    "a proof of consistency is left out": (
        "proofs.py", "    shown = _passed(proof)\n", '    shown = _passed("")\n',
        f"{COMPARED}.Checkpoints.test_each_two_lengths"),
    "the newer leaf is compared with itself": (
        "proofs.py", "proof in (old, new)\n", "proof in (new, new)\n",
        f"{COMPARED}.Leaves.test_forked"),
    "the fault of the newer proof alone is told": (
        "proofs.py", '"compare_leaves", passed, words[0][-2:], words', '"compare_leaves", passed, words',
        f"{COMPARED}.Leaves.test_faults"),
    "the second answer is compared with itself": (
        "proofs.py", "it.proof) for it in (one, other)]", "it.proof) for it in (other, other)]",
        f"{CONTRADICTIONS}.Heads.test_not_shown"),
    "an empty text is no record": (
        "proofs.py", '    if "" in (one.record_id, other.record_id):\n', "    if False:\n",
        f"{CONTRADICTIONS}.Heads.test_faults"),
    "the faults of proofs on a map are those of a log": (
        "proofs.py", "words[1][-2:], tree=_MAP)", "words[1][-2:])", f"{CONTRADICTIONS}.Heads.test_faults"),
    "the second beginning is compared with itself": (
        "proofs.py", "for checkpoint, proof in (one, other)\n", "for checkpoint, proof in (other, other)\n",
        f"{CONTRADICTIONS}.Beginnings.test_forked"),
    "a beginning of the older log is one of the newer": (
        "proofs.py", "*_passed(new.log_length, new.log_root)", "*_passed(new.log_length, one.checkpoint.log_root)",
        f"{CONTRADICTIONS}.Beginnings.test_each_two_lengths"),
    "a comparison without memory has an answer": (
        "proofs.py", "    checked(name, status)\n    return case.value", "    return case.value",
        f"{COMPARED}.Leaves.test_memory"),
    "a text that is no proof ends a client": (
        "registry/following.py", "        return compare_checkpoints(old, new, proof)\n    except BadArgument:",
        "        return compare_checkpoints(old, new, proof)\n    except ZeroDivisionError:", f"{COMPARED}.Told"),
    "a text that is no proof hides a rollback": (
        "registry/following.py", "compared(old, new) if proof else CheckpointComparison.NOT_SHOWN",
        "CheckpointComparison.NOT_SHOWN", f"{COMPARED}.Told"),
    "a text that is no proof shows a log": (
        "registry/following.py", "CheckpointComparison.NOT_SHOWN if found is CheckpointComparison.GOES_ON else found",
        "found", f"{COMPARED}.Told"),
    # The client
    "a rollback is a fork": (
        "registry/following.py", "if found is CheckpointComparison.GOES_BACK:", "if False:",
        f"{CLIENT}.Lies.test_after_honest"),
    "a fork goes on": (
        "registry/following.py", "if found not in GOING_ON:",
        "if found not in (*GOING_ON, CheckpointComparison.FORK):", f"{CLIENT}.Lies.test_after_honest"),
    "what is not shown goes on": (
        "registry/following.py", "if found not in GOING_ON:",
        "if found not in (*GOING_ON, CheckpointComparison.NOT_SHOWN):", f"{CLIENT}.Lies.test_after_honest"),
    "the proof that a log goes on is not taken": (
        "registry/following.py", 'compared(old, new, head.consistency or "")', "compared(old, new)",
        f"{CLIENT}.Fetch.test_honest"),
    "two answers of one length are the same": (
        "registry/following.py", "if compared(newest.contents, other.contents) is not CheckpointComparison.SAME:",
        "if False:", f"{CLIENT}.Lies.test_after_honest"),
    "gossip takes a fork for one view": (
        "registry/gossip.py", "if compared(one.contents, other.contents) is not CheckpointComparison.SAME:",
        "if False:", f"{MONITOR}.Gossip.test_fork"),
    "gossip takes what is not shown": (
        "registry/gossip.py", "if compared(old.contents, new.contents, proof) not in GOING_ON:", "if False:",
        f"{MONITOR}.Gossip.test_fork"),
    "gossip does not look at leaves": (
        "registry/gossip.py", "if not longer.has_leaves:", "if True:", f"{MONITOR}.Gossip.test_fork"),
    "gossip looks at leaves that a view has not": (
        "registry/gossip.py", "if not longer.has_leaves:", "if False:", f"{MONITOR}.Gossip.test_fork"),
    "gossip takes leaves that were not signed": (
        "registry/gossip.py", "if (len(trees), trees.log_root()) != (new.contents.log_length, new.contents.log_root):",
        "if len(trees) != new.contents.log_length:", f"{MONITOR}.Gossip.test_rolled_back"),
    "gossip takes fewer leaves than were signed": (
        "registry/gossip.py", "if (len(trees), trees.log_root()) != (new.contents.log_length, new.contents.log_root):",
        "if trees.log_root() != new.contents.log_root:", f"{MONITOR}.Gossip.test_rolled_back"),
    "gossip fails of leaves that are none": (
        "registry/gossip.py", "    except BadArgument:\n        return\n    with",
        "    except MemoryError:\n        return\n    with", f"{MONITOR}.Gossip.test_rolled_back"),
    "leaves that go on are a fork": (
        "registry/gossip.py", "if compared(old.contents, new.contents, proof) is CheckpointComparison.GOES_ON:",
        "if False:", f"{MONITOR}.Gossip.test_rolled_back"),
    "a leaf may be denied": (
        "registry/packages.py", "if place is None or not before", "if place is not None and not before",
        f"{CLIENT}.Lies.test_at_first"),
    "a leaf may stand behind all that is signed": (
        "registry/packages.py", "before < place < newest.contents.log_length", "before < place",
        f"{CLIENT}.Lies.test_at_first"),
    "a leaf may stand before one that was seen": (
        "registry/packages.py", "not before < place <", "not -1 < place <", f"{CLIENT}.Lies.test_after_honest"),
    "a leaf's place is not proved": (
        "registry/packages.py", "    _check_leaf(follower, place, its_id, record_id)\n", "",
        f"{CLIENT}.Lies.test_at_first"),
    "a leaf that is known is asked for": (
        "registry/packages.py", "known.head == record_id and before >= 0", "False", f"{CLIENT}.Fetch.test_leaf"),
    "a checkpoint may be twice as old": (
        "registry/following.py", "if age > self._oldest:", "if age > 2 * self._oldest:",
        f"{CLIENT}.Clocks.test_limits"),
    "a checkpoint may be twice as far ahead": (
        "registry/following.py", "if age < -AHEAD:", "if age < -2 * AHEAD:", f"{CLIENT}.Clocks.test_limits"),
    # The monitor
    "what is ahead is rolled back": (
        "registry/following.py", 'raise Told("checkpoint ahead", why, it', 'raise Told("rolled back registry", why, it',
        f"{MONITOR}.Clocks.test_jumps"),
    "what is stale is told again and again": (
        "registry/following.py", 'it, subject=f"{it.contents.timestamp}")\n        if age <',
        'it, subject=f"{time.perf_counter()}")\n        if age <', f"{MONITOR}.Clocks.test_jumps"),
    "false leaves count": (
        "registry/monitor.py", "log_root() != signed.log_root", "log_root() is None", f"{MONITOR}.Lies.test_lies"),
    "false leaves stay in the trees": (
        "registry/monitor.py", "            # They have leaves that do not count.\n            self.close()\n", "",
        f"{MONITOR}.Long.test_false_leaves"),
    "a false map is the right one": (
        "registry/monitor.py", "map_root() != newest.contents.map_root", "map_root() is None",
        f"{MONITOR}.Lies.test_lies"),
    "what is left out of the trees is a page": (
        "registry/monitor.py", "range(0, length, _TAKEN))\n", "range(0, length, 2 * _TAKEN))\n",
        f"{MONITOR}.Long.test_goes_on"),
    "the trees do not go on": (
        "registry/monitor.py", "while (start := len(self._trees)) < length:", "while (start := length) < length:",
        f"{MONITOR}.Long.test_goes_on"),
    "the trees are made anew in each step": (
        "registry/monitor.py", "            if self._trees is None:\n", "            if True:\n",
        f"{MONITOR}.Long.test_goes_on"),
    "a spoiled leaf is a bad argument": (
        "registry/monitor.py", "except BadArgument:", "except ZeroDivisionError:", f"{MONITOR}.Long.test_spoiled"),
    "the trees are made for nothing": (
        "registry/monitor.py", "        if self._is_checked(newest):\n            return\n        while",
        "        while", f"{MONITOR}.Honest.test_nothing_new"),
    "roots count that were not compared": (
        "registry/monitor.py", 'self._database.kept("roots") == _roots_of(newest)', "True",
        f"{MONITOR}.Lies.test_at_first"),
    "an executor is passed over": (
        "registry/replaying.py", "executor = self._processes() if self._executor is None else self._executor",
        "executor = self._processes()", f"{MONITOR}.Executors.test_threads"),
    "an executor has to have two workers": (
        "registry/replaying.py", "self._executor is None and (len(batches) < 2 or self.workers < 2)",
        "len(batches) < 2 or self.workers < 2", f"{MONITOR}.Executors.test_threads"),
    "an executor is ended": (
        "registry/replaying.py", "            self._pool.shutdown(cancel_futures=True)\n",
        "            self._pool.shutdown(cancel_futures=True)\n"
        "        if self._executor is not None:\n            self._executor.shutdown()\n",
        f"{MONITOR}.Executors.test_threads"),
    "a leaf counts twice": (
        "registry/database.py", "        start = self.counted()\n        # Beside",
        "        start = 0\n        # Beside", f"{MONITOR}.Long.test_goes_on"),
}


def seen_by(wrong: Wrong) -> str:
    """What the test says of the edit, in a line, or nothing where it passes."""
    file, old, new, test = wrong
    with tempfile.TemporaryDirectory(prefix="weoldrin-") as name:
        folder = pathlib.Path(name) / "weoldrin"
        shutil.copytree(FOLDER / "src/weoldrin", folder, ignore=shutil.ignore_patterns("__pycache__"))
        text = (folder / file).read_text(encoding="utf-8")
        if text.count(old) < 1:
            raise SystemExit(f"{file} has no {old!r}")
        (folder / file).write_text(text.replace(old, new, 1), encoding="utf-8")
        paths = [name, *filter(None, [os.environ.get("PYTHONPATH")])]
        found = os.environ | {"PYTHONPATH": ":".join(paths), "PYTHONDONTWRITEBYTECODE": "1"}
        words = [sys.executable, "-m", "unittest", f"tests.{test}"]
        try:
            done = subprocess.run(words, cwd=FOLDER, env=found, capture_output=True, timeout=PATIENCE, check=False)
        except subprocess.TimeoutExpired:
            return "it does not end"
    if done.returncode == 0:
        return ""
    said = done.stderr.decode(errors="replace").splitlines()
    lines = [it for it in said if re.match(r"[\w.]*(?:Error|TimeoutExpired)", it)]
    return lines[-1][:200] if lines else "it fails"


def main() -> int:
    """Tries all, or some."""
    missed = 0
    for name, wrong in WRONG.items():
        if sys.argv[1:] and not any(it in name for it in sys.argv[1:]):
            continue
        said = seen_by(wrong)
        missed += not said
        print(f"{f'seen: {name} ({wrong[3]}): {said}' if said else f'NOT SEEN: {name} ({wrong[3]})'}", flush=True)
    return 1 if missed else 0


if __name__ == "__main__":
    sys.exit(main())
