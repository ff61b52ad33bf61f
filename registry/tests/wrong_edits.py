"""Wrong edits of the server, each of which a test has to see.

    python3 tests/wrong_edits.py           tries all, and prints a line for each
    python3 tests/wrong_edits.py WORD..    those whose names have one of the words in them

in the folder of the registry, with the packages installed. The status is 1 where a test did not see one.
"""

import os
import pathlib
import re
import shutil
import subprocess
import sys
import tempfile

FOLDER = pathlib.Path(__file__).resolve().parent.parent
# The longest that a test takes.
PATIENCE = 300

PUBLISHING, STORAGE, STATES = "test_publishing.Publishing", "test_storage.Writers", "test_storage.States"
READING, CONNECTIONS = "test_reading.Reading", "test_connections.Connections"
PROOFS, KEYS, UNVERIFIED = "test_checkpoints.Proofs.test_all", "test_checkpoints.Keys", "test_unverified.Unverified"
TREES, SEVERAL = "test_trees.Trees", "test_trees.Several"
BEGINNING, FOUND = "test_beginning.Beginning", "test_installed.Found"

# The file, what stands there, what is put there, and the test that sees it.
Wrong = tuple[str, str, str, str]
WRONG: dict[str, Wrong] = {
    # Beginning
    "a log is begun among records": (
        "beginning.py", "elif not count:", "elif not has_operators:", f"{BEGINNING}.test_records"),
    "a key is made that can not sign": (
        "beginning.py", "if count and not settings.operator_key_id:", "if False:", f"{BEGINNING}.test_other_key"),
    "a log is begun though another key is named": (
        "beginning.py", "    if settings.operator_key_id:\n", "    if False:\n", f"{BEGINNING}.test_operator_key_id"),
    "a key that another process makes is a failure": (
        "beginning.py", "except KeyExists:", "except ZeroDivisionError:", f"{BEGINNING}.test_overtaken"),
    "a log that another process begins is a failure": (
        "beginning.py", 'if problem.name != "NotNext":', "if True:", f"{BEGINNING}.test_overtaken"),
    "what failed is another process's": (
        "beginning.py", 'if problem.name != "NotNext":', "if False:", f"{BEGINNING}.test_refused"),
    "all is begun unasked": (
        "command.py", "if words.new:", "if settings.key:", "test_beginning.Command.test_not_asked"),
    # The page
    "a page that lacks a part is served": ("page.py", "if all((it", "if any((it", f"{FOUND}.test_parts"),
    "that there is no page is not said": (
        "page.py", '        tell(f"the page', '        str(f"the page', f"{FOUND}.test_parts"),
    "the page is looked for around an installed copy": (
        "page.py", 'if not (_SOURCES / "hatch_build.py").is_file():', "if False:", f"{FOUND}.test_of_strangers"),
    # Publishing
    "any signature belongs": (
        "publishing.py", "belongs = verify(*question)", "belongs = True", f"{PUBLISHING}.test_offences"),
    "a record that is not next is an offence": (
        "publishing.py", "if error.name in _LINKS:", "if False:", f"{PUBLISHING}.test_not_next"),
    "a record that stands is not told": (
        "publishing.py", "if standing is not None:", "if False:", f"{PUBLISHING}.test_not_next"),
    "another time of the head is told": (
        "publishing.py", "envelopes.time_text(row.head_time)", "envelopes.time_text(0)", f"{PUBLISHING}.test_policy"),
    "times may be ahead": ("publishing.py", "if facts.time > (", "if False and (", f"{PUBLISHING}.test_policy"),
    "times may be a bit more ahead": (
        "publishing.py", "+ self._settings.ahead_seconds) *", "+ 2 * self._settings.ahead_seconds) *",
        "test_publishing.Limits.test_time"),
    "times may lie before 1970": ("publishing.py", "if facts.time < 0:", "if False:", f"{PUBLISHING}.test_policy"),
    "a log may begin with version 0": (
        "publishing.py", "if facts.version != 1:", "if False:", f"{PUBLISHING}.test_policy"),
    "anyone begins the operator log": (
        "publishing.py", "if facts.key_id != self._operator_key_id:", "if False:",
        "test_publishing.Operators.test_who_begins_it"),
    "a key begins a log too many": (
        "publishing.py", ">= self._settings.logs_per_key", "> self._settings.logs_per_key",
        "test_publishing.Limits.test_logs_of_a_key"),
    "a log in memory stays after a failed write": (
        "publishing.py", "if is_taken:", "if False:", f"{STORAGE}.test_a_write_that_fails"),
    "a spoiled log is used": (
        "handles.py", "if handle.is_spoiled:", "if False:", f"{STORAGE}.test_one_that_waits_for_a_write_that_fails"),
    "records of other processes are not seen": (
        "publishing.py", "                self._handles.go_on(handle, row)\n", "                pass\n",
        f"{STORAGE}.test_two_of_one_file"),
    "the place is one too great": (
        "publishing.py", "return Published(new_id, log.log_id, place, leaf)",
        "return Published(new_id, log.log_id, place + 1, leaf)", f"{PUBLISHING}.test_a_log"),
    "the index is one too great": (
        "publishing.py", "return Published(new_id, log.log_id, place, leaf)",
        "return Published(new_id, log.log_id, place, leaf + 1)", f"{PUBLISHING}.test_a_log"),
    "a name may be longer": (
        "publishing.py", "_LONGEST_NAME = 128", "_LONGEST_NAME = 129", f"{PUBLISHING}.test_names_that_are_none"),
    "the seconds of a time are cut": ("envelopes.py", "_number(time, 1), 64)", "_number(time, 1), 32)",
                                      f"{PUBLISHING}.test_policy"),
    # Logs in memory
    "a state is saved each time": (
        "handles.py", ">= max(self._state_records, handle.count // 16)", ">= 1",
        f"{STATES}.test_they_are_saved_and_gone_on_from"),
    "a state is never saved": (
        "handles.py", "        self._storage.save_state(log_id, state)", "        pass",
        f"{STATES}.test_they_are_saved_and_gone_on_from"),
    "a great log is saved as often": (
        "handles.py", "max(self._state_records, handle.count // 16)", "self._state_records",
        f"{STATES}.test_a_greater_log_is_saved_more_seldom"),
    "a state is not gone on from": (
        "handles.py", 'self._storage.state(log_id) or State(0, "{}")', 'State(0, "{}")',
        f"{STATES}.test_they_are_saved_and_gone_on_from"),
    "a state is read behind the log's row": (
        "handles.py", "        state = self._storage.state(log_id) or State(0, \"{}\")\n        row = "
        "self._storage.log(log_id)\n", "        row = self._storage.log(log_id)\n        state = "
        "self._storage.state(log_id) or State(0, \"{}\")\n", f"{STATES}.test_a_state_that_comes_in_between"),
    "a later version's file is taken": (
        "storage/sqlite.py", "if version > _VERSION:", "if False:", f"{STORAGE}.test_what_is_no_file_of_this"),
    "another head is taken": ("handles.py", "if handle.head != (", "if False and (", f"{STATES}.test_what_is_damaged"),
    "logs in memory are not bounded": (
        "handles.py", "while self._size > self._most_bytes", "while False", f"{STATES}.test_memory_is_bounded"),
    "what a log has grown by is not counted": (
        "handles.py", "handle.counted = handle.bytes", "handle.counted = 0", f"{STATES}.test_memory_is_bounded"),
    "a checkpoint that fails ends all": (
        "registry.py", "        except Exception as error:", "        except ZeroDivisionError as error:",
        "test_registry"),
    # The file
    "writes do not wait for the disk": (
        "storage/sqlite.py", "synchronous = FULL", "synchronous = NORMAL", f"{STORAGE}.test_it_waits_for_the_disk"),
    "a record is judged before the lock is had": (
        "storage/sqlite.py", "BEGIN IMMEDIATE", "BEGIN", f"{STORAGE}.test_a_lock_that_is_held"),
    "the head is not compared": (
        "storage/sqlite.py", "if (head, count) != (new.head, new.place):", "if count != new.place:",
        f"{STORAGE}.test_append_is_exact"),
    "the place is not compared": (
        "storage/sqlite.py", "if (head, count) != (new.head, new.place):", "if head != new.head:",
        f"{STORAGE}.test_append_is_exact"),
    "a refused record is kept": (
        "storage/sqlite.py", 'file.execute("ROLLBACK")\n                    raise',
        'file.execute("COMMIT")\n                    raise', f"{STORAGE}.test_append_is_exact"),
    "a leaf is written outside": (
        "storage/sqlite.py", 'file.execute("INSERT INTO leaves VALUES (?, ?, ?)", (leaf, log, new.record_id))',
        'file.execute("INSERT INTO leaves VALUES (?, ?, ?)", (leaf, log, new.record_id))\n'
        '            file.execute("COMMIT"); __import__("time").sleep(0.01); file.execute("BEGIN")',
        "test_kills.Killed.test_all"),
    "an acknowledged record may be lost": (
        "registry.py", "new = self.publisher.publish(log, envelope, self.checkpoints.now())",
        "new = self.publisher.publish(log, envelope, self.checkpoints.now())\n"
        "        if new.leaf % 9 == 8:\n            import sqlite3\n"
        "            with sqlite3.connect(self.settings.database) as file:\n"
        "                file.execute('DELETE FROM leaves WHERE leaf = ?', (new.leaf,))",
        "test_kills.Killed.test_all"),
    "answers have any bytes": (
        "storage/sqlite.py", "if found and size > most_bytes:", "if False:", f"{READING}.test_the_bytes_of_an_answer"),
    "an answer may have no record": (
        "storage/sqlite.py", "if found and size > most_bytes:", "if size > most_bytes - 500:",
        f"{READING}.test_the_bytes_of_an_answer"),
    "a full disk is a failure": (
        "storage/sqlite.py", 'if "full" in text or "disk I/O error" in text or "readonly" in text:', "if False:",
        "test_processes.Processes.test_a_full_disk"),
    "a lock is a failure": (
        "storage/sqlite.py", 'return Locked(text) if "locked" in text or "busy" in text else StorageError(text)',
        "return StorageError(text)", "test_processes.Processes.test_a_lock_that_is_held"),
    "a full disk under a database is a failure": (
        "storage/postgres.py", "isinstance(error, psycopg.errors.DiskFull)", "False",
        "test_full_database.FullDatabase"),
    "a database that went away is a failure": (
        "storage/postgres.py", "        return Unreachable(text)\n", "        return StorageError(text)\n",
        "test_full_database.FullDatabase"),
    "a record that may stand is told as refused": (
        "storage/postgres.py", "        return Unreachable(text)\n", "        return DiskFull(text)\n",
        "test_full_database.FullDatabase"),
    "a connection that was ended is used": (
        "storage/postgres.py", "        if waiting.poll(0):\n", "        if False:\n",
        "test_postgres.WritersOnPostgres.test_a_connection_that_breaks"),
    "a record of PostgreSQL is kept by parts": (
        "storage/postgres.py", "with self._connected() as connection, connection.transaction():",
        "with self._connected() as connection:", "test_postgres.KilledOnPostgres"),
    "PostgreSQL is not waited for": (
        "storage/postgres.py", "SET synchronous_commit = on", "SET synchronous_commit = off",
        "test_postgres.PostgresKilled"),
    "an older state follows": (
        "storage/sqlite.py", " WHERE excluded.count > states.count", "",
        f"{STATES}.test_an_older_state_does_not_follow_a_later_one"),
    "checkpoints come in any order": (
        "storage/sqlite.py", "if _newest(file) != before:", "if False:",
        f"{STORAGE}.test_checkpoints_are_added_in_order"),
    "a checkpoint is changed": (
        "storage/sqlite.py", "SET renewed = excluded.renewed", "SET renewed = excluded.renewed, text = excluded.text",
        f"{STORAGE}.test_checkpoints_are_added_in_order"),
    "a name stands on two pages": ("storage/sqlite.py", "AND name > ?", "AND name >= ?", f"{READING}.test_names"),
    "names begin otherwise": ("storage/sqlite.py", "AND name < ? ", "AND ? <> name ", f"{READING}.test_names"),
    "a leaf is looked for in each log": (
        "storage/sqlite.py", "WHERE log_id = ? AND record_id = ?", "WHERE ? <> '' AND record_id = ?",
        f"{READING}.test_a_leaf"),
    "a leaf has the record's place": (
        "routes/lists.py", "Published(record_id, log_id, *standing)",
        "Published(record_id, log_id, standing.place, standing.place)", f"{READING}.test_a_leaf"),
    "a leaf may not be kept": (
        "routes/lists.py", "members()), _FOR_EVER)", 'members()), "no-cache")', f"{READING}.test_a_leaf"),
    "a leaf of no record is a failure": (
        "routes/lists.py", "if standing is None:", "if False:", f"{READING}.test_no_leaf"),
    "a log of none only lacks a record": (
        "routes/lists.py", "if await registry.read(registry.storage.log, log_id) is None:", "if False:",
        f"{READING}.test_no_leaf"),
    "a leaf is looked for by any text": (
        "routes/lists.py", "if not is_id(log_id) or not is_id(record_id):", "if False:", f"{READING}.test_no_leaf"),
    "a leaf is left out": ("storage/sqlite.py", "WHERE leaf >= ?", "WHERE leaf > ?", f"{READING}.test_leaves"),
    # Checkpoints
    "checkpoints are made as often as records": (
        "checkpoints.py", "since < self._settings.checkpoint_seconds or is_paused", "is_paused",
        "test_unverified.Unverified.test_how_often"),
    "times go back": (
        "checkpoints.py", "max(int(time.time()), last)", "int(time.time())", f"{KEYS}.test_times_never_go_back"),
    "the clock goes back": (
        "checkpoints.py", "max(time.time(), newest.signed.contents.timestamp if newest else 0)", "time.time()",
        f"{KEYS}.test_times_never_go_back"),
    "checkpoints wait by the clock": (
        "checkpoints.py", "import threading\nimport time\n",
        "import threading\nimport time as real\nfrom types import SimpleNamespace\n"
        "time = SimpleNamespace(time=lambda: real.time(), monotonic=lambda: real.time())\n", "test_clocks"),
    "times stand still": (
        "checkpoints.py", "max(int(time.time()), last)", "last or int(time.time())", "test_clocks"),
    "times go by the clock alone": (
        "checkpoints.py", "max(int(time.time()), last)", "int(time.time())", "test_clocks"),
    "a checkpoint is not verified": (
        "checkpoints.py", "return log.verify_checkpoint(it.contents, it.key_id, it.signature)", "return True",
        f"{UNVERIFIED}.test_checkpoints"),
    "a key that may not sign is served": (
        "checkpoints.py", "return self._newest if self._is_verified else None", "return self._newest",
        f"{KEYS}.test_a_key_that_may_not"),
    "an old checkpoint stays": (
        "checkpoints.py", "is_old = newest is None or since >= self._settings.renew_seconds", "is_old = False",
        "test_checkpoints.Renewed.test_the_newest"),
    "other leaves are taken": (
        "checkpoints.py", "if trees.checkpoint(contents.timestamp) != contents:", "if False:",
        f"{KEYS}.test_leaves_that_were_changed"),
    "consistency is not verified": (
        "checkpoints.py", "if not verify_consistency(", "if False and not verify_consistency(",
        f"{UNVERIFIED}.test_proofs"),
    "inclusion is not verified": (
        "checkpoints.py", "if not verify_inclusion(", "if False and not verify_inclusion(",
        f"{UNVERIFIED}.test_proofs"),
    "a head is not verified": ("checkpoints.py", "if not holds:", "if False:", f"{UNVERIFIED}.test_proofs"),
    "trees stay ahead of what is kept": (
        "checkpoints.py", "            self._ring.drop()\n            self._paused_until",
        "            self._paused_until", f"{UNVERIFIED}.test_one_that_fails_on_the_way"),
    "what failed is tried at once": (
        "checkpoints.py", "time.monotonic() + _PAUSE", "time.monotonic()",
        f"{UNVERIFIED}.test_one_that_can_not_be_kept"),
    "another process's checkpoint is not looked for": (
        "checkpoints.py", "text = self._storage.newest()\n        if text is None:",
        "text = self._newest.text if self._newest else self._storage.newest()\n        if text is None:",
        f"{UNVERIFIED}.test_another_process"),
    "a checkpoint that was overtaken breaks off": (
        "checkpoints.py", "if before.length >= length:", "if True:",
        f"{UNVERIFIED}.test_another_process_with_fewer_leaves"),
    "the log goes on from any length": (
        "checkpoints.py", "if first > under.length or (first > 0 and text is None):", "if first > under.length:",
        PROOFS),
    "another past is taken beside a checkpoint": (
        "checkpoints.py", "if before is not None and self._ring.of(before.length):", "if False:",
        f"{UNVERIFIED}.test_another_past"),
    "an older checkpoint's key may not sign any more": (
        "checkpoints.py", "if found.is_verified and may_sign else", "if found.is_verified else",
        f"{UNVERIFIED}.test_a_key_that_may_not_any_more"),
    "an older checkpoint's signature is not looked at": (
        "checkpoints.py", "if found.is_verified and may_sign else", "if may_sign else",
        f"{UNVERIFIED}.test_one_that_another_process_renews"),
    "an older checkpoint's roots are not looked at": (
        "checkpoints.py", "self._ring.accept(last, self._may_stand(last, found.trees))",
        "self._ring.accept(last, self._is_signed(last.signed))",
        f"{UNVERIFIED}.test_one_that_another_process_renews"),
    "an older checkpoint is the first of its length": (
        "checkpoints.py", "self._storage.renewed(length)", "self._storage.checkpoint(length)",
        f"{UNVERIFIED}.test_one_that_another_process_renews"),
    "the last checkpoint of a length is the first": (
        "storage/sqlite.py", "SELECT renewed FROM checkpoints WHERE", "SELECT text FROM checkpoints WHERE",
        f"{STORAGE}.test_checkpoints_are_added_in_order"),
    "the last checkpoint of a length is the first, in PostgreSQL": (
        "storage/postgres.py", "SELECT renewed FROM checkpoints WHERE", "SELECT text FROM checkpoints WHERE",
        "test_postgres.WritersOnPostgres.test_checkpoints_are_added_in_order"),
    "two checkpoints are always kept": (
        "checkpoints.py", "Ring(storage, settings.kept_checkpoints)", "Ring(storage, 2)",
        f"{UNVERIFIED}.test_how_many"),
    "any number of checkpoints is kept": (
        "settings.py", "if name in _MOST and", "if False and", "test_registry"),
    # Trees
    "leaves are read from the first on": (
        "trees.py", "self._storage.leaves(start, min(", "self._storage.leaves(0, min(",
        f"{TREES}.test_they_go_on"),
    "more leaves are read than are wanted": (
        "trees.py", "min(_MANY, length - start)", "_MANY", f"{TREES}.test_they_go_on"),
    "trees of more leaves are taken": (
        "trees.py", "len(self._all[-1].trees) > length:", "False:", f"{TREES}.test_they_are_made_anew"),
    "trees are made anew each time": (
        "trees.py", "        if not self._all:\n", "        if True:\n",
        f"{TREES}.test_they_go_on"),
    "trees are made by a push for each leaf": (
        "trees.py", "            self._make(length)\n", "            self._all.append(Standing(RegistryTrees()))\n",
        f"{TREES}.test_they_are_made_at_once"),
    "trees are made of the last leaves that were read": (
        "trees.py", "saved.extend(saved_leaves(leaves))", "saved.__init__(saved_leaves(leaves))",
        f"{TREES}.test_they_are_made_at_once"),
    "the last leaves are read again and again": (
        "trees.py", "start += len(leaves)", "start += max(1, len(leaves) - 1)",
        f"{TREES}.test_they_are_made_at_once"),
    "trees that are dropped stay open": (
        "trees.py", "            it.trees.close()\n", "            pass\n",
        f"{TREES}.test_they_are_made_anew"),
    "a leaf that is none is a bad argument": (
        "trees.py", "except BadArgument:", "except ZeroDivisionError:", f"{TREES}.test_other_leaves"),
    "the newest trees go on": (
        "trees.py", "pop(0 if self._all[-1].checkpoint else -1)", "pop(-1)", f"{SEVERAL}.test_the_oldest_go_on"),
    "trees that are ahead are left": (
        "trees.py", "pop(0 if self._all[-1].checkpoint else -1)", "pop(0)",
        f"{SEVERAL}.test_trees_that_are_ahead"),
    "a renewed checkpoint has other trees": (
        "trees.py", "if len(self._all[-1].trees) < length:", "if True:", f"{SEVERAL}.test_one_that_is_renewed"),
    "a renewed checkpoint is not kept": (
        "trees.py", "if len(it.trees) == checkpoint.length:", "if it.checkpoint is None:",
        f"{SEVERAL}.test_one_that_is_renewed"),
    "all trees stand as the newest": (
        "trees.py", "if len(it.trees) == checkpoint.length:", "if True:", f"{SEVERAL}.test_the_oldest_go_on"),
    "some trees are missing": ("trees.py", "            it.result()\n", "            pass\n", f"{SEVERAL}.test_memory"),
    "trees stay open behind a registry": (
        "registry.py", "        self.checkpoints.close()\n", "", f"{TREES}.test_a_registry_that_stops"),
    "trees of another length are asked": (
        "checkpoints.py", "if found is None or len(found.trees) != under.length:", "if found is None:",
        f"{UNVERIFIED}.test_proofs"),
    # Requests
    "an older checkpoint is taken for the newest": (
        "routes/proofs.py", "checkpoints.kept(length)", "checkpoints.kept(length) or newest", PROOFS),
    "the newest is taken for an older checkpoint": (
        "routes/proofs.py", "found = checkpoints.kept(length)", "found = checkpoints.kept(length) and newest", PROOFS),
    "an older checkpoint denies a newer one": (
        "routes/proofs.py", "found.length < first <= newest.length", "False", PROOFS),
    "a checkpoint that is none is only newer": (
        "routes/proofs.py", "found.length < first <= newest.length", "found.length < first", PROOFS),
    "a leaf behind the end is a failure": ("routes/proofs.py", "if leaf >= under.length:", "if False:", PROOFS),
    "a tag is not looked at": ("routes/words.py", "return any(it.strip()", "return False and any(it.strip()",
                               f"{READING}.test_tags"),
    "both forms have one tag": (
        "routes/records.py", '{"+protobuf" if is_protobuf else ""}', "", f"{READING}.test_tags"),
    "the link leads too far": (
        "routes/records.py", "?from={start + len(found)}>", "?from={start + len(found) + 1}>",
        f"{READING}.test_records"),
    "more is not told": ("routes/records.py", "or len(envelopes) < wanted", "", f"{READING}.test_fetching_many"),
    "an answer of many logs has any bytes": (
        "routes/records.py", "if found and size > bytes_left:", "if False:", f"{READING}.test_fetching_many"),
    "any number of logs is asked for": (
        "routes/records.py", "if len(asked) > settings.fetch_logs:", "if False:",
        f"{READING}.test_fetching_wrongly"),
    "a text is a number": ("routes/records.py", "type(count) is not int or", "", f"{READING}.test_fetching_wrongly"),
    "words may stand twice": (
        "routes/words.py", "len(found) != len(pairs) or not", "not", f"{READING}.test_wrong_queries"),
    "other words are passed over": (
        "routes/words.py", " or not found.keys() <= set(names)", "", f"{READING}.test_wrong_queries"),
    "numbers are any digits": (
        "routes/words.py", 're.compile(r"[0-9]{1,19}")', 're.compile(r"\\d{1,19}")', f"{READING}.test_wrong_queries"),
    "numbers are of any size": (
        "routes/words.py", "value <= _GREATEST else None", "True else None", f"{READING}.test_wrong_queries"),
    "a body of chunks has any length": (
        "routes/words.py", "if len(found) > most:", "if False:", "test_publishing.Limits.test_body"),
    "a long body is read": (
        "routes/words.py", "if length is not None and (", "if False and (",
        f"{CONNECTIONS}.test_lengths_that_are_none"),
    "a body may take any time": (
        "routes/words.py", "asyncio.wait_for(read(), seconds)", "asyncio.wait_for(read(), None)",
        f"{CONNECTIONS}.test_slow_bodies"),
    "a slow body's connection stays": (
        "routes/words.py", '.with_headers(Connection="close") from None', " from None",
        f"{CONNECTIONS}.test_slow_bodies"),
    "a body behind a GET is passed over": (
        "front.py", 'if scope["method"] not in ("GET", "HEAD"):', "if True:",
        f"{CONNECTIONS}.test_a_body_behind_a_get"),
    "paths are any": (
        "front.py", 'if "\\0" in scope["path"] or', "if False and", f"{READING}.test_wrong_addresses"),
    "parts of paths are of any length": (
        "front.py", "_LONGEST_PART = 255", "_LONGEST_PART = 9999", f"{READING}.test_wrong_addresses"),
    "addresses are led on": (
        "app.py", "app.router.redirect_slashes = False", "", f"{READING}.test_wrong_addresses"),
    "a connection goes on without its body": (
        "front.py", "if status >= 400 and any(", "if False and any(",
        f"{CONNECTIONS}.test_a_long_body_is_told_so"),
    "lines are printed as they come": (
        "lines.py", "printing.tell(f", "print(file=__import__('sys').stderr, flush=True, end=f",
        f"{CONNECTIONS}.test_lines"),
    # Connections
    "there may be any number of connections": (
        "protocol.py", "if len(self.connections) > self.settings.connections:", "if False:",
        "test_connections.Crowds.test_many_connections"),
    "all connections are kept": (
        "protocol.py", "if len(self.connections) > 2 * self.settings.connections:", "if False:",
        "test_connections.Crowds.test_far_too_many_connections"),
    "a head may take any time": (
        "protocol.py", "return self.settings.head_seconds if", "return 99 if",
        f"{CONNECTIONS}.test_slow_heads_and_idle_connections"),
    "a request may take any time": (
        "protocol.py", "else self.settings.idle_seconds", "else 99",
        f"{CONNECTIONS}.test_slow_heads_and_idle_connections"),
    "each byte gives a head more time": (
        "protocol.py", "if part is self._awaited:", "if part is None:",
        f"{CONNECTIONS}.test_slow_heads_and_idle_connections"),
    "a body that nobody reads may take any time": (
        "protocol.py", "return self.settings.body_seconds", "return 99", f"{CONNECTIONS}.test_slow_bodies"),
    "what is idle is told that it is slow": (
        "protocol.py", "if self._awaited is _Part.HEAD:", "if self._awaited:",
        f"{CONNECTIONS}.test_behind_a_body_that_nobody_reads"),
    "the deadline of a body stays behind it": (
        "protocol.py", "self.conn.their_state is h11.SEND_BODY", "self._awaited is _Part.BODY or "
        "self.conn.their_state is h11.SEND_BODY", "test_connections.Patient"),
    "a length of many digits breaks the connection": (
        "protocol.py", "except ValueError:", "except ZeroDivisionError:",
        f"{CONNECTIONS}.test_lengths_that_are_none"),
    "a long head is told as a bad one": (
        "protocol.py", "elif hint == HTTPStatus.REQUEST_HEADER_FIELDS_TOO_LARGE:", "elif False:",
        f"{CONNECTIONS}.test_what_is_no_http"),
    "a reader that reads nothing stays": (
        "protocol.py", "if unread and unread == self._unread:", "if False:",
        f"{CONNECTIONS}.test_readers_that_read_nothing"),
    "answers are held back": (
        "protocol.py", "socket.TCP_NODELAY, 1)", "socket.TCP_NODELAY, 0)",
        f"{CONNECTIONS}.test_an_answer_is_not_held_back"),
}


def seen_by(wrong: Wrong) -> str:
    """What the test says of the edit, in a line, or nothing where it passes."""
    file, old, new, test = wrong
    with tempfile.TemporaryDirectory(prefix="weoldrin-") as name:
        folder = pathlib.Path(name) / "weoldrin_registry"
        shutil.copytree(FOLDER / "src/weoldrin_registry", folder, ignore=shutil.ignore_patterns("__pycache__"))
        text = (folder / file).read_text(encoding="utf-8")
        if text.count(old) < 1:
            raise SystemExit(f"{file} has no {old!r}")
        (folder / file).write_text(text.replace(old, new, 1), encoding="utf-8")
        paths = [name, *filter(None, [os.environ.get("PYTHONPATH")])]
        # What kills see, a few of them see.
        found = {"WEOLDRIN_KILLS": "6"} | os.environ
        found |= {"PYTHONPATH": ":".join(paths), "PYTHONDONTWRITEBYTECODE": "1"}
        words = [sys.executable, "-m", "unittest", f"tests.{test}"]
        try:
            done = subprocess.run(words, cwd=FOLDER, env=found, capture_output=True, timeout=PATIENCE, check=False)
        except subprocess.TimeoutExpired:
            return "it does not end"
    if done.returncode == 0:
        return ""
    said = done.stderr.decode(errors="replace").splitlines()
    lines = [it for it in said if re.match(r"[\w.]*(?:Error|NotAsSaid)", it)]
    return lines[-1][:200] if lines else "it fails"


def main() -> int:
    """Tries all, or some."""
    missed = 0
    for name, wrong in WRONG.items():
        if sys.argv[1:] and not any(it in name for it in sys.argv[1:]):
            continue
        said = seen_by(wrong)
        missed += not said
        print(f"{f'seen: {name} ({wrong[3]}): {said}' if said else f'NOT SEEN: {name} ({wrong[3]})'}", flush=True)
    return 1 if missed else 0


if __name__ == "__main__":
    sys.exit(main())
