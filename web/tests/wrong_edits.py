"""Wrong edits of the page, each of which a test has to see.

    python3 web/tests/wrong_edits.py           tries all, in Chromium, and prints a line for each
    python3 web/tests/wrong_edits.py WORD..    those whose names have one of the words in them

The status is 1 where a test did not see one.
"""
import pathlib
import re
import sys
import tempfile
import unittest

import browsers
import page
from served import ROOT, Edit, Tested, copied

TESTS = pathlib.Path(__file__).parent
MAIN, JUDGING, WORKER, ANSWERS = (f"web/src/{it}.js" for it in ("main", "judging", "worker", "answers"))
DOM, READING, PANELS, PAGING = (f"web/src/{it}.js" for it in ("dom", "reading", "panels", "paging"))
CHECKPOINTS, PROOFS, SIGNERS = (f"web/src/{it}.js" for it in ("checkpoints", "proofs", "signers"))
ASKING, GROWING, VERIFYING = (f"web/src/{it}.js" for it in ("asking", "growing", "verifying"))
REGISTRY, SEEN = (f"web/src/{it}.js" for it in ("registry", "seen"))
COMPARING, FILES, PAGE, STYLE = "web/src/comparing.js", "web/src/files.js", "web/index.html", "web/style.css"
FOUND = "found: { kind: 'package', taken: done, count: total, toys: 0, refusal: null, permissions: [] }"
END = "shown.end(name, { state: 'verified', count: 4, length: 8, time: 1n, place: 7, head: '' })"
NOTHING = "{ taken: 0, toys: 0, kind: 'package', refusal: null, log: await logOf('package', { library }) }"

# The edit, and the test that sees it.
WRONG: dict[str, tuple[Edit, str]] = {
    "a yes is shown before the last record": (
        (MAIN, "Object.assign(log, { done, total });", f"Object.assign(log, {{ done, total, {FOUND} }}), list();"),
        "test_no_yes_before_the_last_record",
    ),
    "toy signatures are taken unasked": (
        (JUDGING, 'if (toy && scheme === "toy")', 'if (scheme === "toy")'),
        "test_toy_signatures_are_asked_for",
    ),
    "toy signatures are a yes like others": (
        (JUDGING, 'if (schemeOf(question) === "toy") toys++;', ""),
        "test_toy_signatures_are_asked_for",
    ),
    "any signature of P-256 belongs": (
        (JUDGING, "return verifyP256(question);", "return true;"),
        "test_changed_record_of_p256",
    ),
    "any toy signature belongs": ((JUDGING, "return isToy(question);", "return true;"), "test_forged_record"),
    "without WebCrypto nothing is verified": (
        (JUDGING, "hasWebCrypto() ? p256.verifyByWebCrypto : byLibrary", "p256.verifyByWebCrypto"),
        "test_without_web_crypto",
    ),
    "the other kind is refused without a word": (
        (JUDGING, "if (found !== null && found !== log.kind)", "if (false)"),
        "test_other_kind",
    ),
    "each log is a package's": (
        (JUDGING, "(await kindOf(library, envelopes[0])) ?? KINDS[0]", "KINDS[0]"),
        "test_operator_log",
    ),
    "comments count for no lines": (
        (JUDGING, "if (at++ === place) return number;", "if (at++ === place) return at;"),
        "test_changed_record_of_p256",
    ),
    "a file may be larger": ((WORKER, "if (size > MOST) throw", "if (false) throw"), "test_faults_of_files"),
    "a file without records is lawful": (
        (JUDGING, "if (!envelopes.length) throw new Empty();", f"if (!envelopes.length) return {NOTHING};"),
        "test_faults_of_files",
    ),
    "a folder is a file": ((FILES, "if (entry?.isDirectory)", "if (false)"), "test_folder"),
    "a server's no is a log": (
        (FILES, "if (!response.ok) throw", "if (false) throw"),
        "test_address",
    ),
    "a removed log stays": ((MAIN, "logs.splice(logs.indexOf(log), 1);", ""), "test_removal"),
    "a name is markup": (
        (DOM, 'el("bdi", { class: "said", ...attributes }, quoted(text))',
         'Object.assign(el("bdi", { class: "said", ...attributes }), { innerHTML: quoted(text) })'),
        "test_hostile_texts",
    ),
    "hidden characters are shown": (
        (DOM, 'printable(signs.slice(0, longest).join(""))', 'signs.slice(0, longest).join("")'),
        "test_hostile_texts",
    ),
    "long texts are whole": ((DOM, "const LONGEST = 240;", "const LONGEST = 240_000;"), "test_hostile_texts"),
    "scripts may stand in the page": (
        (PAGE, "script-src 'self'", "script-src 'self' 'unsafe-inline'"),
        "test_policy",
    ),
    "markup may be assigned": ((PAGE, "require-trusted-types-for 'script'; ", ""), "test_policy"),
    "the first member of an entry counts": (
        (READING, "members.at(-1)[0]", "members[0][0]"),
        "test_records_that_are_written_otherwise",
    ),
    "a member is its last piece": (
        (READING, "joined(members.slice(from).map(([, value]) => value))", "members.at(-1)[1]"),
        "test_records_that_are_written_otherwise",
    ),
    "packed permissions are passed over": (
        (READING, "type === BYTES && at < value.length; numbers", "false; numbers"),
        "test_what_is_in_a_log",
    ),
    "the last piece of a time is the time": (
        (READING, "if (times.length) found.time = timeOf(joined(times));",
         "if (times.length) found.time = timeOf(times.at(-1));"),
        "test_records_that_are_written_otherwise",
    ),
    "a tree has no branches": (
        (ANSWERS, "branch = branch.get(name).below;", "branch = roots;"),
        "test_what_is_in_a_log",
    ),
    "a key that lost a permission holds it": (
        (ANSWERS, "permissions: log.permissions(id) ?? [],", 'permissions: ["release", "yank"],'),
        "test_lost_permissions",
    ),
    "a yanked release looks like others": (
        (PANELS, 'yanked && el("strong", { class: "flag" }, " yanked")', "null"),
        "test_what_is_in_a_log",
    ),
    "each page begins at 0": (
        (PAGING, "draw(found.rows, from, found)", "draw(found.rows, 0, found)"),
        "test_pages",
    ),
    "a page of records holds frames up": (
        (PAGING, "draw(found.rows, from, found)",
         "(((end) => { while (Date.now() < end); })(Date.now() + total / 8), draw(found.rows, from, found))"),
        "test_scrolling_20000_records",
    ),
    "all rows are in the page": (
        (PANELS, "[RECORDS, ROWS, HOLDERS] = [100, 100, 100]", "[RECORDS, ROWS, HOLDERS] = [50_000, 100, 100]"),
        "test_pages",
    ),
    "all entries are in the page": (
        (ANSWERS, "entries: entries.slice(0, ENTRIES)", "entries"),
        "test_one_record_of_very_many_entries",
    ),
    "both sides are the left log": (
        (WORKER, "recordsOf(other, isCollision ? found.right : place, count)", "recordsOf(one, place, count)"),
        "test_fork",
    ),
    "a log that goes on is a fork": (
        (WORKER, "    ...found,\n    lengths:", '    ...found,\n    relation: "fork",\n    lengths:'),
        "test_one_goes_on",
    ),
    "a refused log is compared": ((COMPARING, "if (refused) return", "if (false) return"), "test_what_is_not_compared"),
    "logs of two kinds are compared": (
        (COMPARING, "if (left.found.kind !== right.found.kind) return", "if (false) return"),
        "test_what_is_not_compared",
    ),
    "any proof holds": (
        (WORKER, 'what === "none" ? null : PROOFS[what]', 'what === "none" ? null : (() => true)'),
        "test_proofs_that_do_not_hold",
    ),
    "old and new checkpoints are one": (
        (WORKER, "library.verifyConsistency(it.old.logLength, it.old.logRoot,",
         "library.verifyConsistency(it.logLength, it.logRoot,"),
        "test_proofs_hold",
    ),
    "a proof is of the operators' log, whatever is named": (
        (WORKER, 'library.logId(name === null ? "operator" : "package", name ?? "")', 'library.logId("operator", "")'),
        "test_proofs_hold",
    ),
    "a checkpoint is not taken into the form": (
        (PROOFS, 'at("checkpoint").value = text.trim();', ""),
        "test_proof_on_it",
    ),
    "anyone signs checkpoints": ((CHECKPOINTS, "return isBy ? {", "return true ? {"), "test_not_signed"),
    "anyone signs the checkpoint of the form": (
        (CHECKPOINTS, "return isBy ? {", "return true ? {"),
        "test_signed_checkpoint",
    ),
    "a key that no one knows may not sign": (
        (CHECKPOINTS, 'if (key === null) return { state: "no-key" };', ""),
        "test_not_signed",
    ),
    "a key that may not sign is told as a forger": (
        (CHECKPOINTS, 'if (!log.holds(keyId, "commit")) return', "if (false) return"),
        "test_not_signed",
    ),
    "what can't be read is told as not signed": (
        (CHECKPOINTS, '{ state: "unreadable", keyId }', '{ state: "unsigned" }'),
        "test_not_signed",
    ),
    "another algorithm is a forgery": (
        (CHECKPOINTS, '{ state: "algorithm", keyId,', '{ state: "not-belonging", keyId,'),
        "test_what_is_not_known",
    ),
    "a checkpoint is a log": ((WORKER, "if (isJson(bytes)) return", "if (false) return"), "test_signed"),
    "a checkpoint may be of any length": (
        (WORKER, "if (bytes.length > LONGEST) throw", "if (false) throw"),
        "test_what_is_no_checkpoint",
    ),
    "a checkpoint need be no UTF-8": (
        (WORKER, "text = textOf(bytes);", "text = new TextDecoder().decode(bytes);"),
        "test_what_is_no_checkpoint",
    ),
    "a checkpoint's number is one of JavaScript": (
        ("bindings/js/src/checkpoints.js", "return BigInt(said);", "return BigInt(Number(said));"),
        "test_signed",
    ),
    "toy signatures say who signs": (
        (MAIN, "if (by.found.toys) return", "if (false) return"),
        "test_what_is_not_known",
    ),
    "a refused log says who signs": (
        (MAIN, "if (by.found.refusal) return", "if (false) return"),
        "test_what_is_not_known",
    ),
    "one log's yes is enough": (
        (SIGNERS, 'looks.includes("warn") ? "warn" : "good"', '"good"'),
        "test_operator_logs_that_disagree",
    ),
    "a removed log's word stays": ((MAIN, "  void tellSigners();\n", ""), "test_log_behind_its_checkpoint"),
    "a log that comes later is not asked": (
        (MAIN, "if (isAsked) await tellSigners();", "if (isCheckpoint(log)) await tellSigners();"),
        "test_log_behind_its_checkpoint",
    ),
    "who signed is not read out": (
        (MAIN, "if (isAsked) await tellSigners();", "if (isAsked) void tellSigners();"),
        "test_signed",
    ),
    "a checkpoint is compared": (
        (MAIN, "log.found && !isCheckpoint(log)", "log.found"),
        "test_log_behind_its_checkpoint",
    ),
    "a key's id is markup": (
        (DOM, 'return el("code", { class: "id" }, quoted(id, 80));',
         'return Object.assign(el("code", { class: "id" }), { innerHTML: id });'),
        "test_hostile_checkpoint",
    ),
    "verified is said before the last step": (
        (REGISTRY, "const heard = (found) => mine === turn && shown.hear(found);",
         f"const heard = (found) => (shown.hear(found), found.name === 'leaf' && {END});"),
        "test_nothing_before_the_last_step",
    ),
    "any log is the one of the name": (
        (GROWING, "  throw await explained(it, log, wanted);\n", ""),
        "test_log_of_another_name",
    ),
    "records of a registry are not judged": (
        (GROWING, "      if (refusal) {", "      if (false) {"),
        "test_records_that_are_not_those",
    ),
    "a log that was left short is another one": (
        (GROWING, "if (ids.every((id, place) => id === own[place]))", "if (false)"),
        "test_records_that_are_not_those",
    ),
    "any key signs a registry's checkpoint": (
        (VERIFYING, 'if (state === "signed") return;', "if (state) return;"),
        "test_checkpoint_not_signed",
    ),
    "a checkpoint may be of any time": (
        (VERIFYING, "if (age > OLDEST) throw", "if (false) throw"),
        "test_checkpoint_not_signed",
    ),
    "a checkpoint may be ahead": (
        (VERIFYING, "if (age < -AHEAD) throw", "if (false) throw"),
        "test_checkpoint_not_signed",
    ),
    "a number of an answer loses its end": (
        (ASKING, "if (!numbers.every(Number.isSafeInteger)) throw", "if (false) throw"),
        "test_checkpoint_not_signed",
    ),
    "any head stands in the map": (
        (VERIFYING, "if (stands(library, logId, head, head.checkpoint.checkpoint.mapRoot)) return;",
         "if (head) return;"),
        "test_proofs_of_a_liar",
    ),
    "any log may be absent": (
        (VERIFYING, "? library.verifyAbsence(logId, root, proof)", "? true"),
        "test_absent",
    ),
    "a leaf stands anywhere": (
        (VERIFYING, "logId, recordId, place, logLength, logRoot, proof))) return place;",
         "logId, recordId, place, logLength, logRoot, proof)) || true) return place;"),
        "test_proofs_of_a_liar",
    ),
    "a head stands under any checkpoint": (
        (VERIFYING, "  checkSame(it, operators, published, head.checkpoint);\n", ""),
        "test_another_checkpoint_below",
    ),
    "a leaf stands under any checkpoint": (
        (VERIFYING, "  checkSame(it, operators, published, checkpoint);\n", ""),
        "test_another_checkpoint_below",
    ),
    "an answer of another log is this one's": (
        (ASKING, 'if (member(value, "logId", "string") !== logId) {', "if (false) {"),
        "test_log_of_another_name",
    ),
    "an answer may be of any length": (
        (ASKING, "await bytesOf(response, most);", "await bytesOf(response, 2 ** 40);"),
        "test_answers_that_are_none",
    ),
    "an answer may take for ever": (
        (ASKING, "const timer = setTimeout(end, SECONDS * 1000);", "const timer = 0;"),
        "test_answers_that_are_none",
    ),
    "an answer leads elsewhere": ((ASKING, 'redirect: "manual"', 'redirect: "follow"'), "test_answers_that_are_none"),
    "a refusal is an answer": (
        (ASKING, "if (status === 200) return bytes;", "if (status) return bytes;"),
        "test_answers_that_are_none",
    ),
    "a server that fails refuses": ((ASKING, "status >= 500", "status >= 600"), "test_answers_that_are_none"),
    "another operator goes unseen": (
        (VERIFYING, "if (seen && seen.key !== key) {", "if (false) {"),
        "test_what_was_seen",
    ),
    "a registry may go back": ((VERIFYING, "if (seen) checkGoesOn(", "if (false) checkGoesOn("), "test_what_was_seen"),
    "consistency is not asked": (
        (VERIFYING, 'if (found !== "same" && found !== "goes-on") throw', "if (false) throw"),
        "test_consistency_and_old_proofs",
    ),
    "an old proof is any false one": (
        (VERIFYING, "if (seen && stands(", "if (false && stands("),
        "test_consistency_and_old_proofs",
    ),
    "nothing of a registry is kept": ((SEEN, "localStorage.setItem(", "void ("), "test_what_was_seen"),
    "a key that is another one can't be forgotten": (
        (SEEN, "localStorage.removeItem(nameOf(address));", ""),
        "test_what_was_seen",
    ),
    "a newer checkpoint ends the steps": (
        (VERIFYING, 'if (!(error instanceof Problem && error.problem === "NotNewest")) throw error;', "throw error;"),
        "test_newer_checkpoint_meanwhile",
    ),
    "who asks for another package is told of both": (
        (REGISTRY, "      if (mine !== turn) return;\n      shown.fail", "      shown.fail"),
        "test_another_package_meanwhile",
    ),
    "a log that was verified is not shown": ((REGISTRY, "if (found.log) add(", "if (false) add("), "test_verified"),
    "the operators' key is not shown": (
        (REGISTRY, 'if (found.name === "operators") fill(', "if (false) fill("),
        "test_verified",
    ),
    "a registry's sentence is markup": (
        (REGISTRY, 'el("bdi", { class: "said" }, sentence)', 'Object.assign(el("bdi"), { innerHTML: sentence })'),
        "test_hostile_answers",
    ),
    "another list of engines": ((PAGE, "Chromium 97", "Chromium 133"), "test_engines"),
    "a button of a page is disabled": (
        (PAGING, 'for (const it of on) it.setAttribute("aria-disabled", String(isLast));',
         "for (const it of on) it.disabled = isLast;"),
        "test_pages",
    ),
    "the focus is lost with a button": (
        (MAIN, "  if (ofCard !== undefined) refocused(ofCard, had.textContent);\n", ""),
        "test_toy_signatures_are_asked_for",
    ),
    "whole ids are not shown": (
        (STYLE, ".whole .rest {\n  display: inline;", ".whole .rest {"),
        "test_what_is_in_a_log",
    ),
    "arrows lead to no tab": ((PANELS, "next.tab.focus();", ""), "test_keyboard"),
    "a field has no name": ((PAGE, ' aria-label="Files of logs"', ""), "test_rules"),
    "texts are faint": ((STYLE, "--soft: #55554f;", "--soft: #a5a59f;"), "test_rules"),
    "texts are faint in the dark": ((STYLE, "--soft: #b5b5ae;", "--soft: #5a5a55;"), "test_rules_in_the_dark"),
    "a narrow page is wide": ((STYLE, "  overflow-wrap: anywhere;\n", ""), "test_rules_at_360_pixels"),
    "want of the library is told nowhere": ((MAIN, "    trouble(quoted(error.message, 600));\n", ""), "test_no_module"),
    "a page from a file says nothing": (
        (PAGE, '<p id="unopened"', '<p id="unopened" hidden'),
        "test_sources_opened_as_a_file",
    ),
    "the one file's policy knows another script": (
        ("tools/web_page.py", "{hash_of(code)}", "{hash_of(code + ' ')}"),
        "test_one_file",
    ),
}


def seen_by(edit: Edit, test: str) -> str:
    """What the test says of the edit, in a line, or nothing where it passes."""
    with tempfile.TemporaryDirectory(prefix="weoldrin-") as folder:
        copied(pathlib.Path(folder), [edit])
        Tested.root = pathlib.Path(folder)
        try:
            loader = unittest.TestLoader()
            loader.testNamePatterns = [f"*.{test}"]
            found = unittest.TestResult()
            loader.discover(str(TESTS)).run(found)
        finally:
            Tested.root = ROOT
    if found.testsRun != 1:
        raise SystemExit(f"not one test of this name: {test}")
    said = [text for _, text in [*found.failures, *found.errors]]
    lines = [it for it in "\n".join(said).splitlines() if re.match(r"[\w.]*(?:Error|Exception)\b", it)]
    return lines[-1][:200] if lines else "".join(said)[:200]


def main() -> int:
    """Tries all, or some."""
    if not browsers.is_there("chromium"):
        print("left out: chromium is not installed")
        return 0
    page.NAMES[:] = ["chromium"]
    # What does not come soon, does not come.
    browsers.Browser.patience = 25.0
    missed = 0
    for name, (edit, test) in WRONG.items():
        if sys.argv[1:] and not any(it in name for it in sys.argv[1:]):
            continue
        said = seen_by(edit, test)
        missed += not said
        print(f"{f'seen: {name} ({test}): {said}' if said else f'NOT SEEN: {name} ({test})'}", flush=True)
    return 1 if missed else 0


if __name__ == "__main__":
    sys.exit(main())
