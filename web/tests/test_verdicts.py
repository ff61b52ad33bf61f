"""What is dropped, and what the page says of it."""

import logs
from logs import EXAMPLES
from page import JUDGED, MOST, PageTests, in_each

HEAD = "sha256:8e61d029a02873b9b456d2514699183aaffa8885b04995d59c519f281c8bd848"


class Verdicts(PageTests):
    """What is dropped, and what the page says of it."""

    def test_lawful_log(self) -> None:
        said = self.dropped(EXAMPLES / "p256/package.hex")
        self.assertEqual(self.looks(), ["good"])
        self.assertIn("Each of its 4 records follows the rules, and each signature belongs.", said)
        self.assertIn(HEAD, said)
        self.assertEqual(self.text("#said"), "package.hex: lawful. It is the log of a package, with 4 records.")

    def test_what_is_in_a_log(self) -> None:
        self.dropped(EXAMPLES / "p256/package.hex")
        said = self.tab("records", ".record:nth-child(4)")
        self.assertIn("begins the log with sha256:995fb66e73fd", said)
        self.assertIn("grants release to sha256:e604b30a9aab", said)
        self.assertIn("2023-11-14 22:16:20 UTC", said)
        self.assertNotIn(HEAD, said)
        self.clicked("#whole")
        self.assertIn(HEAD, self.text("#panel-records"))
        self.clicked("#whole")
        self.assertIn("4 records, signed by 2 of the 2 keys that it names.", self.text("#panel-records"))
        releases = self.tab("releases", "tbody tr:nth-child(2)")
        self.assertRegex(releases, r"1\.0\.0\s+yanked")
        self.assertRegex(releases, r"1\.1\.0[\s\S]*sha256:fc60c4261e2e")
        keys = self.tab("keys", ".tree li:nth-child(2)")
        self.assertRegex(keys, r"sha256:995fb66e73fd[\s\S]*release, yank[\s\S]*3 records")
        self.assertRegex(keys, r"sha256:e604b30a9aab by sha256:995fb66e73fd in entry 1 of record 0")
        levels = "return [...document.querySelectorAll('.tree li')].map((it) => it.dataset.level).join(' ')"
        self.assertEqual(self.browser.run(levels), "0 1")
        self.clicked("#panel-releases button", "Look up")
        self.browser.wait("document.querySelector('#panel-releases output').textContent.startsWith('1.1.0')")

    def test_example(self) -> None:
        self.clicked("#example")
        self.browser.wait(JUDGED.format(1))
        self.assertEqual(self.looks(), ["good"])

    def test_choice_by_button(self) -> None:
        self.browser.choose("#files", [EXAMPLES / "p256/package.hex"])
        self.browser.wait(JUDGED.format(1))
        self.assertEqual(self.looks(), ["good"])

    def test_forged_record(self) -> None:
        self.with_toys()
        said = self.dropped(EXAMPLES / "package_forged.hex")
        self.assertEqual(self.looks(), ["bad"])
        self.assertIn("The signature does not belong to this record", said)
        self.assertIn("refused at record 1", self.text("#said"))
        self.browser.run("document.querySelector('.card details').open = true")
        said = self.text("#verdicts")
        self.assertIn("1, counted from 0, on line 2 of the file", said)
        self.assertIn("unable to verify signature", said)
        self.assertIn("SignatureError", said)
        self.assertNotIn("lawful", said.lower())

    def test_changed_record_of_p256(self) -> None:
        data = logs.changed((EXAMPLES / "p256/package.hex").read_bytes())
        said = self.dropped(logs.write(self.folder, "changed.hex", b"# a comment\n" + data))
        self.assertEqual(self.looks(), ["bad"])
        self.assertIn("The signature does not belong to this record", said)
        self.browser.run("document.querySelector('.card details').open = true")
        self.assertIn("3, counted from 0, on line 5 of the file", self.text("#verdicts"))

    def test_lost_permissions(self) -> None:
        self.with_toys()
        self.dropped(EXAMPLES / "package_yanked.hex")
        keys = self.tab("keys", ".tree li")
        self.assertRegex(keys, r"sha256:41217e6dcb8c\s+toy:Ym9i\s+(may: )?nothing\s+(signed: )?1 record")
        self.assertIn("1 key holds it.", keys)
        self.assertIn("takes release, yank from sha256:41217e6dcb8c", self.tab("records", ".record"))

    def test_records_that_are_written_otherwise(self) -> None:
        self.with_toys()
        self.dropped(logs.write(self.folder, "otherwise.hex", logs.written_otherwise()))
        self.assertEqual(self.looks(), ["warn"])
        records = self.tab("records", ".record")
        content = logs.hash_text(b"3.0.0")[:19]
        self.assertIn(f"releases 3.0.0 with the content {content}", records)
        self.assertNotIn("9.9.9", records)
        self.assertIn("grants yank, release to", records)
        self.assertIn("1970-01-01 00:00:02 UTC", records)
        self.assertIn(content, self.tab("releases", "tbody tr"))

    def test_unauthorized_record(self) -> None:
        self.with_toys()
        said = self.dropped(EXAMPLES / "package_unauthorized.hex")
        self.assertIn("did not hold the permission when it signed", said)
        self.assertIn("Have a key that holds the permission sign", said)
        self.tab("records", ".record")
        self.assertEqual(self.browser.run("return document.querySelectorAll('.record').length"), 1)

    def test_toy_signatures_are_asked_for(self) -> None:
        said = self.dropped(EXAMPLES / "package_releases.hex")
        self.assertEqual(self.looks(), ["bad"])
        self.assertIn("Anyone can forge such signatures", said)
        self.browser.run("document.querySelector('#verdicts button').focus()")
        self.browser.press("Enter")
        self.browser.wait("document.querySelector('.card.warn')")
        # The button is gone, and the focus stays near.
        self.assertEqual(self.browser.run("return document.activeElement.id"), "results")
        self.assertIn("this says nothing of who signed", self.text("#verdicts"))
        self.assertIn("which anyone can forge", self.text("#said"))

    def test_operator_log(self) -> None:
        self.with_toys()
        said = self.dropped(EXAMPLES / "operator_namespaces.hex")
        self.assertIn("The log of operators.", said)
        namespaces = self.tab("namespaces", "tbody tr:nth-child(2)")
        self.assertRegex(namespaces, r"my-namespace\s+(is: )?defined")
        self.assertRegex(namespaces, r"imported-namespace\s+(is: )?imported from registry\.example\.com")

    def test_other_kind(self) -> None:
        self.with_toys()
        self.browser.run("document.querySelector('input[value=package]').click()")
        said = self.dropped(EXAMPLES / "operator_namespaces.hex")
        self.assertEqual(self.looks(), ["bad"])
        self.assertIn("This is the log of operators, and it was asked for as the log of a package.", said)
        self.clicked("#verdicts button", "Check again as the log of operators")
        self.browser.wait("document.querySelector('.card.warn')")
        self.assertIn("The log of operators.", self.text("#verdicts"))

    def test_faults_of_files(self) -> None:
        faults = {
            "bad.hex": (b"00zz\n", "Line 1 is no record in hex."),
            "late.hex": (b"# comment\n1a00\n0\n", "Line 3 is no record in hex."),
            "picture.png": (b"\x89PNG\r\n\x1a\n\0\0", "the file is no plain text"),
            "utf16.hex": (b"\xff\xfe0\0", "the file is no plain text: it is UTF-16"),
            "empty.hex": (b"", "The file has no record in it."),
            "comment.hex": (b"# nothing\n", "The file has no record in it."),
            "large.hex": (b"0" * (MOST + 2), "The file has 16,777,218 bytes. This page reads files of at most"),
            "blank.hex": (b"\n1a00\n", "The line is blank."),
        }
        for name, (data, sentence) in faults.items():
            with self.subTest(name):
                self.opened(self.served.address)
                self.assertIn(sentence, self.dropped(logs.write(self.folder, name, data)))
                self.assertIn(sentence.split(".")[0], self.text("#said"))
                self.assertNotIn("good", self.looks())

    def test_folder(self) -> None:
        folder = self.folder / "a folder"
        folder.mkdir(exist_ok=True)
        if self.browser.drops_folders:
            said = self.dropped(folder)
        else:
            # No driver drops a folder here: this is what the browser hands to a page that one is dropped on.
            entry = "webkitGetAsEntry: () => ({ isDirectory: true, name: 'a folder' })"
            event = "Object.assign(new Event('drop', { bubbles: true, cancelable: true }), { dataTransfer: transfer })"
            items = f"[{{ kind: 'file', getAsFile: () => null, {entry} }}]"
            script = f"const transfer = {{ items: {items} }}; document.body.dispatchEvent({event});"
            self.browser.run(script)
            self.browser.wait(JUDGED.format(1))
            said = self.text("#verdicts")
        self.assertIn("This is a folder. Drop the files that are in it.", said)
        self.assertEqual(self.looks(), ["fault"])

    def test_drop_of_a_text(self) -> None:
        self.browser.run(
            """
            const dataTransfer = new DataTransfer();
            dataTransfer.setData("text/plain", "0a00");
            document.body.dispatchEvent(new DragEvent("drop", { bubbles: true, cancelable: true, dataTransfer }));
            """
        )
        self.browser.wait(JUDGED.format(1))
        self.assertIn("Nothing that was dropped is a file.", self.text("#verdicts"))

    def test_address(self) -> None:
        for path, look, sentence in [
            ("../examples/p256/package.hex", "good", "each signature belongs"),
            ("../examples/nothing.hex", "fault", "the server answers 404"),
            ("http://localhost:1/log.hex", "fault", "The server is away, or lets no pages of other places read it."),
        ]:
            with self.subTest(path):
                self.opened(self.served.address)
                said = self.fetched(path)
                self.assertEqual(self.looks(), [look])
                self.assertIn(sentence, said)

    def test_removal(self) -> None:
        self.dropped(EXAMPLES / "p256/package.hex")
        self.clicked("#verdicts button", "Remove")
        self.browser.wait("!document.querySelector('.card')")
        self.assertTrue(self.browser.run("return at('shown').hidden"))
        self.assertEqual(self.browser.run("return document.activeElement.id"), "results")


load_tests = in_each(Verdicts)
