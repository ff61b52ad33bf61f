"""Long logs, those of strangers, and two at once."""
import pathlib

import logs
from logs import EXAMPLES
from page import JUDGED, MOST, PageTests, in_each

# Gives the next frame, and keeps the longest time between two.
FRAMES = """
let longest = 0, before = performance.now();
const frame = async () => {
  await new Promise(requestAnimationFrame);
  const now = performance.now();
  longest = Math.max(longest, now - before);
  before = now;
};
await frame();
longest = 0;
"""
# Goes to a place of the time line, and scrolls over the page of records that it is on, frame by frame.
SCROLLED = """
document.querySelector("#panel-records .place").value = "{0}";
document.querySelector("#panel-records .pager form").requestSubmit();
const line = () => document.querySelector("#panel-records ol.line");
for (let count = 0; line()?.start !== {0} && count < 600; count++) await frame();
if (line()?.start !== {0}) throw new Error("the page of records did not come");
line().scrollIntoView();
for (let count = 0; count < 24; count++) {{
  scrollBy(0, 400);
  await frame();
}}
"""


class LongLogs(PageTests):
    """Logs that take a while."""

    def test_no_yes_before_the_last_record(self) -> None:
        self.with_toys()
        # Whatever stands in the page at any time is looked at.
        self.browser.run(
            """
            document.seen = [];
            new MutationObserver(() => {
              for (const it of document.querySelectorAll(".card")) document.seen.push(it.dataset.look);
              document.seen.push(at("said").textContent);
            }).observe(document.body, { subtree: true, childList: true, characterData: true, attributes: true });
            """
        )
        path = logs.write(self.folder, "late.hex", logs.forged_at_end(6000))
        self.dropped(path)
        seen = set(self.browser.run("return [...new Set(document.seen)]"))
        self.assertIn("busy", seen)
        self.assertFalse({"good", "warn"} & seen, seen)
        self.assertFalse([it for it in seen if ": lawful" in it])
        self.assertEqual(self.looks(), ["bad"])
        self.assertIn("refused at record 5,999", self.text("#said"))

    def test_log_of_16_mib(self) -> None:
        self.with_toys()
        data = logs.made("21100")
        lines = data.splitlines(keepends=True)
        while len(data) > MOST:
            data = data[: -len(lines.pop())]
        data += b"#" * (MOST - len(data))
        self.assertEqual(len(data), MOST)
        self.browser.run(
            """
            document.longest = 0;
            document.begun = performance.now();
            let last = document.begun;
            const tick = () => {
              const now = performance.now();
              document.longest = Math.max(document.longest, now - last);
              last = now;
              setTimeout(tick, 0);
            };
            tick();
            """
        )
        self.dropped(logs.write(self.folder, "long.hex", data))
        self.assertEqual(self.looks(), ["warn"])
        took = self.browser.run("return performance.now() - document.begun")
        self.assertIn(f"with {len(lines):,} records", self.text("#said"))
        self.tab("records", ".columns")
        self.assertEqual(self.browser.run("return document.querySelectorAll('.record').length"), 100)
        self.clicked("#panel-records button", "Last")
        last = f"{len(lines) - 1:,}"
        self.browser.wait(f"[...document.querySelectorAll('.record .number')].at(-1).textContent === '{last}'")
        start = self.browser.run("return document.querySelector('ol.line').start")
        self.assertEqual(start, (len(lines) - 1) // 100 * 100)
        self.browser.run("document.querySelector('#panel-records .place').value = '12345'")
        self.browser.run("document.querySelector('#panel-records .pager form').requestSubmit()")
        self.browser.wait("document.querySelector('.record .number').textContent === '12,300'")
        self.tab("releases", "tbody tr")
        self.assertLess(self.browser.run("return document.querySelectorAll('*').length"), 8000)
        # The page answered all the while, however busy the machine.
        self.assertLess(self.browser.run("return document.longest"), max(1000, took / 4))

    def gaps(self, script: str) -> float:
        """The longest time between two frames, in milliseconds, while a script runs that may wait for the next one."""
        return float(self.browser.run(f"{FRAMES} {script}; return longest;"))

    def gaps_of(self, count: int, *places: int) -> float:
        """The same of a log of so many records whose time line is scrolled at these places."""
        self.dropped(logs.write(self.folder, f"{count}.hex", logs.made(str(count))))
        self.tab("records", ".columns")
        return max(self.gaps(SCROLLED.format(place)) for place in places)

    def test_scrolling_20000_records(self) -> None:
        """Frames come while a long time line is scrolled, and its pages change, as they do for one that is short."""
        found = []
        # Another job may hold frames up: one quiet run of some is enough.
        for _ in range(4):
            self.opened(self.served.address)
            empty = self.gaps("for (let count = 0; count < 30; count++) await frame()")
            self.with_toys()
            short = self.gaps_of(100, *[0] * 5)
            self.opened(self.served.address)
            self.with_toys()
            found.append((self.gaps_of(20_000, *range(0, 20_000, 4_500)), max(200.0, 3 * empty, 2 * short)))
            if found[-1][0] <= found[-1][1]:
                return
        self.fail(f"the longest time between two frames, and what it may be: {found}")

    def test_one_record_of_very_many_entries(self) -> None:
        self.with_toys()
        self.dropped(logs.write(self.folder, "wide.hex", logs.made("releases", "20000")))
        self.assertEqual(self.looks(), ["warn"])
        self.assertRegex(self.tab("records", ".record"), r"and 19,977 more entries")


class Strangers(PageTests):
    """What strangers wrote is text."""

    def nothing_ran(self) -> None:
        self.assertEqual(self.browser.run("return document.title"), "Weoldrin: check a log")
        made = "return document.querySelectorAll('img, main script, iframe, b > b').length"
        self.assertEqual(self.browser.run(made), 0)

    def test_hostile_texts(self) -> None:
        self.with_toys()
        name = "<img src=x onerror=document.title=3>.hex"
        self.dropped(logs.write(self.folder, name, logs.hostile_log()))
        self.assertEqual(self.looks(), ["warn"])
        records = self.tab("records", ".record:nth-child(6)")
        namespaces = self.tab("namespaces", "tbody tr:nth-child(6)")
        keys = self.tab("keys", "tbody tr:nth-child(7)")
        for said in (records, namespaces):
            self.assertIn(logs.MARKUP, said)
            self.assertIn("\\u{202e}\\u{7}gnp.exe", said)
            self.assertIn("a\\u{a}b\\u{2028}c", said)
            self.assertIn("&lt;b&gt; &#x41;", said)
            self.assertIn("… (20,000 characters)", said)
        self.assertIn("<script>", keys)
        self.assertNotIn("\u202e", self.text("body"))
        self.assertIn(name, self.text("#verdicts"))
        self.nothing_ran()

    def test_hostile_refusal(self) -> None:
        self.with_toys()
        self.dropped(logs.write(self.folder, "refused.hex", logs.refused_by_text()))
        self.browser.run("document.querySelector('.card details').open = true")
        self.assertIn("<img src=x onerror=", self.text("#verdicts"))
        self.nothing_ran()

    def test_policy(self) -> None:
        policy = self.browser.run("return document.querySelector('meta[http-equiv]').content")
        self.assertNotIn("unsafe-inline", policy)
        self.assertNotIn("'unsafe-eval'", policy)
        self.assertIn("default-src 'none'", policy)
        self.assertIn("require-trusted-types-for 'script'", policy)
        self.browser.run(
            """
            try {
              document.querySelector("#said").innerHTML = '<img src=x onerror="document.title=4">';
            } catch {}
            try {
              const script = document.createElement("script");
              script.text = "document.title = 5";
              document.body.append(script);
              script.remove();
            } catch {}
            """
        )
        self.browser.run("await new Promise((done) => setTimeout(done, 200))")
        self.assertEqual(self.browser.run("return document.title"), "Weoldrin: check a log")


class TwoLogs(PageTests):
    """Two logs, side by side."""

    def relation(self, left: pathlib.Path, right: pathlib.Path) -> str:
        self.with_toys()
        self.dropped(left, right)
        self.browser.wait("document.querySelector('#compare-said > *')")
        return self.text("#compare-said")

    def test_fork(self) -> None:
        fork = logs.write(self.folder, "fork.hex", logs.forked())
        said = self.relation(EXAMPLES / "package_releases.hex", fork)
        self.assertIn("The logs part: they have the first 2 records in common, and record 2 is another", said)
        sides = self.browser.run("return [...document.querySelectorAll('.sides > section')].map((it) => it.innerText)")
        self.assertIn("releases 1.1.0", sides[0])
        self.assertIn("package_releases.hex", sides[0])
        self.assertIn("releases 6.6.6", sides[1])
        self.assertNotIn("6.6.6", sides[0])
        self.assertEqual(self.browser.run("return document.querySelectorAll('.common > li').length"), 2)
        tops = self.browser.run(
            "return [...document.querySelectorAll('.sides > section')].map((it) => it.getBoundingClientRect().top)"
        )
        self.assertEqual(tops[0], tops[1])

    def test_one_goes_on(self) -> None:
        data = (EXAMPLES / "package_releases.hex").read_bytes()
        older = logs.write(self.folder, "older.hex", logs.without_last(data))
        said = self.relation(older, EXAMPLES / "package_releases.hex")
        self.assertIn("The right log goes on from the left one: it has 1 record more.", said)

    def test_same(self) -> None:
        same = logs.write(self.folder, "same.hex", (EXAMPLES / "package_releases.hex").read_bytes())
        self.assertIn("The two logs are the same: 4 records.", self.relation(EXAMPLES / "package_releases.hex", same))

    def test_what_is_not_compared(self) -> None:
        said = self.relation(EXAMPLES / "package_releases.hex", EXAMPLES / "operator_namespaces.hex")
        self.assertIn("One is the log of a package, and one that of operators.", said)
        self.browser.drop([EXAMPLES / "package_forged.hex"])
        self.browser.wait(JUDGED.format(3))
        self.browser.run("at('right').value = '2'; at('right').dispatchEvent(new Event('change'))")
        self.browser.wait("at('compare-said').textContent.includes('is refused')")


load_tests = in_each(LongLogs, Strangers, TwoLogs)
