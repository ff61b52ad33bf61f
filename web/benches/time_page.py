"""Times the page: how long after its load the first verdict stands there, logs of 10,000 records, and what it loads.
Tells how much memory the browser has, too.

    python3 web/benches/time_page.py [COUNT]    in each browser that is there, COUNT times (5); WEOLDRIN_BROWSERS names
                                                those to take

The verdict is that on the example, which is asked for as soon as the page's scripts run. Times are in milliseconds, the
median and the least; the sizes are those of gzip -9. Memory is that of all the browser's processes, where what several
share counts in parts (the proportional set size, as Linux has it), less what they have for an empty page.
"""
import gzip
import pathlib
import statistics
import subprocess
import sys
import tempfile
import time

TESTS = pathlib.Path(__file__).resolve().parents[1] / "tests"
sys.path.insert(0, str(TESTS))

from browsers import Browser, Chromium, begun, end_all, is_there  # noqa: E402
from page import NAMES  # noqa: E402
from served import ROOT, Served  # noqa: E402

CLICK = 'document.getElementById("example").click();'
MARK = 'performance.getEntriesByName("weoldrin-{0}")[0]?.startTime'
LOADED = 'performance.getEntriesByType("navigation")[0].loadEventEnd'
RECORDS = 10_000


def told(what: str, times: list[float]) -> None:
    print(f"  {what}: {statistics.median(times):.0f} ms, least {min(times):.0f} ms", flush=True)


def time_opening(browser: Browser, address: str, count: int) -> None:
    """Opens the page so often, and asks for the example at once."""
    verdicts, loads, apart = [], [], []
    for _ in range(count + 1):
        if isinstance(browser, Chromium):
            script = f"addEventListener('DOMContentLoaded', () => {{ {CLICK} }})"
            name = browser.ask("Page.addScriptToEvaluateOnNewDocument", source=script)["identifier"]
            browser.open(address)
            browser.ask("Page.removeScriptToEvaluateOnNewDocument", identifier=name)
        else:
            browser.open(address)
            browser.run(CLICK)
        browser.wait(MARK.format("verdict"))
        verdict, load = browser.run(f"return [{MARK.format('verdict')}, {LOADED}]")
        verdicts.append(verdict)
        loads.append(load)
        apart.append(verdict - load)
    # The first time what is loaded is in no cache.
    for what, times in [("page loaded", loads), ("verdict on the example", verdicts), ("verdict after load", apart)]:
        told(f"{what} (first time {times[0]:.0f})", times[1:])


def time_log(browser: Browser, address: str, path: pathlib.Path, count: int) -> None:
    """Drops a log so often on a page that is opened anew."""
    times = []
    for _ in range(count):
        browser.open(address)
        browser.wait(MARK.format("ready"))
        browser.run("at('toy').checked = true")
        browser.run("document.body.addEventListener('drop', () => performance.mark('dropped'))")
        browser.drop([path])
        browser.wait(MARK.format("verdict"))
        begun_at = "performance.getEntriesByName('dropped')[0].startTime"
        times.append(browser.run(f"return {MARK.format('verdict')} - {begun_at}"))
    told(f"{path.name}, {RECORDS} records", times)


def processes(first: int) -> list[pathlib.Path]:
    """The folders in /proc of a process, and of those that it began, or that one of these did."""
    parents: dict[int, int] = {}
    for it in pathlib.Path("/proc").glob("[0-9]*/stat"):
        try:
            # The name of a program may have any sign, and stands in parentheses.
            parents[int(it.parent.name)] = int(it.read_text(encoding="utf-8").rpartition(")")[2].split()[1])
        except OSError:
            continue
    found = [first]
    for process in found:
        found += [child for child, parent in parents.items() if parent == process]
    return [pathlib.Path(f"/proc/{it}") for it in found]


def memory_of(browser: Browser) -> float:
    """The browser's memory, in megabytes, once it came to rest."""
    time.sleep(2)
    size = 0
    for it in processes(browser.process.pid):
        try:
            said = (it / "smaps_rollup").read_text(encoding="utf-8")
        except OSError:
            continue
        size += sum(int(line.split()[1]) for line in said.splitlines() if line.startswith("Pss:"))
    return size / 1000


def tell_memory(browser: Browser, address: str, path: pathlib.Path) -> None:
    """Tells what the browser has with the verdict on the example, and on a log, more than with an empty page."""
    browser.open("data:text/html,empty")
    before = memory_of(browser)
    for name in ("example", path.name):
        browser.open(address)
        browser.wait(MARK.format("ready"))
        if name == "example":
            browser.run(CLICK)
        else:
            browser.run("at('toy').checked = true")
            browser.drop([path])
        browser.wait(MARK.format("verdict"))
        print(f"  memory with {name}: {memory_of(browser) - before:.0f} MB more than {before:.0f}", flush=True)


def sizes(address: str, browser: Browser, one_file: pathlib.Path) -> None:
    """How much is loaded, of the page as it is served, and as one file."""
    browser.open(address)
    browser.wait(MARK.format("ready"))
    loaded = "performance.getEntriesByType('resource').map((it) => it.name)"
    # What the thread loads is no resource of the page: it is all of the package but what only Node runs.
    names = {it.removeprefix(address.removesuffix("web/")) for it in browser.run(f"return {loaded}")}
    thread = {str(it.relative_to(ROOT)) for part in ("web/src", "bindings/js/src") for it in (ROOT / part).glob("*.js")}
    node = {f"bindings/js/src/{it}.js" for it in ("command", "inputs", "words", "worker")}
    files = [ROOT / it for it in sorted({"web/index.html"} | names | (thread - node)) if (ROOT / it).is_file()]
    whole = [it.read_bytes() for it in files]
    packed = sum(len(gzip.compress(it, 9)) for it in whole)
    print(f"  {len(files)} files of {sum(map(len, whole))} bytes, {packed} by gzip")
    data = one_file.read_bytes()
    print(f"  one file of {len(data)} bytes, {len(gzip.compress(data, 9))} by gzip", flush=True)


def main() -> int:
    """Times all."""
    count = int(sys.argv[1]) if len(sys.argv) > 1 else 5
    served = Served()
    try:
        with tempfile.TemporaryDirectory() as kept:
            folder = pathlib.Path(kept)
            one_file, p256, toys = (folder / it for it in ("weoldrin.html", "p256.hex", "toys.hex"))
            subprocess.run([ROOT / "tools/web", "--file", one_file], check=True)
            with open(p256, "wb") as file:
                script = ROOT / "web/benches/p256_log.mjs"
                subprocess.run(["node", str(script), str(RECORDS)], stdout=file, check=True)
            with open(toys, "wb") as file:
                subprocess.run([ROOT / "tools/make_log", str(RECORDS)], stdout=file, check=True)
            for name in [it for it in NAMES if is_there(it)]:
                browser = begun(name)
                for place, address in [("served", served.address), ("one file", one_file.as_uri())]:
                    print(f"{name}, {place}")
                    time_opening(browser, address, count)
                for path in (p256, toys):
                    time_log(browser, served.address, path, max(1, count // 2))
                tell_memory(browser, served.address, p256)
                sizes(served.address, browser, one_file)
    finally:
        end_all()
        served.close()
    return 0


if __name__ == "__main__":
    sys.exit(main())
