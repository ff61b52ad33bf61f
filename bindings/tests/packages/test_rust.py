"""The Rust crate, as `cargo package` packs it and as a program of another folder gets it."""

import json
import pathlib
import re
import shutil
import tarfile
import unittest
from typing import Any

from installing import HEAD, LOG, MACHINE, ROOT, VERSION, Installing, links, needs

assert MACHINE
MAIN = """
use weoldrin::PackageLog;

fn main() -> Result<(), Box<dyn std::error::Error>> {
    let mut log = PackageLog::new()?;
    for line in std::fs::read_to_string("@LOG@")?.lines().filter(|it| !it.starts_with('#')) {
        let pairs = (0..line.len()).step_by(2).map(|at| &line[at..at + 2]);
        let bytes: Result<Vec<u8>, _> = pairs.map(|it| u8::from_str_radix(it, 16)).collect();
        log.append_signed(&bytes?)?;
    }
    println!("{} {}", weoldrin::library_version()?, log.head()?.unwrap_or_default());
    Ok(())
}
"""
SAID = f"{VERSION} {HEAD}\n"
# A program that needs the feature `openssl`.
SIGNS = 'fn main() { println!("{}", weoldrin::p256::SigningKey::generate().unwrap().public_key().len()); }'


@needs("cargo", "cc")
@unittest.skipUnless(links("-lcrypto"), "libcrypto is not installed (libssl-dev)")
class Crate(Installing):
    """A copy of the crate's folder, from where nothing else of the repository is reached."""

    def setUp(self) -> None:
        super().setUp()
        self.crate = self.copied("bindings/rust", "crate")
        self.environment["CARGO_TARGET_DIR"] = str(self.folder / "target")

    def app(self, *words: str, **more: str) -> pathlib.Path:
        """A new program that stands on the crate, which these words of `cargo add` name."""
        self.said("cargo", "new", "--quiet", "--vcs", "none", "app")
        app = self.folder / "app"
        self.said("cargo", "add", "--quiet", "--offline", *words, at=app, env=more)
        self.write("app/src/main.rs", MAIN.replace("@LOG@", str(LOG)))
        return app

    def runs(self, app: pathlib.Path, *words: str, **more: str) -> None:
        """The program builds and says what it has to."""
        self.assertEqual(self.said("cargo", "run", "--quiet", "--offline", *words, at=app, env=more), SAID)

    def linked(self, app: pathlib.Path, *words: str, **more: str) -> list[str]:
        """The libraries that cargo is told to link, by its messages on a build."""
        said = self.said("cargo", "build", "--offline", "--quiet", "--message-format=json", *words, at=app, env=more)
        messages = (json.loads(it) for it in said.splitlines() if it.startswith("{"))
        return [name for it in messages for name in it.get("linked_libs", [])]

    def packed(self) -> pathlib.Path:
        """The folder that the crate's package unpacks to, which cargo has built."""
        self.said("cargo", "package", "--offline", at=self.crate)
        (made,) = (self.folder / "target/package").glob("*.crate")
        self.assertEqual(made.name, f"weoldrin-{VERSION}.crate")
        with tarfile.open(made) as tar:
            tar.extractall(self.folder)
        return self.folder / f"weoldrin-{VERSION}"

    def test_package(self) -> None:
        """It has the library, the header and the licence, and nothing that is of use in the repository alone."""
        folder = self.packed()
        files = {str(it.relative_to(folder)) for it in folder.rglob("*") if it.is_file()}
        assert MACHINE
        own = {"README.md", "LICENSE", "NOTICE", "build.rs", "include/warg.h", "examples/publish_and_audit.rs"}
        own |= {"benches/toy_log.rs", f"lib/{MACHINE.name}/libwarg.a"}
        sources = {it for it in files if re.fullmatch(r"src/[\w/]+\.rs", it)}
        self.assertLessEqual(own, files)
        cargos = {"Cargo.toml", "Cargo.toml.orig", "Cargo.lock", ".cargo_vcs_info.json"}
        others = files - own - sources - cargos
        self.assertEqual({it for it in others if not re.fullmatch(r"lib/[\w-]+/libwarg\.a", it)}, set())
        library = (folder / f"lib/{MACHINE.name}/libwarg.a").read_bytes()
        self.assertEqual(library, (MACHINE.folder() / "libwarg.a").read_bytes())

    def test_packed(self) -> None:
        """A program stands on what the package has."""
        self.runs(self.app("--path", str(self.packed())))

    def test_path(self) -> None:
        """`cargo add --path`, with and without OpenSSL's library."""
        app = self.app("--path", str(self.crate))
        self.runs(app)
        self.assertEqual(self.linked(app), ["static=warg", "crypto"])
        self.write("app/src/main.rs", SIGNS)
        self.assertGreater(int(self.said("cargo", "run", "--quiet", "--offline", at=app)), 0)
        shutil.rmtree(app)
        app = self.app("--path", str(self.crate), "--no-default-features")
        self.runs(app)
        self.assertEqual(self.linked(app), ["static=warg"])

    @needs("git")
    def test_vendor(self) -> None:
        """`cargo vendor` of a crate that a repository has, which is away then."""
        git: list[str | pathlib.Path] = ["git", "-c", "user.name=x", "-c", "user.email=x@example.org", "-C", self.crate]
        for words in (["init", "-q"], ["add", "-A"], ["commit", "-q", "-m", "x"]):
            self.said(*git, *words)
        home = {"CARGO_HOME": str(self.folder / "cargo"), "CARGO_NET_OFFLINE": "false"}
        self.said("cargo", "new", "--quiet", "--vcs", "none", "app")
        app = self.folder / "app"
        with open(app / "Cargo.toml", "a", encoding="utf-8") as manifest:
            manifest.write(f'weoldrin = {{ git = "file://{self.crate}" }}\n')
        self.write("app/src/main.rs", MAIN.replace("@LOG@", str(LOG)))
        said = self.said("cargo", "vendor", at=app, env=home)
        self.write("app/.cargo/config.toml", said[said.index("[source") :])
        shutil.rmtree(self.crate)
        shutil.rmtree(self.folder / "cargo")
        self.assertTrue((app / "vendor/weoldrin/build.rs").is_file())
        self.runs(app, CARGO_HOME=str(self.folder / "cargo"))

    @needs("make", "pkg-config", "readelf")
    def test_system(self) -> None:
        """The feature `system` links what pkg-config finds, also where its path has a space, and no other version."""
        prefix = self.installed(prefix=self.folder / "a place")
        app = self.app("--path", str(self.crate), "--features", "system")
        found = {"PKG_CONFIG_PATH": str(prefix / "lib/pkgconfig")}
        self.runs(app, LD_LIBRARY_PATH=str(prefix / "lib"), **found)
        self.assertIn("libwarg.so.", self.said("readelf", "-d", self.folder / "target/debug/app"))
        self.assertEqual(self.linked(app, **found), ["dylib=warg", "crypto"])
        said = self.said("cargo", "build", "--offline", at=app, status=101)
        self.assertIn("warg >= ", said)
        file = prefix / "lib/pkgconfig/warg.pc"
        first, second, third = map(int, VERSION.split("."))
        earlier = f"{first}.{second - 1}.9" if second else f"{first - 1}.9.9"
        fits = f"{first}.{second}.{third + 7}"
        for other in (f"{first}.{second + 1}.0", f"{first + 1}.0.0", earlier, fits):
            file.write_text(re.sub("(?m)^Version:.*", f"Version: {other}", file.read_text()))
            self.said("cargo", "build", "--offline", at=app, status=0 if other == fits else 101, env=found)
        self.asked_anew(app, found)
        said = self.said("cargo", "build", "--offline", at=app, status=101, env=found, PKG_CONFIG="/no/pkg-config")
        self.assertIn("/no/pkg-config: No such file", said)

    def asked_anew(self, app: pathlib.Path, found: dict[str, str]) -> None:
        """pkg-config is asked once, and anew where it might say something else."""
        asked = self.folder / "asked"
        asks = self.write("asks", f'#!/bin/sh\necho asked >> "{asked}"\nexec pkg-config "$@"\n')
        asks.chmod(0o755)
        found = found | {"PKG_CONFIG": str(asks)}
        others = {"PKG_CONFIG_LIBDIR": "/nowhere", "PKG_CONFIG_SYSROOT_DIR": "/"}
        others["PKG_CONFIG_PATH"] = f"{found['PKG_CONFIG_PATH']}:/nowhere"
        times = []
        for name in (None, None, *others):
            found |= {name: others[name]} if name else {}
            self.said("cargo", "build", "--offline", at=app, env=found)
            times.append(asked.read_text().count("asked"))
        self.assertEqual(times, [1, 1, 2, 3, 4])

    def test_other_libraries(self) -> None:
        """WARG_LIBRARY_DIR names another library. A machine that the package has none for is told so."""
        assert MACHINE
        shutil.move(self.crate / f"lib/{MACHINE.name}", self.folder / "elsewhere")
        shutil.rmtree(self.crate / "lib")
        (self.crate / "lib/mips-linux").mkdir(parents=True)
        app = self.app("--path", str(self.crate))
        said = self.said("cargo", "build", "--offline", at=app, status=101)
        told = f'there is no library for {MACHINE.name} with the C library "gnu", but for mips-linux with glibc: '
        self.assertRegex(said, f"(?m)^warning: .*{told}")
        self.runs(app, WARG_LIBRARY_DIR=str(self.folder / "elsewhere"))
        # One that changes is linked anew.
        (self.folder / "elsewhere/libwarg.a").write_bytes(b"!<arch>\n")
        self.said("cargo", "build", "--offline", at=app, status=101, WARG_LIBRARY_DIR=str(self.folder / "elsewhere"))
        said = self.said("cargo", "build", "--offline", at=app, status=101, WARG_LIBRARY_DIR="/nowhere")
        self.assertIn("there is no library /nowhere/libwarg.a", said)

    def test_other_targets(self) -> None:
        """A machine of another C library is told that there is none for it, and which there are."""
        assert MACHINE
        script = self.crate / "build.rs"
        self.said("rustc", "--edition=2021", script, "-o", "script")
        for it in ("z-linux", "b-linux", "c-linux", "a-linux"):
            (self.crate / f"lib/{it}").mkdir()
        arch, _, system = MACHINE.name.partition("-")
        machine = {"CARGO_CFG_TARGET_ARCH": arch, "CARGO_CFG_TARGET_OS": system, "CARGO_MANIFEST_DIR": str(self.crate)}
        for abi, status in (("gnu", 0), ("musl", 1), ("", 1)):
            said = self.said(self.folder / "script", status=status, env=machine, CARGO_CFG_TARGET_ENV=abi)
            if status:
                machines = ", ".join(sorted(it.name for it in (self.crate / "lib").iterdir()))
                self.assertIn(f'for {MACHINE.name} with the C library "{abi}", but for {machines} with glibc', said)
            else:
                self.assertIn(f"cargo:rustc-link-search=native={self.crate}/lib/{MACHINE.name}\n", said)

    def about(self) -> dict[str, Any]:
        """What cargo says of the crate."""
        said = self.said("cargo", "metadata", "--offline", "--no-deps", "--format-version=1", at=self.crate)
        (package,) = json.loads(said[said.index("{") :])["packages"]
        assert isinstance(package, dict)
        return package

    def test_about(self) -> None:
        """What a registry shows of it, and who may build it."""
        said = self.about()
        wanted = {"license": "Apache-2.0 WITH LLVM-exception", "readme": "README.md", "links": "warg"}
        wanted |= {"rust_version": "1.63", "documentation": "https://docs.rs/weoldrin", "edition": "2021"}
        self.assertEqual({it: said[it] for it in wanted}, wanted)
        self.assertEqual(said["features"], {"default": ["openssl"], "openssl": [], "system": []})
        self.assertEqual(said["dependencies"], [])
        for it in ("description", "keywords", "categories"):
            self.assertTrue(said[it], it)

    def test_documents(self) -> None:
        """The documents are made as docs.rs makes them, by its words, and say what needs a feature."""
        words = self.about()["metadata"]["docs"]["rs"]
        self.assertEqual((words["all-features"], words["targets"]), (True, ["x86_64-unknown-linux-gnu"]))
        # The variable lets any compiler take what docs.rs has of its own one.
        made = {"DOCS_RS": "1", "RUSTDOCFLAGS": " ".join(words["rustdoc-args"]), "RUSTC_BOOTSTRAP": "1"}
        self.said("cargo", "doc", "--quiet", "--offline", "--no-deps", "--all-features", at=self.crate, env=made)
        folder = self.folder / "target/doc/weoldrin"
        self.assertTrue((folder / "struct.Log.html").is_file())
        self.assertIn("crate feature <code>openssl</code>", (folder / "p256/struct.SigningKey.html").read_text())

    def test_header(self) -> None:
        """A crate that stands on this one finds the header, for code of C of its own."""
        app = self.app("--path", str(self.crate))
        asks = 'println!("cargo:warning={}", std::env::var("DEP_WARG_INCLUDE").unwrap());'
        self.write("app/build.rs", f"fn main() {{ {asks} }}")
        said = self.said("cargo", "build", "--offline", at=app)
        self.assertIn(f"{self.crate}/include", said)
        self.assertEqual((self.crate / "include/warg.h").read_bytes(), (ROOT / "include/warg.h").read_bytes())


if __name__ == "__main__":
    unittest.main()
