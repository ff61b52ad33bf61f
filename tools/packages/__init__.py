"""What the packages of the library share: their version, what lies in each of them, and how a release is put together.

- `versions`: the version, and the files that name it
- `permissions`: what keys may do, and the files that repeat it
- `elf`: what a library or a program needs of the machine that it runs on
- `targets`: the machines that there are packages for
- `copies`: the files of the repository that packages carry, each a copy in the package's own folder
- `trees`: what `make install` installs, as a folder of its own
- `debian`, `npm`, `archive`: packages for Debian, the package for npm, and the files of a release

The programs `tools/c_library`, `tools/c_header` and `tools/release` call these.
"""
