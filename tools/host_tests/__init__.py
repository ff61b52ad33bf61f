"""What tools/test_hosts is made of beside the languages.

- `runs`: how a runner is run, and how its tests are counted
- `machine`: what this machine has, and Debian's packages of what it lacks
- `arm`: the library for 64-bit ARM, by qemu
- `debian`: Debian's packages for that machine, in a folder of the tests' own
"""
