"""The header, the crate for Rust and the list of changes are of one version, which c/install.sh writes into managed_heap.pc."""
import re

HEADER, CRATE, CHANGES = "c/include/managed_heap.h", "rust/managed_heap/Cargo.toml", "CHANGELOG.md"


def first(page, pattern):
    with open(page, encoding="utf-8") as it:
        found = re.search(pattern, it.read(), re.M)
    return found[1] if found else "none"


def main():
    version = first(HEADER, r'^#define MH_VERSION "(.*)"$')
    for page, pattern, wanted in [(CRATE, r'^version = "(.*)"$', f"{version}.0"), (CHANGES, r"^## (\d.*)$", version)]:
        if first(page, pattern) != wanted:
            print(f"{page}: the version {first(page, pattern)}, where it is {wanted} by {HEADER}")


main()
