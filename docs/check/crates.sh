# docs/ARCHITECTURE.md has the list and the picture of the crates as docs/crates.py makes them from crates.txt. There each crate stands in a group, with its job,
# below those that it names, and each folder of crates/ has a line.
python3 docs/crates.py --check
