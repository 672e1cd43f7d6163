#!/usr/bin/env python3
"""Instructions of each builder's call, of guards, eight guards, retain and the slowest slices, on both sides, by callgrind, as a table.

    ./staticlib
    cargo build --release --offline --manifest-path tests/driver/Cargo.toml
    python3 tests/driver/counts.py tests/driver/target/release/driver
"""
import re
import subprocess
import sys

BUILDERS = ["constant", "unary", "truncate", "add", "mul", "equal", "slice", "concat", "concat of 64 and 64", "unsigned range",
            "divide signed", "remainder signed", "divide unsigned", "remainder unsigned"]
# The driver makes so many calls.
CALLS = 3


def count(driver, *words):
    side = "counted_work" if words[-1] == "original" else "counted_put"
    tool = ["valgrind", "--tool=callgrind", "--callgrind-out-file=/dev/null", f"--toggle-collect=*{side}*"]
    said = subprocess.run(tool + [driver, "one", *words], capture_output=True, text=True, check=True).stderr
    return int(re.search(r"Collected : (\d+)", said).group(1)) // CALLS


def main():
    driver = sys.argv[1]
    print("| builder | nodes | old: original | in graph | ratio | new: original | in graph | ratio |\n|---|---|---|---|---|---|---|---|")
    for builder in BUILDERS:
        for nodes in ["16", "128", "500"]:
            cells = ""
            for node in ["old", "new"]:
                original, library = (count(driver, builder, nodes, node, side) for side in ["original", "library"])
                cells += f" {original} | {library} | {library / original:.2f} |"
            print(f"| {builder} | {nodes} |{cells}", flush=True)
    # A guard on a new node narrows one, on an old one nothing, and each of eight does; a retain and a slow slice have no old node.
    eight = [(name, node) for node in ["new", "old"] for name in ["eight guards", "list of eight guards"]]
    for nodes in ["16", "128", "500"]:
        for name, node in [("guard", "new"), ("guard", "old"), *eight, ("retain", "new")]:
            original, library = (count(driver, name, nodes, node, side) for side in ["original", "library"])
            print(f"| {name}, {node} | {nodes} | {original} | {library} | {library / original:.2f} |", flush=True)
    original, library = (count(driver, "slices of concats", "16", "new", side) for side in ["original", "library"])
    print(f"| slices of concats | 190 | {original} | {library} | {library / original:.2f} |", flush=True)


if __name__ == "__main__":
    main()
