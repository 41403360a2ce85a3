"""Instructions per request, by callgrind: two runs less one, so that the program's own start is not counted.

    python3 bench/instructions.py bench/target/release/bench
Prints a table of the sides, then where ours go, then the share of the root.
"""

import os
import re
import subprocess
import sys
import tempfile

SIDES = ["kept", "root", "powf"]


class Profile:
    """Instructions of each function itself and with what it calls, summed over a callgrind file."""

    def __init__(self, text):
        self.own, self.whole, self.calls = {}, {}, {}
        names, function, target, skip = {}, None, None, False
        for line in text.splitlines():
            if match := re.match(r"(c?)fn=\((\d+)\)(?: (.*))?$", line):
                if match[3]:
                    names[match[2]] = match[3]
                if match[1]:
                    target = names[match[2]]
                else:
                    function = names[match[2]]
            elif match := re.match(r"calls=(\d+)", line):
                self.calls[target] = self.calls.get(target, 0) + int(match[1])
                skip = True
            elif match := re.match(r"(?:[+-]?\d+|\*) (\d+)$", line):
                of, cost = (self.whole, int(match[1]))
                if skip:
                    if target != function:
                        of[target] = of.get(target, 0) + cost
                    skip = False
                else:
                    self.own[function] = self.own.get(function, 0) + cost

    def total(self):
        return sum(self.own.values())

    def inclusive(self, name):
        return self.whole.get(name, 0)


def profile(bench, side, family, n, repeats):
    with tempfile.TemporaryDirectory() as folder:
        out = os.path.join(folder, "out")
        command = ["valgrind", "--tool=callgrind", "--callgrind-out-file=" + out]
        command += [bench, "once", side, family, str(n), str(repeats)]
        said = subprocess.run(command, check=True, capture_output=True, text=True).stdout
        with open(out) as file:
            return Profile(file.read()), int(said.split()[0])


def main():
    bench = sys.argv[1]
    print("instructions per request")
    sides = "".join(f"{side:>9}" for side in SIDES)
    print(f"{'family':6} {'n':>3} {'requests':>9}{sides}  kept/root kept/powf  root's own  share of ours")
    parts = {}
    for family in ["adams", "bdf"]:
        for n in [2, 8, 24, 64]:
            per, own_root = {}, 0.0
            for side in SIDES:
                one, requests = profile(bench, side, family, n, 1)
                two, _ = profile(bench, side, family, n, 2)
                per[side] = (two.total() - one.total()) / requests
                if side == "kept":
                    asked = requests
                    for name in two.own:
                        own = (two.own[name] - one.own.get(name, 0)) / requests
                        calls = (two.calls.get(name, 0) - one.calls.get(name, 0)) / requests
                        if own >= 20:
                            parts.setdefault(name.split("@")[0], {})[family, n] = (own, calls)
                if side == "root":
                    own_root = (two.inclusive("raimsklo_root") - one.inclusive("raimsklo_root")) / requests
            print(
                f"{family:6} {n:3} {asked:9}"
                + "".join(f"{per[side]:9.0f}" for side in SIDES)
                + f"{per['kept'] / per['root']:11.2f}{per['kept'] / per['powf']:10.2f}"
                + f"{own_root:12.0f}{own_root / per['kept']:14.0%}",
                flush=True,
            )
    for family in ["adams", "bdf"]:
        print(f"\nwhere ours go, {family}: instructions of a function itself per request (its calls per request)")
        order = sorted(parts, key=lambda name: -max(own for own, _ in parts[name].values()))
        for name in order:
            cells = [parts[name].get((family, n)) for n in [2, 8, 24, 64]]
            print(f"  {name[:44]:44}" + "".join(f"{c[0]:7.0f} ({c[1]:4.2f})" if c else f"{'-':>14}" for c in cells))


if __name__ == "__main__":
    main()
