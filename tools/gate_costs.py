#!/usr/bin/env python3
"""What the gate costs, crate by crate: processor seconds and peak memory of its proof, its tests and its edits.

    tools/gate_costs.py run [NAME..]          runs `rt ci NAME..`, samples it, and writes the tables of docs/CHECKING.md
    tools/gate_costs.py watch PID FILE        samples a run of `rt ci` that is under way, until it ends
    tools/gate_costs.py table FILE..          the tables from samples; of a crate's part the last FILE that has it counts
    tools/gate_costs.py reckon FILE..         the minutes of the gate from these samples, and after a change in a crate
    tools/gate_costs.py functions CRATE ..    the seconds of each function, each checked alone (see below)

A run is sampled by /proc alone: each process below `rt ci`, its processor time, its peak memory, its folder and its words.
Seconds are those of the machine as it was: other work at the same time makes them more. What a crate no longer has
(its tests, an edit) is left out of tables. An edit counts as its crate's edits do on the average, since the folder that it
is checked in does not name it; one of a crate without such samples as 25 seconds. `~` is before what was reckoned, not sampled.
`functions` takes a minute a function: a check prints its lines at its end, so that no line of a whole check has a time.
"""
import collections
import glob
import heapq
import json
import os
import re
import subprocess
import sys
import time

TOP = os.path.dirname(os.path.dirname(os.path.abspath(__file__)))
PAGE = os.path.join(TOP, "docs", "CHECKING.md")
SAMPLES = "/tmp/gate_costs.jsonl"
TICKS = os.sysconf("SC_CLK_TCK")
EVERY = 0.25
# The seconds of an edit of a crate without a sample of one: the mean of 510 edits on a quiet machine.
EDIT = 25.0


def crates():
    """The crates of crates.txt with the crates of the repository that each stands on."""
    lists = {}
    with open(os.path.join(TOP, "crates.txt")) as text:
        for line in text:
            line = line.split("#")[0].strip()
            if ":" in line:
                name, below = line.split(":", 1)
                lists[name.split()[0]] = below.split()
    return {name: [b for b in below if b in lists] for name, below in lists.items()}


def edits(crate):
    files = glob.glob(os.path.join(TOP, "crates", crate, "must-fail", "*.edit"))
    return sorted(os.path.basename(file)[:-5] for file in files)


def has_tests(crate):
    for folder, _, files in os.walk(os.path.join(TOP, "crates", crate, "src")):
        for file in files:
            with open(os.path.join(folder, file)) as text:
                if "#[test]" in text.read():
                    return True
    return False


# Sampling.


def process(pid):
    """Parent, start, processor seconds and name of a process."""
    with open(f"/proc/{pid}/stat") as text:
        stat = text.read()
    name = stat[stat.index("(") + 1 : stat.rindex(")")]
    rest = stat[stat.rindex(")") + 2 :].split()
    return int(rest[1]), rest[19], (int(rest[11]) + int(rest[12])) / TICKS, name


def part_of(words, folder):
    """The crate and the part of the gate that a process serves. Of an edit its folder says no name."""
    crate = words[words.index("--crate-name") + 1] if "--crate-name" in words else None
    if crate is None or len(words) < 2 or words[1] not in ("build", "check"):
        return None, "other"
    if "/rt-edit-" in folder:
        return crate, "edit"
    return crate, "tests" if "--test" in words else "proof"


def sample(root, file):
    """Writes a line for each process below `root` once it is gone; ends with `root`."""
    seen = {}
    with open(file, "a") as out:
        while os.path.exists(f"/proc/{root}"):
            now = time.time()
            alive, parents, found = set(), {}, {}
            for pid in filter(str.isdigit, os.listdir("/proc")):
                try:
                    parent, start, seconds, name = process(pid)
                except (OSError, ValueError):
                    continue
                parents[int(pid)] = parent
                found[int(pid)] = (start, seconds, name)
            for pid, (start, seconds, name) in found.items():
                above = pid
                while above in parents and above != root:
                    above = parents[above]
                if above != root or pid == root:
                    continue
                key = (pid, start)
                alive.add(key)
                try:
                    if key not in seen or seen[key]["part"] == "other":
                        with open(f"/proc/{pid}/cmdline") as text:
                            words = text.read().split("\0")
                        folder = os.readlink(f"/proc/{pid}/cwd")
                        crate, part = part_of(words, folder)
                        begin = seen[key]["begin"] if key in seen else now
                        seen[key] = {"crate": crate, "part": part, "name": name, "folder": folder, "begin": begin}
                    one = seen[key]
                    one["seconds"], one["end"] = seconds, now
                    with open(f"/proc/{pid}/status") as text:
                        peak = re.search(r"VmHWM:\s*(\d+)", text.read())
                    if peak:
                        one["peak"] = int(peak.group(1)) // 1024
                except OSError:
                    continue
            for key in [key for key in seen if key not in alive]:
                out.write(json.dumps(seen.pop(key)) + "\n")
            out.flush()
            time.sleep(EVERY)
        for one in seen.values():
            out.write(json.dumps(one) + "\n")


# Tables.


class Costs:
    """Seconds and peaks of a crate's proof, tests and edits."""

    def __init__(self, files):
        self.below = crates()
        self.proof, self.tests, self.each_edit = {}, {}, {}
        for file in files:
            self.read(file)
        for crate in list(self.tests):
            if crate not in self.below or not has_tests(crate):
                del self.tests[crate]
        self.edits = {crate: self.edits_of(crate) for crate in self.below}

    def read(self, file):
        new = collections.defaultdict(list)
        with open(file) as text:
            for line in text:
                one = json.loads(line)
                if one.get("crate") and "seconds" in one:
                    new[one["crate"], one["part"]].append(one)
        for (crate, part), found in new.items():
            longest = max(found, key=lambda one: one["seconds"])
            cost = (longest["seconds"], longest.get("peak", 0), longest.get("reckoned", False))
            if part == "proof":
                self.proof[crate] = cost
            elif part == "tests":
                self.tests[crate] = cost
            elif part == "edit":
                self.each_edit[crate] = [(one["seconds"], one.get("peak", 0)) for one in found]

    def edits_of(self, crate):
        """Each edit that stands, with the mean of the crate's seconds and the highest peak."""
        known = self.each_edit.get(crate, [])
        mean = sum(cost[0] for cost in known) / len(known) if known else EDIT
        peak = max((cost[1] for cost in known), default=0)
        return {name: (mean, peak) for name in edits(crate)}

    def chain(self):
        """The longest chain of proofs, lowest first, with the seconds up to and with each crate."""
        length, before = {}, {}

        def of(crate):
            if crate not in length:
                best = max(self.below[crate], key=of, default=None)
                before[crate] = best
                length[crate] = self.proof.get(crate, (0, 0))[0] + (length[best] if best else 0)
            return length[crate]

        top = max(self.below, key=of)
        names = []
        while top:
            names.append(top)
            top = before[top]
        return [(name, length[name]) for name in reversed(names)]

    def reckon(self, processors, changed=None):
        """The minutes of a run on so many processors: whole, or of these crates and those above them alone."""
        anew = set(self.below)
        if changed is not None:
            anew = set(changed)
            while True:
                more = {c for c, below in self.below.items() if c not in anew and anew & set(below)}
                if not more:
                    break
                anew |= more
        above = collections.defaultdict(list)
        for crate in anew:
            for low in self.below[crate]:
                if low in anew:
                    above[low].append(crate)
        rank = {}

        def rest(crate):
            if crate not in rank:
                own = self.proof.get(crate, (0, 0))[0]
                rank[crate] = own + max([rest(up) for up in above[crate]] + [self.tests.get(crate, (0, 0))[0]])
            return rank[crate]

        waits = {crate: sum(low in anew for low in self.below[crate]) for crate in anew}
        ready = [(0, -rest(crate), crate, "proof", self.proof.get(crate, (0, 0))[0]) for crate in anew if not waits[crate]]
        heapq.heapify(ready)
        running, now, last_proof = [], 0.0, 0.0
        while ready or running:
            while ready and len(running) < processors:
                _, _, crate, part, seconds = heapq.heappop(ready)
                heapq.heappush(running, (now + seconds, crate, part))
            now, crate, part = heapq.heappop(running)
            if part == "proof":
                last_proof = now
                for up in above[crate]:
                    waits[up] -= 1
                    if not waits[up]:
                        heapq.heappush(ready, (0, -rest(up), up, "proof", self.proof.get(up, (0, 0))[0]))
                if crate in self.tests:
                    seconds = self.tests[crate][0]
                    heapq.heappush(ready, (0, -seconds, crate, "tests", seconds))
                for name, cost in self.edits[crate].items():
                    heapq.heappush(ready, (1, -cost[0], crate, name, cost[0]))
        return now / 60, last_proof / 60, len(anew)


def seconds(cost):
    return ("~" if cost[2] else "") + f"{cost[0]:.0f}" if cost else ""


def table(costs):
    lines = [
        f"Made by `python3 tools/gate_costs.py` on {os.cpu_count()} processors ({model()}).",
        "",
        "| crate | proof, s | MB | tests, s | MB | edits | s | MB |",
        "|---|---|---|---|---|---|---|---|",
    ]
    sums = [0.0, 0.0, 0.0, 0]
    for crate in costs.below:
        proof, tests, each = costs.proof.get(crate), costs.tests.get(crate), costs.edits[crate]
        all_edits = sum(cost[0] for cost in each.values())
        peak = max((cost[1] for cost in each.values()), default=0)
        sums = [sums[0] + (proof or (0,))[0], sums[1] + (tests or (0,))[0], sums[2] + all_edits, sums[3] + len(each)]
        lines.append(
            f"| `{crate}` | {seconds(proof)} | {proof[1] or '' if proof else ''} | {seconds(tests)} | {tests[1] or '' if tests else ''} "
            f"| {len(each) or ''} | {f'{all_edits:.0f}' if each else ''} | {peak or ''} |"
        )
    lines.append(f"| all | {sums[0]:.0f} | | {sums[1]:.0f} | | {sums[3]} | {sums[2]:.0f} | |")
    lines += ["", "The longest chain of proofs, with the seconds from its first crate on: "]
    lines[-1] += ", ".join(f"`{name}` {upto:.0f}" for name, upto in costs.chain()) + "."
    lines += ["", reckoned(costs)]
    return "\n".join(lines)


def reckoned(costs):
    parts = []
    for processors in (4, 2):
        whole, proofs, _ = costs.reckon(processors)
        some, _, count = costs.reckon(processors, ["scope_rules"])
        parts.append(
            f"on {processors} processors {whole:.0f} minutes from nothing, the last proof after {proofs:.0f}, "
            f"and {some:.0f} after a change in `scope_rules` ({count} crates)"
        )
    return "Reckoned from these seconds, each part on one processor, proofs first along the longest chain, edits last: " + "; ".join(parts) + "."


def model():
    with open("/proc/cpuinfo") as text:
        found = re.search(r"model name\s*:\s*(.*)", text.read())
    return found.group(1) if found else "unknown"


def write_page(text):
    """Puts the table between the page's two marks."""
    with open(PAGE) as page:
        old = page.read()
    first, last = "<!-- table -->\n", "<!-- end of the table -->"
    if first not in old or last not in old:
        sys.exit(f"{PAGE} has no place for a table")
    head, tail = old.split(first, 1)[0], old.split(last, 1)[1]
    with open(PAGE, "w") as page:
        page.write(head + first + "\n" + text + "\n\n" + last + tail)


def functions(crate):
    """Each function checked alone, with the seconds above those of a check of nothing. A function may be a path's end."""
    folder = os.path.join(TOP, "crates", crate)
    lines = subprocess.run(["rt", "check"], cwd=folder, capture_output=True, text=True).stdout.splitlines()
    names = [m.group(1) for m in (re.match(rf"fn {crate}::(\S+): proved", line) for line in lines) if m]
    for name in names:
        begin = os.times()
        subprocess.run(["rt", "check", "--only", name], cwd=folder, capture_output=True)
        end = os.times()
        print(f"{end.children_user + end.children_system - begin.children_user - begin.children_system:.1f} {name}", flush=True)


def main(words):
    if words[:1] == ["run"]:
        if os.path.exists(SAMPLES):
            os.remove(SAMPLES)
        run = subprocess.Popen(["rt", "ci"] + words[1:], cwd=TOP)
        watcher = subprocess.Popen([sys.executable, __file__, "watch", str(run.pid), SAMPLES])
        status = run.wait()
        watcher.wait()
        write_page(table(Costs([SAMPLES])))
        sys.exit(status)
    if len(words) == 3 and words[0] == "watch":
        sample(int(words[1]), words[2])
    elif len(words) >= 2 and words[0] == "table":
        write_page(table(Costs(words[1:])))
    elif len(words) >= 2 and words[0] == "reckon":
        print(reckoned(Costs(words[1:])))
    elif len(words) == 2 and words[0] == "functions":
        functions(words[1])
    else:
        sys.exit(__doc__)


main(sys.argv[1:])
