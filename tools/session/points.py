#!/usr/bin/env python3
"""points.py TOP: what it costs that a kept phase stands for a task and a history, or for what is done with the answer.

Counts, from the text alone: the equations of `*_stands` and those with dummies in them; relations on steps that a crate
defines for itself, by name; lines that speak of waiting tasks; the lemmas of vm_eval that lead a group's step to a step
among all. Lines that import count for nothing."""
import os, re, sys

TOP = sys.argv[1] if len(sys.argv) > 1 else "."
VERBOSE = "-v" in sys.argv
CRATES = "plain_machine class_world row_kit proto_attr proto_ops proto_object native_containers proto_call vm_eval vm_calls".split()
# what stands for any object, number, name or list in a made-up task or history
ANY = r"ref 0\b|record \{ 0 = 0 \}|\bnil\b|\bnone\b|\bone_read\b|\bUnhashable\b"
IN_TASK = re.compile(ANY + r"|\[\]|\bNone\b|\(pos 0\)|\bDo\w+ 0\b|\bpassing\b|\bany \d|LNone|method_call|called_tree|outcome_tree|part_tree|search_job|pairs_of|\beven\b|entry_of|repr_of")
IN_TOLD = re.compile(ANY + r"|\bpassed\b|has_no_length|invoked|loaded|gathered|ReadObjects \[\]|\[\] \[\]|sought_told|class_of_wrapper")


def is_dummy(body):
    task, _, told = body.partition("; told = ")
    return bool("task = " in task and (IN_TASK.search(task) or IN_TOLD.search(told)))


NOT_OWN = {"Begins", "Resumes", "Starts", "Continues", "Goes", "Follows", "Steps", "Closes"}
WORDS = {"Pending": r"\bPending\b", "Alike": r"\bAlike\b", "fresh": r"\bfresh \(", "given": r"\bgiven \(", "Saying": r"\bSaying\b",
         "a task with its history": r"record \{ task = ", "job types": r"\b\w+Job\b", "..told ++ Answered": r"told \+\+ Answered"}


def files(crate, part):
    for at, _, names in os.walk(f"{TOP}/crates/{crate}/{part}"):
        if "/out" in at: continue
        for n in sorted(names):
            if n.endswith(".antt"): yield f"{at}/{n}"


def items(path):
    """The items of a file, each with its lines joined: a line that begins in the first column begins one."""
    out = []
    for line in open(path).read().split("\n"):
        if line.startswith("--") or not line.strip(): continue
        if line[0] not in " })" or not out: out.append(line)
        else: out[-1] += " " + line.strip()
    return out


equations = dummies = 0
own = {}
for crate in CRATES:
    here = 0; bad = 0
    for path in files(crate, "specs"):
        its = items(path)
        for it in its:
            m = re.match(r"(\w*_?stands)\b.*? = (.*)", it)
            if m and not it.startswith(("abbrev", "unfoldable", "use", "pub use")):
                if re.search(r"= \w+_stands \w+$|= (among|as_job|at) ", it): continue
                here += 1
                d = is_dummy(m.group(2))
                bad += d
                if VERBOSE: print("dummy" if d else "  ok ", it[:180])
            m = re.match(r"(?:abbrev|unfoldable) pub (\w+) : (.*)", it)
            if m and re.search(r"Step \(?\w*\)?.*→ Type 0$", m.group(2)) and m.group(1) not in NOT_OWN:
                own.setdefault(crate, []).append(m.group(1))
    if here: print(f"{crate}: {here} equations of stands, {bad} with dummies")
    equations += here; dummies += bad
print(f"in all: {equations} equations, {dummies} with dummies")
n = sum(len(v) for v in own.values())
print(f"relations on steps besides {' '.join(sorted(NOT_OWN))}: {n}")
for crate, names in own.items(): print(f"  {crate}: {' '.join(names)}")
print("lines (no imports):")
total = set()
for word, pattern in WORDS.items():
    count = {"specs": 0, "proofs": 0}
    for part in count:
        for crate in CRATES:
            for path in files(crate, part):
                for i, line in enumerate(open(path)):
                    if re.match(r"(unfoldable |abbrev )?(pub )?use ", line) or line.startswith("--"): continue
                    if re.search(pattern, line):
                        count[part] += 1; total.add((path, i))
    print(f"  {word}: specs {count['specs']}, proofs {count['proofs']}")
print(f"  any of these: {len(total)}")
def size(path): return sum(1 for line in open(path))
for f in ("vm_eval/proofs/Groups.antt", "vm_eval/proofs/OfNatives/Families.antt", "vm_eval/proofs/Turns.antt", "vm_eval/specs/Say.antt", "vm_eval/specs/Stack.antt",
          "vm_eval/specs/OfNatives/Rows.antt", "plain_machine/specs/Rows.antt", "plain_machine/proofs/Follow.antt", "class_world/specs/Rows.antt", "class_world/specs/Points.antt"):
    if os.path.isfile(f"{TOP}/crates/{f}"): print(f"  {f}: {size(f'{TOP}/crates/{f}')} lines")
for crate in CRATES:
    s = sum(size(p) for p in files(crate, "specs")); p = sum(size(q) for q in files(crate, "proofs"))
    print(f"  {crate}: specs {s}, proofs {p}")
