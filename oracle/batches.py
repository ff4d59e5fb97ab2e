"""What comparisons that go by batches share: their words on the command line, the workers, and the report."""
import argparse
import collections
import multiprocessing
import platform
import sys
import time

import compare_engine


def given_words(doc, what):
    """--seed, --workers, --emulated, --from, and how many of what."""
    arguments = argparse.ArgumentParser(description=doc, formatter_class=argparse.RawDescriptionHelpFormatter)
    arguments.add_argument("--seed", default="1")
    arguments.add_argument("--workers", type=int, default=2)
    arguments.add_argument("--emulated", action="store_true")
    arguments.add_argument("--from", dest="start", type=int, default=0, metavar="N")
    arguments.add_argument("count", nargs="?", type=int, default=100000, metavar=what)
    return arguments.parse_args()


def compared(batch, jobs, given, sentence):
    """Runs batch on each job, prints the first calls that differ, what sentence says of the counts, and ends with 1 where any differ."""
    total, spent, differ = collections.Counter(), collections.Counter(), 0
    started = time.time()
    with multiprocessing.Pool(given.workers) as workers:
        for counts, differing, seconds in workers.imap_unordered(batch, jobs):
            total.update(counts)
            spent.update(seconds)
            differ += len(differing)
            for line in differing[:max(0, 20 - differ + len(differing))]:
                print(line, flush=True)
    by_way = ", ".join(f"{key[1]} {total[key]:,}" for key in sorted((key for key in total if key[0] == "way"), key=lambda key: (len(key[1]), key[1])))
    print(f"On {platform.machine()}: {compare_engine.library_text(given.emulated)}.")
    print(f"Seed {given.seed}: {sentence(total)}; {differ} differ; {time.time() - started:.0f} s.")
    print(f"Calls: {by_way}.")
    print("Seconds of processor time by part: " + ", ".join(f"{part} {seconds:.0f}" for part, seconds in spent.items()) + ".")
    sys.exit(differ > 0)
