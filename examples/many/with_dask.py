#!/usr/bin/env python3
"""Evaluates each program of a folder on a Dask cluster, through the Python client.

    with_dask.py FOLDER OUT [--scheduler ADDRESS] [--workers N] WORD..

The words are options and asks of `decl run`, as on its command line. With no address a cluster is started on this
machine. The rows of each program go to OUT/rows/NAME.csv, whole or not at all, as `decl` writes them; what a failed run
said goes to OUT/rows/NAME.failed. A program whose text, as it is now, has rows is not evaluated again. OUT/all.csv has all
rows. A task whose worker is lost is run again by another worker.
"""

import argparse
import hashlib
import os
import pathlib
import subprocess
import sys

try:
    from distributed import Client, LocalCluster, as_completed

    import decl
except ModuleNotFoundError as missing:
    sys.exit(
        f"with_dask.py: Python has no module {missing.name}: it needs distributed (Debian's python3-distributed, or "
        "pip install distributed) and the Python client decl (installed, or PYTHONPATH=clients/python/src)"
    )

HERE = pathlib.Path(__file__).resolve().parent
OPTIONS = ("bs", "log2", "digits", "width", "mwidth", "make")

#: What another try can mend, and how many tries there are.
OF_THE_MACHINE = (decl.Killed, decl.OutOfMemory, decl.ReadFault, decl.WriteFault)
TRIES = 3


def evaluate(name, text, asks, options):
    """The CSV report on one program, or what the fault said, on a worker; what was killed is run again."""
    said = None
    for _ in range(TRIES):
        try:
            return name, decl.report(text, asks, "csv", **options), None
        except decl.DeclError as fault:
            said = f"{fault}\n" if fault.status is None else f"{fault}\nstatus {fault.status}\n"
            if not isinstance(fault, OF_THE_MACHINE):
                break
    return name, None, said


def bar(done, count):
    """A line that shows how far it is."""
    print(f"\r[{'#' * (40 * done // count):40}] {done} of {count}", end="", file=sys.stderr, flush=True)


def parted(words):
    """The asks of the words, and their options by name, as the client takes them."""
    asks, options, left = [], {}, list(words)
    while left:
        word = left.pop(0)
        name, equal, value = word.partition("=")
        if not word.startswith("--"):
            asks.append(word)
        elif name[2:] not in OPTIONS or name[2:] in options or not (equal or left):
            sys.exit(f"with_dask.py: {word} is no option of decl, has no value or stands twice")
        else:
            options[name[2:]] = value if equal else left.pop(0)
    return asks, options


def read_words():
    """The words for the cluster, and those behind them as they are: the folder, OUT, and the words of decl."""
    reader = argparse.ArgumentParser(
        usage="with_dask.py FOLDER OUT [--scheduler ADDRESS] [--workers N] WORD..",
        description=__doc__.splitlines()[0],
        allow_abbrev=False,
    )
    reader.add_argument("--scheduler")
    reader.add_argument("--workers", type=int, default=os.cpu_count())
    cluster, words = reader.parse_known_args()
    if len(words) < 3:
        reader.error("a folder, OUT and words are needed")
    return cluster, pathlib.Path(words[0]), pathlib.Path(words[1]), words[2:]


def helper(name, *words, **how):
    """Runs one of the scripts beside this one, which the other ways go by too. Where its words are refused, so are these."""
    done = subprocess.run([HERE / name, *words], env={**os.environ, "DECL_MANY": str(HERE)}, **how)
    if done.returncode == 2:
        sys.exit(2)
    return done


def keep(out, name, text_sum, report, said):
    """Keeps what came of one program: a whole report with the SHA-256 of its text, or what the fault said."""
    words, kept = ([], said) if report is None else ([text_sum], report)
    if helper("keep", out, name, *words, input=kept.encode()).returncode != 0:
        sys.exit(1)


def evaluate_all(names, folder, out, asks, options, of_cluster):
    """Hands out the programs of these names, and keeps each report as it comes."""
    cluster = None
    if of_cluster.scheduler is None:
        workers = of_cluster.workers
        cluster = LocalCluster(n_workers=workers, threads_per_worker=1, processes=True, dashboard_address=None)
    with Client(of_cluster.scheduler or cluster) as client:
        tasks, sums = [], {}
        for name in names:
            text = (folder / f"{name}.decl").read_bytes()
            sums[name] = hashlib.sha256(text).hexdigest()
            tasks.append(client.submit(evaluate, name, text, asks, options, pure=False, retries=TRIES))
        for done, task in enumerate(as_completed(tasks), 1):
            name, report, said = task.result()
            keep(out, name, sums[name], report, said)
            bar(done, len(tasks))
    if cluster is not None:
        cluster.close()
    print(file=sys.stderr)


def main():
    """Evaluates each text that has no rows yet, and collects all rows."""
    of_cluster, folder, out, words = read_words()
    asks, options = parted(words)
    helper("keep_words", out, *words)
    found = helper("programs", folder, out, stdout=subprocess.PIPE).stdout
    names = [os.fsdecode(name) for name in found.split(b"\0")[:-1]]
    if names:
        evaluate_all(names, folder, out, asks, options, of_cluster)
    return helper("collect", folder, out).returncode


if __name__ == "__main__":
    sys.exit(main())
