#!/usr/bin/env python3
"""Runs ./try_tests with a stand-in for rt, whose parts pass, fail, don't end in time, or are stopped by a signal.

    tests/try_try_tests.py [RUNS]    stops RUNS runs at random moments, 60 if it isn't given

Each stopped run has to print its last line, end with the status of its signal and leave no folder. It takes half a minute.
"""
import concurrent.futures
import pathlib
import random
import re
import signal
import subprocess
import sys
import tempfile
import time

TOP = pathlib.Path(__file__).resolve().parent.parent
# What rt prints of a test, a program or tables, by the word in HOW. As rt does, it removes its folder if it is stopped.
STAND_IN = r"""#!/usr/bin/env bash
folder=$TMPDIR/rt-$$
trap 'rm -rf "$folder"; exit 143' TERM INT HUP
trap 'rm -rf "$folder"' EXIT
mkdir "$folder"
how=$HOW
if [ "$how" = wait ]; then
    sleep "$((RANDOM % 3)).$((RANDOM % 10))" & wait
    how=pass
fi
no_answer() {
    printf "the end of the program's standard output:\n" >&2
    sed 's/^/| /' >&2
    echo "run=no-answer proved=no" >&2
    exit 6
}
case "$how $*" in
'slow '*--test*)
    printf 'test quick ... ok\ntest slow ... FAILED\n    checked: no-answer: the program did not end within the time limit\n'
    exit 6
    ;;
'fail '*--test*)
    printf 'test quick ... ok\ntest wrong ... FAILED\ntest last ... FAILED\n    left: 1\n'
    exit 1
    ;;
*--test*) printf 'test quick ... ok\ntest slow ... ok\n' ;;
'slow '*quick*) sed -n '1,2s|^|data/|p' stdout | no_answer ;;
'fail '*quick*) sed '1s|: .*|: 0 rows hold|;s|^|data/|' stdout ;;
*quick*) sed 's|^|data/|' stdout ;;
slow*) no_answer < /dev/null ;;
fail*) echo wrong ;;
*)
    [ ! -f stdout ] || cat stdout
    [ ! -f status ] || exit "$(cat status)"
    ;;
esac
"""
SIGNALS = {signal.SIGHUP: 129, signal.SIGINT: 130, signal.SIGTERM: 143}


def start(room, how):
    """Starts ./try_tests with a folder of its own for what is temporary."""
    own = pathlib.Path(tempfile.mkdtemp(dir=room))
    given = {"PATH": f"{room}:/usr/bin:/bin", "HOW": how, "TMPDIR": str(own), "TRY_SECONDS": "5"}
    streams = {"stdin": subprocess.DEVNULL, "stdout": subprocess.PIPE, "stderr": subprocess.PIPE, "text": True}

    def heed():
        # A shell starts what runs beside it with SIGINT ignored.
        signal.signal(signal.SIGINT, signal.SIG_DFL)

    return own, subprocess.Popen([TOP / "try_tests"], env=given, preexec_fn=heed, **streams)


def wrong(run, own, first, status, last):
    """Says what is wrong with how a run ended, or returns None."""
    printed, said = run.communicate()
    lines = (first + printed).splitlines()
    left = [path.name for path in own.iterdir()]
    if run.returncode != status or not re.fullmatch(last, lines[-1]) or left:
        return f"status {run.returncode}, not {status}; left {left}; {said}\n" + "\n".join(lines)
    return None


def outcome(room, how, status, last):
    """Runs all parts to their ends."""
    own, run = start(room, how)
    fault = wrong(run, own, "", status, last)
    return fault and f"{how}: {fault}"


def stopped(room, seed):
    """Stops a run at a random moment after its first line."""
    chance = random.Random(seed)
    number = chance.choice(list(SIGNALS))
    own, run = start(room, "wait")
    first = run.stdout.readline()
    time.sleep(chance.uniform(0, 2.5) if chance.random() < 0.8 else 0)
    run.send_signal(number)
    fault = wrong(run, own, first, SIGNALS[number], r"\d+ passed, 0 failed(, \d of 9 parts did not end)?")
    return fault and f"run {seed}, {number.name}: {fault}"


def main():
    runs = int(sys.argv[1]) if len(sys.argv) > 1 else 60
    tables = sum(len((TOP / f"crates/{name}_vectors/args").read_text().split()) for name in ("reading", "writing", "editing", "program"))
    with tempfile.TemporaryDirectory() as folder, concurrent.futures.ThreadPoolExecutor(6) as pool:
        (pathlib.Path(folder) / "rt").write_text(STAND_IN)
        (pathlib.Path(folder) / "rt").chmod(0o755)
        tasks = [
            pool.submit(outcome, folder, "pass", 0, f"{tables + 8} passed, 0 failed"),
            pool.submit(outcome, folder, "fail", 1, f"{tables - 1} passed, 12 failed"),
            pool.submit(outcome, folder, "slow", 1, f"11 passed, 0 failed, {tables - 3} did not end in 5 seconds"),
            *(pool.submit(stopped, folder, seed) for seed in range(runs)),
        ]
        faults = [fault for task in tasks if (fault := task.result())]
    for fault in faults:
        print(fault)
    print(f"{len(tasks) - len(faults)} of {len(tasks)} runs ended as they should")
    return 1 if faults else 0


if __name__ == "__main__":
    sys.exit(main())
