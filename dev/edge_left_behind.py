"""Cases of processes that outlive their line, and of lines that end late.

Files determine the order of events, not sleeps: one side makes a file, and the other waits for it.
"""
from __future__ import annotations

import os
import shutil
import signal
import time

from edge_folder import (HERE, MAKE, TOOLS, WORKER, Folder, Skipped, all_ok, as_nobody, end_session, is_at_work, none_left_in,
                         wait_until, want)

# Makes its output from its source. The first process reports that it is ready. When a later process has made the new output,
# the first one writes the old output again, by its relative and its absolute path. Then the later process answers.
ORPHAN = """#!/bin/sh
top=TOP
here=$(pwd -P)
await() { while [ ! -e "$top/$1" ]; do sleep 0.01; done; }
while read -r request; do
    for path in f/*; do name=${path#f/}; done
    text=$(cat "f/$name")
    printf '%s\\n' "$text" >"o/$name"
    if mkdir "$top/first" 2>/dev/null; then
        FIRST
    else
        touch "$top/second.ready"
        await first.done
        echo '{}'
    fi
done
"""
LINGER = """touch "$top/first.ready"
        await second.ready
        mkdir -p o "$here/o"
        printf '%s\\n' "$text" >"o/$name"
        printf '%s\\n' "$text" >"$here/o/$name"
        touch "$top/first.done\""""


def orphan_script(folder: Folder, first: str) -> str:
    return ORPHAN.replace("TOP", str(folder.path)).replace("FIRST", first)


def play_orphan(folder: Folder, ending: signal.Signals) -> None:
    """Ends a run while its worker works. The worker writes again while the next run's worker works on the changed source."""
    folder.write("worker", orphan_script(folder, LINGER + "\n        exit"))
    first = folder.start([folder.action("a", words="old")], name="first.json")
    wait_until(lambda: folder.has("first.ready"), "the first worker's word")
    first.send_signal(ending)
    first.wait()
    with none_left_in(folder.path):
        folder.run([folder.action("a", words="new")]).want(0, all_ok(1))
        want(folder.read("o/a") == "new\n", f"the output is {folder.read('o/a')!r} and not that of the new source")


def orphan_of_a_killed_run(folder: Folder) -> None:
    """Checks that a worker of a killed run can't write into the next run's room, by any path."""
    play_orphan(folder, signal.SIGKILL)


def orphan_of_an_ended_run(folder: Folder) -> None:
    """Checks the same after a run that TERM ended."""
    play_orphan(folder, signal.SIGTERM)


def orphan_of_an_attempt(folder: Folder) -> None:
    """Plays a first attempt with an unreadable answer. It leaves a process that writes while the second attempt works."""
    first = f"(text=stale; {LINGER}) &\n        echo garbage\n        exit"
    folder.write("worker", orphan_script(folder, first))
    with none_left_in(folder.path):
        folder.run([folder.action("a", words="text")]).want(0, all_ok(1))
        want(folder.read("o/a") == "text\n", f"the output is {folder.read('o/a')!r}")
    want(folder.has("first.done"), "the process of the first attempt wrote nothing")


def late_executor(folder: Folder) -> str:
    """Returns the option for an executor that answers when a worker has begun the same output. Files in `begun` show that."""
    folder.write("executor", f"#!/bin/sh\nexec {HERE / 'edge-executor'} {folder.path}/begun\n")
    (folder.path / "begun").mkdir(exist_ok=True)
    return f"--executor={folder.path}/executor"


def orphan_of_a_lost_race(folder: Folder) -> None:
    """Plays a race that the executor wins. The killed worker's child writes while the next run's worker works."""
    first = f"({LINGER}) &\n        touch $top/begun/$name; sleep 60"
    folder.write("worker", orphan_script(folder, first))
    with none_left_in(folder.path):
        raced = folder.start([folder.action("a", strategy="dynamic", words="old")], late_executor(folder))
        folder.end(raced, is_left=True).want(0, "a ok remote local=lost remote=won")
        folder.run([folder.action("a", words="new")]).want(0, all_ok(1))
        want(folder.read("o/a") == "new\n", f"the output is {folder.read('o/a')!r} and not that of the new source")


def commands_of_lost_races(folder: Folder) -> None:
    """Races twenty actions with `as-worker` and four workers. At most four commands run at once, and none after the run."""
    begin = f"for path in f/*; do echo $$ >>{folder.path}/started; touch {folder.path}/begun/${{path#f/}}; done"
    folder.write("compiler", f"#!/bin/sh\n{begin}\nexec sleep 60\n")
    actions = []
    for number in range(20):
        action = folder.action(f"a{number}", strategy="dynamic")
        action["argv"] = [str(TOOLS / "as-worker"), str(folder.path / "compiler"), *action["argv"][1:]]
        action["env"] = {"PATH": os.environ["PATH"]}
        actions.append(action)
    with none_left_in(folder.path):
        run = folder.start(actions, "--instances=4", late_executor(folder))
        most = 0
        while run.poll() is None:
            most = max(most, commands_at_work(folder))
            time.sleep(0.02)
        end = folder.end(run, is_left=True)
        end.want(0, all_ok(20))
        want(1 <= most <= 4, f"{most} commands were at work at once")
        wait_until(lambda: commands_at_work(folder) == 0, "the end of the commands", 5)


def commands_at_work(folder: Folder) -> int:
    """Returns the number of started compilers that haven't ended."""
    return sum(is_at_work(int(process)) for process in (folder.read("started") or "").split())


def worker_leaves_a_helper(folder: Folder) -> None:
    """Plays a worker that ends after its answer and leaves a process that holds its output open."""
    folder.worker("worker", f"{MAKE}; sleep 50 &\n    echo '{{}}'; exit")
    begun = time.monotonic()
    with none_left_in(folder.path):
        folder.run([folder.action("a")], "--instances=1").want(0, all_ok(1))
        want(time.monotonic() - begun < 20, f"the run took {time.monotonic() - begun:.0f} seconds")


def job_leaves_a_helper(folder: Folder) -> None:
    """Plays a job that leaves a process that holds its output open, with each executor. The next job is run all the same."""
    folder.write("job", "#!/bin/sh\necho done >\"o/${1#@f/}\"\n/bin/sleep 50 &\n")
    for executor in ("remote_exec", "job_pool"):
        begun = time.monotonic()
        actions = [folder.action(name, worker=str(folder.path / "job"), strategy="remote") for name in ("a", "b")]
        with none_left_in(folder.path):
            end = folder.run(actions, "--remote=1", f"--executor={folder.program(executor)}", "--extra_flag=--serve")
            end.want(0, all_ok(2))
            want(time.monotonic() - begun < 25, f"{executor} took {time.monotonic() - begun:.0f} seconds")


def worker_of_another_user(folder: Folder) -> None:
    """Plays a worker that has become another user and can't be killed. It ends with its input, and doesn't delay the run."""
    python = "/usr/bin/python3"
    if os.getuid() != 0 or not os.path.exists(python):
        raise Skipped("only root can make a program that becomes another user")
    if os.statvfs(folder.path).f_flag & os.ST_NOSUID:
        raise Skipped(f"no program becomes another user below {folder.path}")
    folder.write("other", "import os\nos.setuid(0)\nos.execv('../../inner', ['../../inner'])\n", 0o644)
    folder.worker("inner", MAKE)
    folder.write("worker", f"#!/bin/sh\nexec {folder.path}/root-python {folder.path}/other\n")
    action = folder.action("a")
    limit = as_nobody(folder)
    shutil.copy(os.path.realpath(python), folder.path / "root-python")
    os.chown(folder.path / "root-python", 0, 0)
    os.chmod(folder.path / "root-python", 0o4755)
    run = folder.start([action], limit=limit)
    try:
        folder.end(run, is_left=True).want(0, all_ok(1))
    finally:
        end_session(run.pid)


def idle_ends(folder: Folder) -> None:
    """Runs six hundred actions with a worker that ends after each answer, with the default options. Nearly all must be ok.

    The time until an end is noticed depends on the machine's load, so the best of three runs counts.
    """
    folder.worker("worker", MAKE, WORKER.replace("echo '{}'", "echo '{}'; exit"))
    names = [f"a{number}" for number in range(600)]
    best = 0
    for _ in range(3):
        shutil.rmtree(folder.path / "o", ignore_errors=True)
        folder.run([folder.action(name) for name in names])
        best = max(best, folder.made(names))
        if best >= 590:
            return
    want(best >= 590, f"{best} of 600 outputs are whole at best")


CASES = [orphan_of_a_killed_run, orphan_of_an_ended_run, orphan_of_an_attempt, orphan_of_a_lost_race, commands_of_lost_races,
         worker_leaves_a_helper, job_leaves_a_helper, worker_of_another_user, idle_ends]
