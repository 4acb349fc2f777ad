"""What becomes of a service that the system gives few descriptors or threads, and of one whose journal fills."""
import contextlib
import http.client
import os
import shutil
import socket
import subprocess
import time

from faults import add_tasks, begun, comes_to
from service import Service, shell

DESCRIPTORS, CONNECTIONS, USER = 40, 30, 54321
# the threads of a service without options are 72 lanes, 4 doors, the timer and the first one
FEW, ENOUGH = 30, 90


def limited(letter, limit):
    """Words that set a limit of the shell, and become what follows them."""
    return ["bash", "-c", f'ulimit -{letter} {limit} && exec "$@"', "bash"]


def connected(port, count):
    """So many connections, of which each has asked for the pools."""
    sockets = []
    for _ in range(count):
        it = socket.create_connection(("127.0.0.1", port), timeout=30)
        it.sendall(b"GET /pools HTTP/1.1\r\nHost: localhost\r\n\r\n")
        sockets.append(it)
    return sockets


def answered(sockets):
    """How many of the connections are answered."""
    count = 0
    for it in sockets:
        with contextlib.suppress(OSError):
            count += it.recv(4096).startswith(b"HTTP/1.1 200 ")
    return count


def doors_left(service, doors):
    """How many doors answer at a time: each keeps its connection."""
    sockets = connected(service.port, doors)
    count = answered(sockets)
    for it in sockets:
        it.close()
    return count


def files(checks, path, folder):
    """Few descriptors: each child program that runs takes one, and each connection."""
    doors, count = 4, 100
    service = begun(path, folder, "--store", "night.db", nodes=8, slots=8, wrap=limited("n", DESCRIPTORS))
    add_tasks(service, shell("sleep 1"), count)
    sockets = connected(service.port, CONNECTIONS)
    time.sleep(2)
    held = len(os.listdir(f"/proc/{service.process.pid}/fd"))
    for it in sockets:
        it.close()
    # a door keeps a connection that is closed for a second at most
    came, counts = comes_to(service, 120, completed=count)
    checks.check(f"files: with a limit of {DESCRIPTORS} descriptors ({held} were open), {counts['succeeded']} of {count} tasks succeed",
                 came and counts["failed"] == 0, counts)
    left = doors_left(service, doors)
    checks.check(f"files: {left} of {doors} doors answer at a time afterwards", left == doors)
    lines = service.told().splitlines()
    # a start that waits has two lines, and so has each door
    checks.check(f"files: standard error has {len(lines)} lines for {count} tasks: {lines[-3:]}", len(lines) <= 2 * (count + doors))
    service.kill()


def other_user(path, folder):
    """Words that have another user run a copy of the program, and the copy; None if that cannot be."""
    place, copy = os.path.join(folder, "user"), os.path.join(folder, "batch")
    words = ["setpriv", f"--reuid={USER}", f"--regid={USER}", "--clear-groups"]
    if os.geteuid() != 0 or shutil.which("setpriv") is None:
        return None
    shutil.copy(path, copy)
    os.chmod(copy, 0o755)
    os.chmod(folder, 0o755)
    os.mkdir(place)
    os.chown(place, USER, USER)
    done = subprocess.run([*words, copy, "child", "0"], capture_output=True, cwd=place, check=False)
    return (words, copy, place) if done.returncode == 0 else None


def threads(checks, path, folder):
    """Limits of processes, of which each thread counts as one."""
    user = other_user(path, folder)
    if user is None:
        print("skipped threads: no program can be run here as another user")
        return
    words, copy, place = user
    done = None
    with contextlib.suppress(subprocess.TimeoutExpired):
        done = subprocess.run([*words, *limited("u", FEW), copy, "serve", "--port", "0"], cwd=place, capture_output=True, text=True, timeout=30, check=False)
    found = (done.returncode, done.stdout, done.stderr.splitlines()) if done else "it goes on"
    checks.check(f"threads: with a limit of {FEW} processes it says so and does not begin: {found}",
                 done is not None and (done.returncode, done.stdout) == (1, "") and len(done.stderr.splitlines()) > 0)
    count = 60
    service = begun(copy, place, "--store", "night.db", nodes=8, slots=8, wrap=[*words, *limited("u", ENOUGH)])
    add_tasks(service, "sleep 0.5", count)
    came, counts = comes_to(service, 120, completed=count)
    checks.check(f"threads: with one of {ENOUGH}, {counts['succeeded']} of {count} tasks succeed", came and counts["failed"] == 0, counts)
    left = doors_left(service, 4)
    checks.check(f"threads: {left} of 4 doors answer at a time afterwards: {service.told().splitlines()[-4:]}", left == 4)
    service.kill()


def journal(checks, path, folder):
    """A journal that fills."""
    limit = 40
    service = begun(path, folder, "--store", "night.db", "--journal", str(limit))
    statuses = []
    with contextlib.suppress(OSError, http.client.HTTPException):
        while len(statuses) < 2 * limit and (not statuses or statuses[-1] == 201):
            body = {"id": f"t{len(statuses)}", "commandLine": "true"}
            statuses.append(service.ask("POST", "/jobs/j/tasks", body, patience=30)[0])
    status = None
    with contextlib.suppress(subprocess.TimeoutExpired):
        status, _ = service.ended(40)
    lines = service.told().splitlines()
    checks.check(f"journal: after {statuses.count(201)} tasks a journal of {limit} is full, and the program ends with {status}: {lines[-4:]}",
                 status == 9 and any("journal" in line for line in lines), statuses[-3:])
    service.kill()
    acknowledged = statuses.count(201)
    service = Service(path, folder, "--store", "night.db")
    came, counts = comes_to(service, 30, succeeded=acknowledged)
    checks.check(f"journal: the next start has each acknowledged task, and runs what was not saved ({acknowledged})", came, counts)
    service.kill()
