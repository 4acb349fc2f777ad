"""What a service does for clients and beside other services: the last task, two in one folder, browsers, wrong words, slow clients."""
import contextlib
import os
import shutil
import socket
import subprocess
import threading
import time

from faults import add_tasks, begun, comes_to, exported
from service import Service, finished, text_of, wait_for

# seconds that a message may take, that an answer may take, and that a kept connection may be idle; and what may come to them
MESSAGE, IDLE, MORE = 60, 15, 15


def wall(checks, path, folder):
    """A task hangs until its wall time, after the only connection has ended."""
    service = Service(path, folder, "--store", "night.db", "--connections", "1")
    with service.client() as client:
        client.add("/pools", {"id": "p", "targetDedicatedNodes": 1})
        client.add("/jobs", {"id": "j", "poolInfo": {"poolId": "p"}})
        client.add("/jobs/j/tasks", {"id": "t", "commandLine": "cat", "constraints": {"maxWallClockTime": "PT2S"}})
        wait_for(lambda: client.ask("GET", "/jobs/j/taskcounts")[1]["taskCounts"]["running"] == 1, 20)
    since, status = time.monotonic(), None
    with contextlib.suppress(subprocess.TimeoutExpired):
        status, _ = service.ended(40)
    checks.check(f"wall: the program ends with {status}, {time.monotonic() - since:.1f} s after its last connection", status == 0)
    service.kill()
    tables = exported(path, os.path.join(folder, "night.db"))
    checks.check("wall: the hanging task was ended by its wall time", "\ntask j t completed failure wall " in tables, tables)


def output(folder, runs):
    """What the task t of job j has written, in each folder of runs."""
    return [text_of(place, "stdout.txt") for place, _, _ in os.walk(os.path.join(folder, runs)) if os.path.basename(os.path.dirname(place)) == "t"]


def both(checks, path, folder, what, words):
    """Two services in one folder, each with a task that has a word of its own."""
    services = [Service(path, folder, *each) for each in words]
    for service, word in zip(services, ("one", "two")):
        with service.client() as client:
            client.add("/pools", {"id": "p", "targetDedicatedNodes": 1})
            client.add("/jobs", {"id": "j", "poolInfo": {"poolId": "p"}})
            client.add("/jobs/j/tasks", {"id": "t", "commandLine": f"echo {word}"})
    came = all([comes_to(service, 20, succeeded=1)[0] for service in services])
    for service in services:
        service.kill()
    checks.check(f"two: {what}: each has its task run", came)


def two(checks, path, folder):
    """Two services in one folder."""
    service = Service(path, folder, "--store", "night.db")
    status, text, lines = finished(path, folder, "serve", "--port", "0", "--store", "night.db")
    checks.check(f"two: over one store, the second is refused: status {status}, {lines}", (status, text) == (5, "") and "store fault" in lines)
    checks.check("two: and the first one goes on", service.ask("GET", "/pools")[0] == 200)
    service.kill()
    both(checks, path, folder, "over two stores", (["--store", "a.db"], ["--store", "b.db"]))
    texts = [output(folder, "a.db-runs"), output(folder, "b.db-runs")]
    checks.check("two: over two stores, each run has its own files", texts == [["one\n"], ["two\n"]], texts)
    both(checks, path, folder, "without a store", ([], []))
    texts = sorted(output(folder, "batch-runs"))
    checks.check("two: without a store, each run has its own files", texts == ["one\n", "two\n"], texts)


def page_request(port, origin):
    """What a browser sends for `fetch` with a text, in a page of another place."""
    body = '{"id":"evil","targetDedicatedNodes":1}'
    fields = [f"Host: 127.0.0.1:{port}", "Connection: keep-alive", f"Content-Length: {len(body)}", 'sec-ch-ua: "Chromium";v="118", "Not=A?Brand";v="99"',
              "sec-ch-ua-mobile: ?0", "User-Agent: Mozilla/5.0 (X11; Linux x86_64) AppleWebKit/537.36 (KHTML, like Gecko) Chrome/118.0.0.0 Safari/537.36",
              'sec-ch-ua-platform: "Linux"', "Content-Type: text/plain;charset=UTF-8", "Accept: */*", f"Origin: {origin}", "Sec-Fetch-Site: cross-site",
              "Sec-Fetch-Mode: no-cors", "Sec-Fetch-Dest: empty", f"Referer: {origin}/", "Accept-Encoding: gzip, deflate, br", "Accept-Language: en-US,en;q=0.9"]
    return "\r\n".join(["POST /pools HTTP/1.1", *fields, "", body]).encode()


def all_of(connection):
    """What comes until the connection ends; None if it does not within 20 s."""
    text = b""
    connection.settimeout(20)
    try:
        while part := connection.recv(4096):
            text += part
    except ConnectionResetError:
        pass
    except TimeoutError:
        return None
    return text


def browser(checks, path, folder):
    """A page that is open on the machine asks for a pool."""
    service = Service(path, folder, "--store", "night.db")
    for origin in ("https://example.org", "null"):
        with socket.create_connection(("127.0.0.1", service.port), timeout=20) as connection:
            connection.sendall(page_request(service.port, origin))
            text = all_of(connection)
        first = (text or b"").split(b"\r\n")[0]
        checks.check(f"browser: the bytes of one with `Origin: {origin}` are answered {first}, and the connection ends",
                     first == b"HTTP/1.1 403 Forbidden" and b'"code":"OriginRefused"' in text, text)
    program = next(filter(None, map(shutil.which, ("chromium", "chromium-browser", "google-chrome"))), None)
    if program is None:
        print("skipped browser: Chromium is not installed, so only its bytes are sent")
    else:
        with open(os.path.join(folder, "page.html"), "w", encoding="utf-8") as it:
            it.write(f"<script>fetch('http://127.0.0.1:{service.port}/pools', {{method: 'POST', body: '{{\"id\":\"evil\"}}'}})</script>")
        subprocess.run([program, "--headless", "--no-sandbox", "--disable-gpu", f"--user-data-dir={folder}/profile", "--virtual-time-budget=5000",
                        "--dump-dom", f"file://{folder}/page.html"], capture_output=True, timeout=60, check=False)
    pools = service.ask("GET", "/pools")[1]["value"]
    checks.check("browser: no pool was added", pools == [], pools)
    service.kill()


def words(checks, path, folder):
    """Starts that are refused, and what is said of them."""
    service = Service(path, folder)
    missing = os.path.join(folder, "no-such-folder", "night.db")
    for what, line, status, told in (
        ("a port that is taken", ["serve", "--port", str(service.port)], 3, "port fault"),
        ("a folder that is not there", ["serve", "--port", "0", "--store", missing], 5, "store fault"),
        ("a file that is not there", ["export", "--store", os.path.join(folder, "none.db")], 5, "store fault"),
    ):
        ended, text, lines = finished(path, folder, *line, seconds=20)
        checks.check(f"words: {what}: status {ended}, {lines}", (ended, text) == (status, "") and told in lines and len(lines) >= 2)
    checks.check("words: `export` makes no file", not os.path.exists(os.path.join(folder, "none.db")))
    ended, _, lines = finished(path, folder, "replay", "--store", "made.db")
    checks.check(f"words: `replay` says that it made the file: {lines}", ended == 0 and "made.db" in " ".join(lines))
    ended, _, lines = finished(path, folder, "serves")
    options = ("--seats", "--journal", "--store", "--port", "--doors", "--connections", "batch child", "batch serve")
    checks.check("words: the usage has `serve` with its options, and `child`", ended == 2 and all(each in "\n".join(lines) for each in options), lines)
    service.kill()


def seconds_until_end(connection, since, limit):
    """Seconds until the peer ends the connection; None if it does not within the limit."""
    connection.settimeout(1)
    while time.monotonic() - since < limit:
        try:
            if not connection.recv(65536):
                return time.monotonic() - since
        except TimeoutError:
            pass
        except OSError:
            return time.monotonic() - since
    return None


def within(seconds, least):
    return seconds is not None and least - 1 <= seconds <= least + MORE


def answers_again(service):
    return wait_for(lambda: service.ask("GET", "/pools", patience=20)[0] == 200, 20)


def drips(checks, path, folder):
    """A client sends a byte each second."""
    os.mkdir(folder)
    service = Service(path, folder, "--doors", "1")
    with socket.create_connection(("127.0.0.1", service.port), timeout=20) as connection:
        since, seconds = time.monotonic(), None
        for byte in b"GET /pools HTTP/1.1\r\nHost: localhost\r\nX-Slow: " + b"x" * 100:
            try:
                connection.sendall(bytes([byte]))
            except OSError:
                seconds = time.monotonic() - since
                break
            seconds = seconds_until_end(connection, time.monotonic(), 1)
            if seconds is not None:
                seconds = time.monotonic() - since
                break
    checks.check(f"slow: a client that sends a byte each second is cut off after {seconds and round(seconds)} s", within(seconds, MESSAGE))
    checks.check("slow: and its door serves another one", answers_again(service))
    service.kill()


def idles(checks, path, folder):
    """A kept connection is idle."""
    os.mkdir(folder)
    service = Service(path, folder, "--doors", "1")
    with socket.create_connection(("127.0.0.1", service.port), timeout=20) as connection:
        connection.sendall(b"GET /pools HTTP/1.1\r\nHost: localhost\r\n\r\n")
        seconds = seconds_until_end(connection, time.monotonic(), IDLE + 2 * MORE)
    checks.check(f"slow: an idle connection is ended after {seconds and round(seconds)} s", within(seconds, IDLE))
    checks.check("slow: and its door serves another one", answers_again(service))
    service.kill()


def takes_nothing(checks, path, folder):
    """A client asks for long lists, and takes no byte of them."""
    os.mkdir(folder)
    service = begun(path, folder, "--doors", "1")
    service.ask("POST", "/jobs/j/disable", {"disableTasks": "requeue"})
    add_tasks(service, "true " + "x" * 8000, 1000)
    with socket.socket() as connection:
        connection.setsockopt(socket.SOL_SOCKET, socket.SO_RCVBUF, 4096)
        connection.connect(("127.0.0.1", service.port))
        connection.sendall(b"GET /jobs/j/tasks HTTP/1.1\r\nHost: localhost\r\n\r\n" * 4)
        since = time.monotonic()
        # the only door is free again once this connection has ended
        came = wait_for(lambda: is_answered(service), MESSAGE + 2 * MORE, 0.2)
        seconds = time.monotonic() - since
    checks.check(f"slow: a client that does not take its answer keeps its door for {seconds:.0f} s", came and within(seconds, MESSAGE))
    service.kill()


def is_answered(service):
    with contextlib.suppress(OSError):
        return service.ask("GET", "/pools", patience=2)[0] == 200
    return False


def slow(checks, path, folder):
    """Slow clients, each with a service of its own."""
    def run(one):
        with checks.part(one.__name__):
            one(checks, path, os.path.join(folder, one.__name__))
    parts = [threading.Thread(target=run, args=(one,)) for one in (drips, idles, takes_nothing)]
    for each in parts:
        each.start()
    for each in parts:
        each.join()
