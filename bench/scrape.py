#!/usr/bin/env python3
"""A Prometheus that scrapes `tabd serve --metrics` with 256 tables, as many as a server has, and what promtool says of the page.

    scrape.py PROGRAM                     as scrape.py crates/tabd/out/tabd

Needs `prometheus` and `promtool` of Debian's package prometheus in PATH: after `apt-get download prometheus` and `dpkg-deb -x` no service is
started. Prometheus keeps its data in a folder that is removed. Each series is compared with its table: some names have quotes, line ends or
letters that are not ASCII. The status is 1 if something differs, or if promtool writes anything.
"""

import http.client
import json
import os
import shutil
import socket
import subprocess
import sys
import tempfile
import time
import urllib.parse
from typing import Any, Dict, List, Tuple

HERE = os.path.dirname(os.path.abspath(__file__))
sys.path.insert(0, os.path.join(HERE, "..", "clients", "python"))
import tabd  # noqa: E402

TABLES = 256
ODD = ['a "name"', "back\\slash", "line\nend", "return\r", "naïve", "{label=}", "", " "]
NAMES = ODD + [f"table_{number}" for number in range(TABLES - len(ODD))]
CONFIGURATION = """global:
  scrape_interval: 1s
scrape_configs:
  - job_name: tabd
    static_configs:
      - targets: ["127.0.0.1:%d"]
"""
# So long Prometheus may take to start and to scrape.
SECONDS = 60
SCRAPES = 5


def get(port: int, path: str) -> bytes:
    page = http.client.HTTPConnection("127.0.0.1", port, timeout=10)
    page.request("GET", path)
    return page.getresponse().read()


def free_port() -> int:
    with socket.create_server(("127.0.0.1", 0)) as server:
        return int(server.getsockname()[1])


def query(port: int, text: str) -> List[Tuple[Dict[str, str], float]]:
    """The value of each series that Prometheus has for a query."""
    try:
        answer = json.loads(get(port, "/api/v1/query?query=" + urllib.parse.quote(text)))
    except (OSError, ValueError):
        # It has not started yet.
        return []
    return [(found["metric"], float(found["value"][1])) for found in answer.get("data", {}).get("result", ())]


def fill(port: int) -> Dict[str, int]:
    """The number of records of each table."""
    with tabd.Client(port) as client:
        for number, name in enumerate(NAMES):
            client.create_table(name)
            if number:
                shot = client.one_shot()
                for key in range(number):
                    shot.write((name, key, 0))
                shot.run()
    return {name: number for number, name in enumerate(NAMES)}


def check_page(promtool: str, page: bytes) -> bool:
    done = subprocess.run([promtool, "check", "metrics"], input=page, stdout=subprocess.PIPE, stderr=subprocess.STDOUT)
    text = done.stdout.decode().strip()
    print(f"promtool check metrics, {len(page)} bytes: status {done.returncode}, {text or 'silent'}")
    return done.returncode == 0 and not text


def check_series(port: int, wanted: Dict[str, int]) -> bool:
    end = time.monotonic() + SECONDS
    while sum(value for _, value in query(port, "count_over_time(up[1h])")) < SCRAPES and time.monotonic() < end:
        time.sleep(0.2)
    # Prometheus drops a label whose value is empty.
    found = {metric.get("table", ""): int(value) for metric, value in query(port, "tabd_table_records")}
    failures = query(port, "sum(count_over_time(up[1h])) - sum(sum_over_time(up[1h]))")
    seconds = query(port, "max(max_over_time(scrape_duration_seconds[1h]))")
    samples = query(port, "scrape_samples_scraped")
    if not (failures and seconds and samples):
        print("Prometheus has scraped nothing")
        return False
    is_same = found == wanted and failures[0][1] == 0
    print(f"Prometheus: {SCRAPES} scrapes, {failures[0][1]:.0f} failed; {samples[0][1]:.0f} samples, in at most {1000 * seconds[0][1]:.0f} ms")
    print(f"tabd_table_records: {len(found)} series, {'each' if is_same else 'NOT each'} as its table")
    return is_same


def main() -> None:
    prometheus, promtool = shutil.which("prometheus"), shutil.which("promtool")
    if len(sys.argv) != 2 or not prometheus or not promtool:
        sys.exit(__doc__)
    server = subprocess.Popen(
        [sys.argv[1], "serve", "--port", "0", "--connections", "16", "--forever", "--metrics", "0"], stdout=subprocess.PIPE, text=True
    )
    assert server.stdout
    try:
        port, pages = (int(server.stdout.readline().rsplit(":", 1)[1]) for _ in range(2))
        wanted = fill(port)
        is_good = check_page(promtool, get(pages, "/metrics"))
        with tempfile.TemporaryDirectory() as folder:
            path, own = os.path.join(folder, "prometheus.yml"), free_port()
            with open(path, "w") as file:
                file.write(CONFIGURATION % pages)
            words = [f"--config.file={path}", f"--storage.tsdb.path={folder}/data", f"--web.listen-address=127.0.0.1:{own}", "--log.level=error"]
            scraper = subprocess.Popen([prometheus, *words], stderr=subprocess.DEVNULL)
            try:
                is_good = check_series(own, wanted) and is_good
            finally:
                end(scraper)
    finally:
        end(server)
    sys.exit(0 if is_good else 1)


def end(process: "subprocess.Popen[Any]") -> None:
    process.kill()
    process.wait()


if __name__ == "__main__":
    main()
