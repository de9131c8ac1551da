#!/usr/bin/env python3
"""Compares the alerts and the dashboard of deploy/ with the metrics of the program, and tries the alerts' cases.

  tests/test_alerts.py [PROGRAM]

Each metric and each label's value that deploy/alerts.yml and deploy/dashboard.json name has to be in what a server of
PROGRAM prints at /metrics, but for those of Prometheus itself and of node_exporter. Each alert needs a case in
deploy/alerts_test.yml in which it fires. Where promtool is installed (of Debian's prometheus) it tries the cases, and
reads each query of the dashboard. Prints what differs, and last 'N passed, M failed'.
"""
import json
import re
import shutil
import subprocess
import sys
import urllib.request

sys.dont_write_bytecode = True  # nothing is left beside this script
from kit.network import free_port, LOCAL, run_cases, Server, TALLY
from kit.repository import ROOT
from kit.uploads import folder_in

DEPLOY = ROOT / "deploy"
OTHERS = re.compile(r"up|node_\w+")
QUERY = re.compile(r"\b(up|(?:bwingest|process|node)_\w+)\b(?:\{([^}]*)\})?")
MATCHER = re.compile(r'(\w+)(?:=~|!~|!=|=)"([^"]*)"')
SCRAPED = {"job", "instance"}  # labels that Prometheus adds
COLUMNS = 24


def metrics_of(folder):
    """The metrics of a server: for each name the values of its labels."""
    status = f"{LOCAL}:{free_port()}"
    server = Server(folder_in(folder), "--until-stopped", "--recorders", "4", "--status", status)
    with urllib.request.urlopen(f"http://{status}/metrics", timeout=10) as response:
        lines = response.read().decode().splitlines()
    server.stop()
    found = {}
    for line in lines:
        name, labels = re.match(r"([\w:]+)(?:\{(.*)\})? ", line).groups() if line[0] != "#" else (None, None)
        found.setdefault(name, set()).update(MATCHER.findall(labels or ""))
    return found


def check_query(where, query, metrics):
    """What a query names exists."""
    named = [(name, labels) for name, labels in QUERY.findall(query) if not OTHERS.fullmatch(name)]
    for name, labels in named:
        TALLY.holds(f"{where}: {name}", name in metrics, "no server prints it")
        for label, values in MATCHER.findall(labels):
            for value in values.split("|") if label not in SCRAPED else ():
                TALLY.holds(f"{where}: {label}={value}", (label, value) in metrics.get(name, ()), f"{name} has none")


def alerts():
    """The names of the alerts, with their queries."""
    text = (DEPLOY / "alerts.yml").read_text()
    return re.findall(r"- alert: (\w+)\n +expr: (.*?)\n +(?:for|labels):", text, re.DOTALL)


def queries():
    """The titles of the dashboard's panels, with their queries."""
    panels = json.loads((DEPLOY / "dashboard.json").read_text())["panels"]
    return [(panel["title"], target["expr"]) for panel in panels for target in panel["targets"]]


def case_names(folder):
    """Alerts and dashboard name what a server prints, and each alert has a case."""
    metrics = metrics_of(folder)
    cases = (DEPLOY / "alerts_test.yml").read_text()
    for name, query in alerts():
        check_query(name, query, metrics)
        fires = re.search(rf"alertname: {name}\n +eval_time: \w+\n +exp_alerts:\n +- ", cases)
        TALLY.holds(name, fires, "no case in which it fires")
    for title, query in queries():
        check_query(title, query, metrics)


def case_panels(_folder):
    """The dashboard's panels have numbers of their own, and don't overlap."""
    panels = json.loads((DEPLOY / "dashboard.json").read_text())["panels"]
    TALLY.same("the panels' numbers", len({panel["id"] for panel in panels}), len(panels))
    places = [
        (x, y)
        for at in (panel["gridPos"] for panel in panels)
        for x in range(at["x"], at["x"] + at["w"])
        for y in range(at["y"], at["y"] + at["h"])
    ]
    TALLY.same("the panels' places", len(set(places)), len(places))
    TALLY.holds("the panels' width", max(x for x, _ in places) < COLUMNS, f"more than {COLUMNS} columns")


def case_promtool(folder):
    """promtool accepts the cases, and the dashboard's queries, each as a rule."""
    if not shutil.which("promtool"):
        print("promtool isn't installed: the alerts' cases aren't tried", flush=True)
        return
    rules = folder / "queries.yml"
    plain = [query.replace("$__rate_interval", "5m").replace("$instance", ".*") for _, query in queries()]
    records = [{"record": f"query:{at}", "expr": query} for at, query in enumerate(plain)]
    rules.write_text(json.dumps({"groups": [{"name": "queries", "rules": records}]}))
    for words in (("test", "rules", DEPLOY / "alerts_test.yml"), ("check", "rules", rules)):
        ran = subprocess.run(["promtool", *words], capture_output=True, text=True)
        TALLY.holds(f"promtool {words[0]}", ran.returncode == 0, ran.stdout + ran.stderr)


if __name__ == "__main__":
    sys.exit(run_cases([case_names, case_panels, case_promtool], 60))
