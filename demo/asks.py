#!/usr/bin/env python3
"""Asks three questions through `tp serve`, and prints the soonest journey of each.

    python3 demo/asks.py tp serve --feed demo/town --date 20270601 --store town.store --format json

The words after the name of this file start the planner. It replies to each question with one line, an object of docs/answer.schema.json.
"""
import json
import subprocess
import sys
import time

DATE = "20270601"
QUESTIONS = (("PIER", "LIGHT", "08:00:00"), ("HOSP", "MER", "07:50:00"), ("PIER", "LIGHTHOUSE", "08:00:00"))


def ask(planner, *question):
    """The reply to a question. If the store lacks a tree that the reply needs, the question is asked again."""
    while True:
        print(*question, sep="\t", file=planner.stdin, flush=True)
        reply = json.loads(planner.stdout.readline())
        if reply.get("fault", {}).get("code") != "Q3":
            return reply
        time.sleep(0.1)


def shown(reply):
    """One line for people. Journeys stand by rising rides, and each arrives sooner than the one before it."""
    if "fault" in reply:
        return f"{reply['fault']['name']} {reply['fault']['id']}"
    places = f"{reply['from']['name']} to {reply['to']['name']}"
    if not reply["journeys"]:
        return f"{places}: no journey"
    last = reply["journeys"][-1]
    return f"{places}: there at {last['arrival']['iso'][11:16]}, rides {last['rides']}"


with subprocess.Popen(sys.argv[1:], stdin=subprocess.PIPE, stdout=subprocess.PIPE, text=True) as planner:
    for start, end, at in QUESTIONS:
        print(shown(ask(planner, start, end, DATE, at)), flush=True)
