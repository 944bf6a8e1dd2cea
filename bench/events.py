#!/usr/bin/env python3
"""Writes JSON Lines of events as an event service writes them, from a seed, to standard output.

usage: events.py BYTES [SEED]
"""
import json
import random
import sys

KINDS = ["PushEvent"] * 50 + ["CreateEvent"] * 20 + ["WatchEvent"] * 15 + ["IssuesEvent"] * 10 + ["ForkEvent"] * 4 + ["ReleaseEvent"]
WORDS = "fix add update remove test docs build parser index scan log page chain épée naïve 日本 merge".split()


def event(rng, number):
    kind = rng.choice(KINDS)
    user = rng.randrange(1, 200_000)
    payload = {"PushEvent": lambda: {"push_id": rng.randrange(1 << 40), "size": rng.randrange(0, 40),
                                     "commits": [{"sha": "%040x" % rng.getrandbits(160), "distinct": rng.random() < 0.9,
                                                  "message": " ".join(rng.choices(WORDS, k=rng.randrange(3, 12)))}
                                                 for _ in range(rng.randrange(1, 4))]},
               "CreateEvent": lambda: {"ref": None, "ref_type": "branch", "description": "a \"quoted\" text\n"},
               "WatchEvent": lambda: {"action": "started"},
               "IssuesEvent": lambda: {"action": "opened", "issue": {"number": rng.randrange(1, 9999), "score": rng.random() * 10}},
               "ForkEvent": lambda: {"forkee": {"id": rng.randrange(1 << 30), "private": False}},
               "ReleaseEvent": lambda: {"action": "published", "draft": rng.random() < 0.5}}[kind]()
    return {"id": str(2_489_651_045 + number), "type": kind,
            "actor": {"id": user, "login": "user%d" % user, "url": "https://api.example.org/users/user%d" % user},
            "repo": {"id": rng.randrange(1 << 28), "name": "user%d/repo%d" % (user, rng.randrange(100))},
            "payload": payload, "public": rng.random() < 0.95, "created_at": "2015-01-01T15:%02d:%02dZ" % (number // 60 % 60, number % 60)}


def main():
    size = int(sys.argv[1])
    rng = random.Random(int(sys.argv[2]) if len(sys.argv) > 2 else 1)
    written = number = 0
    while True:
        line = (json.dumps(event(rng, number), separators=(",", ":"), ensure_ascii=False) + "\n").encode()
        if written + len(line) > size:
            return
        sys.stdout.buffer.write(line)
        written += len(line)
        number += 1


main()
