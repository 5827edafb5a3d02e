#!/usr/bin/env python3
"""Publishes one event, and prints the id of its publication: examples/publish.py plant.hall.heat 21 north

An ARG that is JSON is sent as what it says, any other one as a text. A broker that carries no floats refuses 21.5.
"""
import json
import sys
from wamp import Session, arguments

PUBLISH = 16


def no_json(word):
    raise ValueError(word)


def value_of(text):
    try:
        return json.loads(text, parse_constant=no_json)  # NaN and Infinity, which Python would take
    except ValueError:
        return text


def main():
    words = arguments(__doc__)
    words.add_argument("--retain", action="store_true", help="the event is kept for who subscribes later")
    words.add_argument("topic", metavar="TOPIC")
    words.add_argument("args", metavar="ARG", nargs="*", type=value_of)
    said = words.parse_args()
    session = Session(said.host, said.port, said.realm)
    options = {"acknowledge": True, **({"retain": True} if said.retain else {})}
    print("published", session.request(PUBLISH, options, said.topic, said.args))
    session.leave()


if __name__ == "__main__":
    try:
        main()
    except OSError as why:
        sys.exit(f"publish.py: {why.strerror or why}")
