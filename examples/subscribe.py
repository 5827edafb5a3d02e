#!/usr/bin/env python3
"""Prints the events of topics, a line for each, until it is interrupted: examples/subscribe.py plant.hall.heat

    plant.hall.heat [21, "north"]
"""
import json
import sys
from wamp import Session, arguments

SUBSCRIBE = 32


def main():
    words = arguments(__doc__)
    words.add_argument("--match", choices=("exact", "prefix", "wildcard"), default="exact", help="how TOPIC is matched (%(default)s)")
    words.add_argument("--retained", action="store_true", help="begin with the retained events that match")
    words.add_argument("--count", type=int, default=0, metavar="N", help="end after N events")
    words.add_argument("topics", metavar="TOPIC", nargs="+")
    said = words.parse_args()
    session = Session(said.host, said.port, said.realm)
    topics = {}
    for topic in said.topics:
        topics[session.request(SUBSCRIBE, {"match": said.match, "get_retained": said.retained}, topic)] = topic
    print("subscribed to", *said.topics, file=sys.stderr, flush=True)
    heard = 0
    while not said.count or heard < said.count:
        subscription, details, args, named = session.event()
        # The details name the topic where the subscription is of a pattern.
        line = [details.get("topic", topics[subscription]), json.dumps(args, ensure_ascii=False)]
        print(*line, *([json.dumps(named, ensure_ascii=False)] if named else []), flush=True)
        heard += 1
    session.leave()


if __name__ == "__main__":
    try:
        main()
    except OSError as why:
        sys.exit(f"subscribe.py: {why.strerror or why}")
    except KeyboardInterrupt:
        pass
