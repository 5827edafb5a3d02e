#!/usr/bin/env python3
"""after.py TREE: what the table of renames can't say."""
import os
import re
import sys

CRATES = f"{sys.argv[1]}/crates"


def edit(path, change):
    with open(f"{CRATES}/{path}", encoding="utf-8") as it:
        text = it.read()
    new = change(text)
    if new != text:
        with open(f"{CRATES}/{path}", "w", encoding="utf-8") as it:
            it.write(new)


edit("eligibility/src/numbers.rt", lambda text: re.sub(r"\bids::(?=\w)", "id_set::", text))
edit("realm_inbox/src/backlog.rt", lambda text: re.sub(r"\bHeld\b", "GivenBack", text))
edit("realm_inbox/proofs/SendLemmas.antt", lambda text: text.replace("backlog.Held as Held", "backlog.GivenBack as Held"))
os.rename(f"{CRATES}/realm_core/proofs/OutboxLemmas.antt", f"{CRATES}/realm_core/proofs/SessionQueueLemmas.antt")
edit("realm_core/proofs/Lib.antt", lambda text: text.replace("OutboxLemmas", "SessionQueueLemmas"))
edit("msgpack_canonical/src/writing.rt", lambda text: re.sub(r"\bEntry\b", "WrittenEntry", text))
# A replay has no such fault any more.
os.remove(f"{CRATES}/replay/planted/bad_line_is_usage.edit")
# Modules that were named for a type.
for crate, old, new in (("arguments", "Held", "KeptArguments"), ("eligibility", "Ids", "IdSet")):
    os.rename(f"{CRATES}/{crate}/specs/body/{old}.antt", f"{CRATES}/{crate}/specs/body/{new}.antt")
