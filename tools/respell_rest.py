#!/usr/bin/env python3
"""Turns the names that tools/respell.py passed over: constructors and definitions that it did not see declared, and names that an import gives.

usage: python3 tools/respell_rest.py      at the top of the repository, after tools/respell.py
"""
import re

from respell import NAME, files, read

TABLE = {
    "confirmsNothing": "confirms_nothing",
    "decodedAs": "decoded_as",
    "foundAs": "found_as",
    "hearIn": "hear_in",
    "informationPart": "information_part",
    "listingOf": "listing_of",
    "masterBegun": "master_begun",
    "masterClearOf": "master_clear_of",
    "masterEndWrong": "master_end_wrong",
    "masterMakeOf": "master_make_of",
    "masterOwner": "master_owner",
    "masterPutOf": "master_put_of",
    "masterRestartOf": "master_restart_of",
    "masterTakeOf": "master_take_of",
    "mayI": "may_i",
    "onNs": "on_ns",
    "orderFrame": "order_frame",
    "roomNumber": "room_number",
    "says_no_RNR": "says_no_rnr",
    "sentIn": "sent_in",
    "slaveEndWrong": "slave_end_wrong",
    "slaveOwner": "slave_owner",
    "stepIn": "step_in",
    "stepNRM": "step_nrm",
}
# lemmas that a definition's new name would hide
LEMMAS = {"master_owner": "master_owner_lem", "slave_owner": "slave_owner_lem"}


def turn(text, table):
    return re.sub(NAME, lambda m: table.get(m[0], m[0]), text)


for path in [*files("crates", (".antt", ".rt", ".edit")), "README.md", *files("docs", ".md")]:
    old = read(path)
    new = turn(turn(old, LEMMAS) if path.startswith("crates/link/") else old, TABLE)
    if new != old:
        with open(path, "w", encoding="utf-8") as f:
            f.write(new)
