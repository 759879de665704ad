#!/usr/bin/env python3
"""Brings the repository's own names in contracts, specs/ and proofs/ to the spelling of Rattle since kit 13: words in snake case,
facts and types in camel case, and a dash only where it joins the names of two things in a lemma's name.

usage: python3 tools/respell_names.py [--write]    at the top of the repository, once, after the kit's own port.py

It was run once, when the repository moved from kit 8b to kit 13f; docs/PORT.md has the commits. It changes whole names alone, and
neither comments nor strings nor the code of functions, whose names have no dash. It stops where two names of one file of specs/ or
proofs/ would fall together. A name that the check makes and that reads like one of ours is turned too: `auto.at-end` in one answer of
`tables` was put back by hand.
"""

import os
import re
import sys

# Names whose new spelling is not just `_` for `-`: facts keep their capital, and a dash joins two names.
SPECIAL = {
    "All-ahead": "AllAhead",
    "All-within": "AllWithin",
    "Read-back": "ReadBack",
    "Written-is-read": "WrittenIsRead",
    "apart-add": "Apart-add",
    "apart-appended": "Apart-appended",
    "apart-drop": "Apart-drop",
    "apart_out": "Apart-out",
    "apart-push": "Apart-push",
    "apart-put": "Apart-put",
    "apart-removed": "Apart-removed",
    "apart-set": "Apart-set",
    "misses-appended": "Misses-appended",
    "misses-push": "Misses-push",
    "misses-removed": "Misses-removed",
    "misses-set": "Misses-set",
    "sound-put": "Sound-put",
    "sound-freed": "Sound-freed",
    "length-queue": "length-queue",
    "over-over": "over-over",
    "take-over": "take-over",
    "written-is-read": "written_is_read_lem",  # the function that states it is written_is_read
}

# The others: definitions, constructors, fields and lemmas.
PLAIN = """
add-by add-distinct add-in add-rows add-there address-code address-fault address-in address-of apart-fault around-apart around-below
around-next around-same at-comment at-element at-end at-end-long at-end-short at-zero before-none clock-of closed-apart closed-len
closed-memory closed-octets closed-sendable closed-walk comment-first cond-whole connected-to discriminator-fault discriminator-of
drop-behind drop-one element-alike element-at element-octets element-then entries-in excluded-rows fault-appended fault-in filled-here
first-filled first-in first-is form-fault front-part gateway-of got-none got-some grown-by grown-end has-added has-form has-point
has-way headed-len header-fault heard-as heard-octet image-add image-appended image-cond image-looked image-out image-place image-put
image-removed in-front indicated-alike is-ahead is-ip is-listed is-unlisted item-octets kept-carrying kept-key kept-rows keys-drop
keys-removed left-added left-of left-sound link-of long-at long-part looked-at looked-by looked-cond looked-first looked-none
looked-out looked-push looked-put looked-up map-counting-alike may-use message-in message-of message-written needed-fault
needs-address needs-at-zero no-connection no-octet no-tunnel nth-place number-if octet-alike octet-at octet-first octet-of octet-step octet-then
octet-value octets-in of-countdown of-moments of-ring onward-same onward-whole open-len open-memory opened-none opened-octets
opened-sound others-in out-by out-distinct out-gone out-rows over-before over-len part-is part-octets parts-appended past-octet
past-place past-white place-first place-from place-there places-apart point-code points-in put-at put-by put-distinct put-rows
put-there queue-freed queue-none queue-put queue-sized queue-split read-fault request-accept request-reject result-cases short-at short-part size-fault size-large
size-octets size-wide size-written sized-then some-place sound-as taken-length then-check three-then ticks-between ticks-to to-gateway
tunnelled-to type-fault type-heard type-in type-octet type-of type-uses use-fault used-fault uses-decide uses-fault value-then
walk-alike walk-bad walk-by walk-by-alike walk-by-same walk-by-whole walk-ok white-at white-first white-step ys-size
""".split()

NEW = {name: name.replace("-", "_") for name in PLAIN} | SPECIAL
TOKEN = re.compile(r"[^\W\d][\w']*(?:-[\w']+)*")


def skipped(text, ending):
    """The parts of a text that stay: comments, and strings of a source."""
    if ending == ".antt":
        return re.compile(r"--[^\n]*").finditer(text)
    return re.compile(r'//[^\n]*|"(?:[^"\\\n]|\\.)*"').finditer(text)


def respell(text, ending):
    out, last = [], 0
    for part in list(skipped(text, ending)) + [None]:
        end = part.start() if part else len(text)
        out.append(TOKEN.sub(lambda m: NEW.get(m.group(0), m.group(0)), text[last:end]))
        if part:
            out.append(part.group(0))
            last = part.end()
    return "".join(out)


def files(top):
    for folder, folders, names in os.walk(os.path.join(top, "crates")):
        folders[:] = sorted(f for f in folders if f not in ("out", "must-fail"))
        for name in sorted(names):
            if name.endswith((".rt", ".antt")):
                yield os.path.join(folder, name)


def main():
    top = os.getcwd()
    texts = {path: open(path, encoding="utf-8").read() for path in files(top)}
    together = False
    for path, text in texts.items():
        ending = os.path.splitext(path)[1]
        plain = list(skipped(text, ending))
        bare = text
        for part in reversed(plain):
            bare = bare[: part.start()] + " " + bare[part.end() :]
        words = set(TOKEN.findall(bare))
        for old in words & set(NEW):
            if NEW[old] != old and NEW[old] in words and ending == ".antt":
                print(f"{path}: {old} would fall together with {NEW[old]}")
                together = True
    if together:
        raise SystemExit("nothing was changed")
    if "--write" not in sys.argv[1:]:
        return
    for path, text in texts.items():
        new = respell(text, os.path.splitext(path)[1])
        if new != text:
            with open(path, "w", encoding="utf-8") as f:
                f.write(new)


main()
