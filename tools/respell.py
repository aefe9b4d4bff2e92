#!/usr/bin/env python3
"""Respells this repository's own definitions, lemmas and fields: words in snake case, so figureOf is figure_of and in-node is in_node.

usage: python3 tools/respell.py        at the top of the repository, once, right after port.py

Types keep their names, and so do the functions of src/ and whatever the checker names itself. A name that falls together with
another is in APART. Files of must-fail/ are respelled too, since an edit may quote a definition."""

import os
import re

# names that the rule alone would give to two things: a lemma that would have its definition's name ends in _lem
APART = {
    "figure-at": "figure_at_lem",
    "is-smallest": "is_smallest_lem",
    "links-section": "links_section_lem",
    "number-in": "number_in_lem",
    "states-section": "states_section_lem",
    "whole-answer": "whole_answer_lem",
    "eqZ": "same_int",
    "decides-eqZ": "decides_same_int",
}

NAMES = """
accepts-complete accepts-sound addAnswer after-it alike-in alike-place alike-relating all-each all-even all-leaf all-to
all-union allowed-is allowed-ok and-regroup and-true as-leaf as-record as-set at-below below-high below-low
blind-joining blind-order block-holds block-is block-known block-low born-end born-filled born-leaf by-age by-figure
by-fold by-label-joining by-label-order by-sort-joining by-sort-order byLabel bySort bytes-3 bytes-7 bytesOf-numeral
cell-low chain-none chart-lawful chart-small come-alike come-together count-agree count-back count-bound count-is
count-like count-means count-more count-rises count-up count-within counted-more counted-perm counting-below cut-like
cut-read cutting-gather cutting-label cutting-more cutting-start decides-each decides-eqZ decides-place each-push
earliest-least earliest-like earliest-low earliest-same encode-sections end-within eqZ even-back even-more evened-same
every-below every-pushed few-groups few-links few-states field-complete field-read field-same field-sound figure-at
figureAt figureIn figureOf first-least foldsTo follows-done follows-stop from-here from-later gather-as gather-joins
gather-like gather-push gather-shuffled gather-skip gather-some gather-stay gather-swap goodLink goodState
greatest-joining greatest-most greatest-order group-leaves group-means groupAnswer groupCount groupNumber groupNumbers
grouped-here grouped-length groups-are groups-more has-figure head-short here-low holdsPlace holdsWithin howMany
idle-is-even idle-start idle-still in-high in-low in-size2 inNode inRound indexed-like into-at into-below into-class
into-none into-range into-same into-split is-smallest isSmallest isSplit item-2 item-3 items-complete items-many
items-same items-sized items-sound kept-below kept-stretchAt kind-in kinds-are label-in label-low label-out laid-append
laid-between laid-past leader-is leader-no leader-yes leads-itself leaf-coarse leaf-end leaf-fair leaf-held leaf-low
leaf-open leaf-split length-below length-bytesOf length-laid length-numbers length-parts level-alike line-length
lines-done lines-short link-added link-low link-read link-same linkAnswer linkBytes linkFields linkItems linkingAnswer
links-are links-section links-step links-stop linksEnd linksFrom linksPlace linksRefusal linksSection listed-length
low-place lowers-after lowers-next mark-keeps mark-left mark-other mark-same markAt marker-low markers-more max-fits
members-are more-new more-old most-cons most-first most-fits most-over most-push most-swap new-block new-count
new-members new-node new-number new-open new-smallest next-count next-is nextAfter noSystem nodeAnswer nodeAt not-parted
now-at now-first now-next number-in number-means numbered-few numbered-long numbered-none numbersAfter numeral-bytesOf
numeral-lt of-i of-j offset-2 offset-3 offset-7 old-count old-end old-keeps old-number old-split old-start one-is-even
one-sort open-leaf outputOf outside-back outside-none part-holds passes-look passes-whole reach-joining reach-order
reached-cons reached-step reached-swap read-filled read-within readView reads-link reads-state record-next record-start
records-respected records-settle refusalOf refusals-are reopenAnswer report-short reportAnswer reportBuffer reportOf
reportText room-left round-at round-length round-low round-twice rounds-mean rounds-refined rounds-settle same-cell
same-folded same-is same-items same-leads same-links same-look same-members same-most same-node same-redirected
same-shown same-smallest same-smallests sameKind section-same sectionBytes sectionOf set-len set-placed set-swapped
settlementOf shown-start shuffled-append shuffled-middle slack-mark slack-push slack-set slackOf smallest-least
smallest-like smallest-passes smallest-same smallest-under sofar-all sofar-none sort-end sort-like sort-none sort-skip
sort-take sortAt sortOf sourceAt split-even split-evened split-is-even split-kept split-now split-still start-at
start-holds start-length start-never start-unsplit start-within startNodes starts-all starts-no starts-yes startsBelow
state-added state-in state-low state-same state-sides stateAnswer stateAt stateBytes stateFields stateItems states-are
states-found states-in states-section states-step states-stop statesEnd statesPlace statesRefusal statesSection stays-in
stays-or-grows step-no step-yes still-even stretchAt sum-cons sum-joining sum-order sum-push sum-swap swapped-back
swapped-fore swapped-low swapped-low-place swapped-perm systemIn systemOf tablePlace taken-some targetAt timed-joining
timed-order union-high union-low unsplit-new unsplit-other walk-in walk-on walk-other walk-past walk-to was-at was-same
was-there whenOpen whenSettled whole-answer whole-cut whole-front whole-grows whole-sorted wholeAnswer wholeBuffer
withLink withState within-look within-whole wrote-exit wrote-not wrote-stop wrote-text wrote-whole
""".split()

TOKEN = re.compile(r"(?<![A-Za-z0-9_'«-])[a-z][A-Za-z0-9_'-]*")


def respelled(name):
    if name in APART:
        return APART[name]
    return re.sub(r"(?<=[a-z0-9])[A-Z]", lambda m: "_" + m.group(0).lower(), name).replace("-", "_")


def main():
    table = {name: respelled(name) for name in NAMES}
    new = sorted(table.values())
    assert len(set(new)) == len(new), [n for n in new if new.count(n) > 1]
    for folder, dirs, files in os.walk("crates"):
        dirs[:] = sorted(d for d in dirs if d != "out")
        for name in sorted(files):
            if not name.endswith((".antt", ".rt", ".edit")):
                continue
            path = os.path.join(folder, name)
            with open(path, encoding="utf-8") as f:
                old = f.read()
            text = TOKEN.sub(lambda m: table.get(m.group(0), m.group(0)), old)
            if text != old:
                with open(path, "w", encoding="utf-8") as f:
                    f.write(text)


main()
