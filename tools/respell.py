#!/usr/bin/env python3
"""Brings this repository's own definitions and lemmas to one spelling: words in snake case, types in camel case.

usage: python3 tools/respell.py    at the top of the repository, once, after the kit's port.py

It turns whole names in .rt, .antt and .edit files below crates/ and leaves text between quotes in code alone. A lemma that
would fall together with the definition that it is about, or with a function, gets `_lem`; these stand in ODD.
"""

import os
import re

# Names whose new spelling follows from the old one: `_` for `-` and before an inner capital; a type joins its words.
PLAIN = """
Least-so-far Mask-so-far accepts-from addRow addWeight added-from added-here added-other admits-back admits-front
admitsAt affords-test agree-back ahead-digits ahead-done ahead-inside all-at all-has all-low all-mid all-positions
all-sheets allows-is aloneIn amountAt answer-same answerLine any-from any-to anyList apart-at apart-push arityOf
as-many-all at-end at-found at-sheet back-e back-stands backed-more backs-masks barSheet barring-proper bearing-chosen
bearing-long bearing-once before-asym before-is before-next before-none before-rows before-up begin-done begin-enters
begin-fits begin-same behind-here behind-is below-is below-some best-set beyond-cap bit-both bit-either bit-here
bit-low bit-open bit-other bit-same bit-set bit-there bit-two bits-from bodyLen both-and bothBarred box-fits box-kept
box-set box-shown boxAt boxOf builtIn builtInCounts by-four by-letter by-ways bytes-named call-read cap-back cap-fits
cap-read capBytes cases-map cell-open cells-other cells-read cellsAt checksAt chosen-fits chosen-set closed-cut
cond-listed cond-proper cond-shown contentFrom contentOf count-few count-is count-some count-two countReply countSaid
counting-done counting-hit counting-miss counting-pass counting-start counts-no counts-none counts-ones counts-yes
countsLine countsOf course-kept cut-behind cut-long cut-off-there cut-whole decide-largest decided-keeps
decided-largest decided-quiet decides-le differ-at differ-bit differ-less dry-cases eachList eachOf end-done
end-enters ended-there ending-other ending-some ends-inside enteredAs entries-are entries-done entries-order
entries-rows entries-start entries-weights entriesOf entry-path entryBytes exploring-begins exploring-left
exploring-over faultAt faultLine few-loads few-options few-rows few-taken fewer-spares fill-rest filled-all
filled-done filled-long filled-short filled-up filling-all filling-left filling-more filling-none fills-well
first-answers first-before first-fault first-in first-kept first-largest first-line first-long first-numbered
first-passed first-same first-scope first-sole first-there firstBarred fitSheet fits-chosen fits-from fits-less
fits-list fits-picks fits-row fits-suits fitting-proper fixed-cut fixed-one fixed-past fixed-to flip-here flip-other
follow-inner forbids-is four-back four-fits fourBytes framed-header framed-none framed-rewound framed-row framed-slot
framed-trans framed-weight free-begin free-end free-kept free-look free-next free-strike free-try fresh-back
fresh-beside fresh-lacks fresh-taken from-T from-held from-light gathering-none given-ok given-same given-step
gives-end gives-entries gives-header gives-last gives-options gives-own gives-sheet gives-sheets gives-slot
gives-weight giving-at giving-taken glue-beside glue-first glue-kept glue-marked glue-noted glue-scopes glue-second
glue-sheets glue-undone goes-there good-at good-showing good-taken half-bit has-at has-decides has-framed has-no-list
has-none has-not has-or has-sheets has-to hasList head-ends head-newest head-same head-size head-some headBytes
headLen header-back header-long header-other headerSize held-from held-is held-largest held-law held-lawful held-like
held-spared heldBy highest-is implies-is in-bearing in-cases in-points in-same in-spread inside-cells is-header
is-slot is-t is-weight isEntry isList isLoad isMake isNext isOne isOpen joined-beside joined-count joined-proper
joined-shown-first joined-shown-second judged-cases judged-err judged-ok judged-onward judged-passes keeps-admits
keeps-b keeps-decides keeps-from keeps-less keeps-listed keeps-rule keeps-within kept-before kept-decides kept-fits
kept-listed kept-now kept-rows kept-still keptFirst keyLen kind-here known-option laid-first laid-marked laid-sifted
laid-undone largest-c largest-inside largest-within layerOf layerWord least-all least-next leasts-more leb-is
left-trans length-cap length-head length-here length-mid length-of length-on length-padded length-row length-slots
level-again level-count level-is level-marks levels-back levels-begin levels-split lies-inside lies-largest lies-order
lies-settled light-from light-if light-only-if lighter-split like-first like-second line-there lines-append list-from
list-none list-to listed-from listed-is listed-long listed-row listed-to load-room loadSheet loading-proper loads-all
loads-append loads-full loads-of loads-push loads-room loadsIn loadsWith logged-same long-points long-row long-rows
long-set long-spread longer-append look-done look-same look-slot looked-at looks-are low-after low-all low-set
lowest-is lowest-like lowest-none lowest-open lowest-take ltb-is made-accepted made-few marks-no marks-none marks-yes
mask-all mask-more mask-skip mask-take masks-hold masks-more meaningOf meets-is meets-to mixed-none mixed-swapped
names-to narrow-fewer narrow-low narrow-split narrowed-all narrowed-more never-none newest-good next-is next-none
next-plan next-same next-short next-walks no-arity no-bit no-two no-weights no-weights-in noPlan noWeight none-added
none-at none-given none-held none-past none-there not-one nothingBarred nothingFits now-decides nth-showing
number-complete number-sound octets-cons octets-drop octets-take of-bearing of-load of-make-hit of-make-miss of-points
of-spread ofMake once-append once-map once-points once-set once-spread one-complete one-le one-lt one-make one-refusal
one-sound oneIn ones-more ones-one ones-opened ones-sum ones-two ones-zero only-closes onward-next onward-stands
onward-start open-bit open-cell open-count open-low open-real open-same open-there open-to opened-lt opened-same
openedAt opens-is option-row optionAt options-at options-long options-once options-sizes optionsIn optionsOf
optionsSaid or-none or-one other-same other-walks others-all others-is others-long others-more others-second
padded-front paired-beside paired-marks paired-noted paired-proper paired-shown-first paired-shown-second
paired-undone part-is part-push part-unused parts-push partsFrom passed-more passing-from passing-to pending-none
pending-one pending-plan pending-split picked-cons picked-from picked-tail picks-fits place-back placed-is placed-to
places-append places-push plain-problem plan-front plan-given plans-are posed-fresh possible-free problemIn properOf
reached-none read-so readAs readAt reading-here reading-more reading-none reads-decides reads-fall reads-sample
readsAs real-to record-here recordAt recordOf refused-so refused-stays refused-there refuses-so remembered-same
replyLine rest-here rest-is rest-low rest-passed restricted-same rests-all rests-found rests-more rests-none
rewound-more rewound-none rewound-still room-marks round-left rounds-left row-among row-entry row-good row-known
row-lacks row-long row-newest row-stood row-there rowBytes rowCount rowRead rows-after rows-push rowsBefore rowsIn
rowsUnder rule-there run-back run-into run-rows run-weights running-end running-into running-trans runs-apart
runs-more said-is same-arity same-cells same-decides same-is same-level same-make same-position same-slot same-sym
same-to sample-cases sampleFile saved-back saved-marked saved-more saved-set saved-tries scope-apart scope-back
scope-front scope-here scope-is scope-known scope-low scope-shown scope-there scopeAt scopeIn scopeRead scoped-done
scoped-taken scopes-well second-answers second-kept second-part second-scope second-there secondAt seeking-done
seeking-found seeking-hit seeking-miss seeking-pass seeking-start seen-header seen-row seen-slot seen-weight
session-lawful set-chosen set-le settled-dry settled-in settled-largest settled-supported sheet-at sheet-cases
sheet-fresh sheet-more sheet-row sheet-weight sheetBytes sheetSaid sheets-are sheets-few sheets-lie sheets-long
sheets-self sheetsIn sheetsOf short-stays showingOf shown-by-masks shown-like shown-past shown-same shownAt shownBy
shownIn shownOf shows-is shut-high shut-past shut-strike shut-try sifting-all sifting-bad sifting-from sifting-good
sifting-none signed-fits signedFour signedTwo single-is single-supported size-named sized-from sizes-more sizes-well
slot-inside slot-none slot-told slotAt slotBytes slots-are slots-few slots-inside slots-some slotsIn slotsSaid
small-16 small-bit small-fair small-fits sole-from sole-meets sole-one some-bit some-cell some-counts some-not-none
some-open some-there some-under some-under-weights spared-held spared-if spared-only-if split-place stand-decided
stand-refused started-dry stepped-none stepped-plan still-none strike-done strike-option strike-shut strike-slot
struck-done struck-opens struck-plans struck-stands sub-length suiting-more suiting-none suits-all suits-at suits-fits
suits-row sum-le summed-all summed-fair summed-fits summed-more summed-none supported-to supports-inside supports-is
supports-none supportsAt swapped-back swapped-i swapped-into swapped-j swapped-long tail-back tail-here tail-same
taken-all taken-full taken-sheets takesRows takesWeights taking-more taking-none tally-no tally-none tally-yes
then-quiet three-complete three-pos three-sound threeDigits tight-none tight-shown tight-trans to-T toCome top-gone
total-set totalFrom trailing-bit trailing-least trailing-small tried-done tried-opens tried-stands true-is try-done
try-full try-shut try-slot turn-dry turn-empty turn-found turn-spent turn-split turning-none two-apart two-complete
two-count two-ones two-sound twoByTwo twoBytes twoIn unused-are unwritten-none upheld-largest upheld-on upheld-rule
verdict-is walk-slots want-long was-decides weigh-from weigh-total weighs-well weight-among weight-back weight-drop
weight-entry weight-good weight-lacks weight-more weight-newest weight-same weight-split weight-stood weightBytes
weightIn weightOf weightRead weights-apart weights-long weights-none weightsUnder wellFilled wellScoped wellSized
wellWeighed whole-after with-bit with-one withWeight without-less without-still xs-long
""".split()

# Names with a spelling of their own.
ODD = {
    "all-unused": "all_unused_lem",
    "bit-and": "bit_and_lem",
    "bit-or": "bit_or_lem",
    "bit-xor": "bit_xor_lem",
    "both-barred": "both_barred_lem",
    "cap-of": "cap_of_lem",
    "count-said": "count_said_lem",
    "entries-end": "entries_end_lem",
    "first-barred": "first_barred_lem",
    "four_bytes": "four_bytes_lem",
    "has-list": "has_list_lem",
    "loads-with": "loads_with_lem",
    "no-plan": "no_plan_lem",
    "no-weight": "no_weight_lem",
    "nothing-barred": "nothing_barred_lem",
    "nothing-fits": "nothing_fits_lem",
    "opened-at": "opened_at_lem",
    "option-at": "option_at_lem",
    "row-at": "row_at_lem",
    "row_read": "row_read_lem",
    "scope-read": "scope_read_lem",
    "sheet-said": "sheet_said_lem",
    "shown-at": "shown_at_lem",
    "takes-rows": "takes_rows_lem",
    "takes-weights": "takes_weights_lem",
    "try-option": "try_option_lem",
    "two_bytes": "two_bytes_lem",
    "weight-at": "weight_at_lem",
    "weight-read": "weight_read_lem",
    "worked-examples": "worked_examples_lem",
}


def spelled(name):
    if name[0].isupper():
        return "".join(part[0].upper() + part[1:] for part in name.split("-"))
    name = name.replace("-", "_")
    return re.sub(r"(?<=[a-z0-9])([A-Z])(?=[a-z])", lambda m: "_" + m.group(1).lower(), name)


def turned(text, code):
    table = {name: spelled(name) for name in PLAIN} | ODD
    edge = "\\w'\u2260\u2261\u2262\u2192\u25cc-"
    # behind `c.` and `w.` stand names that the check makes
    name = re.compile(f"(?<![{edge}])(?<!\\b[cw]\\.)[A-Za-z][\\w'-]*(?![{edge}])")

    def turn(part):
        return name.sub(lambda m: table.get(m.group(0), m.group(0)), part)

    if not code:
        return turn(text)
    parts = re.split(r'("(?:[^"\\\n]|\\.)*")', text)
    return "".join(part if i % 2 else turn(part) for i, part in enumerate(parts))


def main():
    for folder, dirs, files in os.walk("crates"):
        dirs[:] = [d for d in dirs if d != "out"]
        for file in files:
            if file.endswith((".rt", ".antt", ".edit")):
                path = os.path.join(folder, file)
                with open(path, encoding="utf-8") as f:
                    old = f.read()
                new = turned(old, file.endswith(".rt"))
                if new != old:
                    with open(path, "w", encoding="utf-8") as f:
                        f.write(new)


main()
