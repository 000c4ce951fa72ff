#!/usr/bin/env python3
"""Spells the repository's own definitions as today's Rattle does: functions in snake case.

usage: python3 tools/spelling.py [FOLDER]     FOLDER is the top of a checkout in which port.py has run; the default is the current folder

Turns whole words in crates/**/*.antt, *.rt and *.edit, in code and comments, and nothing between quotes. A name with dashes is turned part by part, as countTo-none is.
Two lemmas have the name that a function gets, and go back to their dash first. Where no old name is left it changes nothing.
"""

import os
import re
import sys

# old and new, whole words
NAMES = """
againstPicks against_picks; countTo count_to; upTo up_to; allFour all_four; allTo all_to; answerFrom answer_from; answerTold answer_told; arcBad arc_bad; arcCount arc_count;
arcFrom arc_from; arcGround arc_ground; arcGrounds arc_grounds; arcIn arc_in; arcOf arc_of; arcPlaces arc_places; arcRefusal arc_refusal; arcTime
arc_time; arcTo arc_to; arcWord arc_word; arcsAt arcs_at; arcsFrom arcs_from; arcsInto arcs_into; arcsOf arcs_of; arrivalsAt arrivals_at; askGrounds
ask_grounds; askLine ask_line; askNumber ask_number; askWord ask_word; askingBad asking_bad; askingFault asking_fault; askingGrounds asking_grounds;
atFirst at_first; baseFor base_for; basesAt bases_at; beginAt begin_at; boundHere bound_here; checkedFrom checked_from; checkedOf checked_of;
checkedTold checked_told; climbBy climb_by; clockArea clock_area; clockArrival clock_arrival; clockPin clock_pin; clocksAt clocks_at; countAt
count_at; countBad count_bad; countInto count_into; countOver count_over; countTo-gather count_to-gather; countTo-more count_to-more; countTo-most
count_to-most; countTo-none count_to-none; countTo-skip count_to-skip; countTo-sum count_to-sum; countTo-those count_to-those; countsAt counts_at;
creditDown credit_down; creditFrom credit_from; creditGiven credit_given; creditIn credit_in; creditOf credit_of; creditsAt credits_at; dataPin
data_pin; delayBad delay_bad; depthsAt depths_at; designLine design_line; designWord design_word; digitsBy digits_by; driverFor driver_for; driverIn
driver_in; driversAt drivers_at; dueCount due_count; dueGrounds due_grounds; dueIn due_in; dueLine due_line; dueNumbers due_numbers; dueOf due_of;
endNumbersBad end_numbers_bad; endsBad ends_bad; enterAnswer enter_answer; enterFault enter_fault; enteredFrom entered_from; enteredTold entered_told;
fieldCount field_count; filledOf filled_of; firstMet first_met; firstPaths first_paths; firstTo first_to; firstsAt firsts_at; forHold for_hold;
forPicks for_picks; forSetup for_setup; foundOf found_of; fourLine four_line; fourNumbers four_numbers; fourOf four_of; fromHere from_here; fromIn
from_in; goesInto goes_into; hasTimes has_times; headLength head_length; headerBad header_bad; hintAt hint_at; hintOf hint_of; holdWord hold_word;
intoBad into_bad; intoGrounds into_grounds; intoNumbersBad into_numbers_bad; isMode is_mode; isRoot is_root; isStart is_start; kAsked k_asked; kAt
k_at; kindsBad kinds_bad; laidWith laid_with; lastByte last_byte; lastTurn last_turn; leastAt least_at; leastsAt leasts_at; lengthFor length_for;
limitsBad limits_bad; lineFrom line_from; lineGrounds line_grounds; lineKind line_kind; lineStart line_start; lineTold line_told; linesDue lines_due;
listAfter list_after; mayDrive may_drive; modeAsked mode_asked; modeAt mode_at; modeIn mode_in; mostArcs most_arcs; mostK most_k; mostPins most_pins;
mostTests most_tests; mostText most_text; mostTime most_time; mostTotal most_total; movedTimes moved_times; newCount new_count; newFront new_front;
noKind no_kind; noPath no_path; numberOr0 number_or_0; ofArc of_arc; ofPin of_pin; otherWord other_word; parentsAt parents_at; passOf pass_of;
passedOf passed_of; pathCredit path_credit; pathIn path_in; pathsOver paths_over; periodOf period_of; picksI picks_i; picksK picks_k; pinBad pin_bad;
pinCount pin_count; pinCredit pin_credit; pinFields pin_fields; pinGrounds pin_grounds; pinIn pin_in; pinKind pin_kind; pinLine pin_line;
pinNumbersBad pin_numbers_bad; pinOf pin_of; pinTime pin_time; pinWord pin_word; pinsOf pins_of; planLength plan_length; printedAnswer printed_answer;
printedLine printed_line; printedReading printed_reading; printedRoom printed_room; printedTable printed_table; rangeBad range_bad; rankTop rank_top;
rankedWalks ranked_walks; reachOf reach_of; readingFrom reading_from; readingTold reading_told; recordOf record_of; refusalAt refusal_at; refusalOf
refusal_of; refusedLine refused_line; roomAfter room_after; roomBad room_bad; roomFilled room_filled; roomOf room_of; roomRows room_rows; rootsBad
roots_bad; routeCredit route_credit; rowArcs row_arcs; rowLength row_length; rowNumbers row_numbers; rowRoom row_room; rowsGiven rows_given; rowsIn
rows_in; seedAt seed_at; seedFor seed_for; seedOf seed_of; seedWith seed_with; seedsAt seeds_at; setupWord setup_word; sizesBad sizes_bad; slackAt
slack_at; slackBefore slack_before; slackGiven slack_given; slackIn slack_in; slackOf slack_of; slackOfRow slack_of_row; someArrival some_arrival;
startArrival start_arrival; surveyGrounds survey_grounds; surveyOf survey_of; surveyedOf surveyed_of; tArr t_arr; tSlice t_slice; tableFault
table_fault; tableGrounds table_grounds; tableLength table_length; tableRoom table_room; tableRows table_rows; tableTo table_to; testBad test_bad;
testClock test_clock; testCount test_count; testData test_data; testGrounds test_grounds; testHold test_hold; testPaths test_paths; testSeed
test_seed; testSetup test_setup; testWord test_word; testsOf tests_of; textFault text_fault; textGrounds text_grounds; threeOf three_of; turnsAt
turns_at; turnsEnd turns_end; upTo-before up_to-before; upTo-le up_to-le; upTo-more up_to-more; upTo-none up_to-none; valueFrom value_from; walkAt
walk_at; walkIn walk_in; walksBy walks_by; walksOver walks_over; waysBy ways_by; weightIn weight_in; weightOf weight_of; wellFormed well_formed;
withArc with_arc; withClocking with_clocking; withEnds with_ends; withSeed with_seed; wordHere word_here; wordOf word_of; workAfter work_after;
workLength work_length; workOf work_of
"""

# lemmas and fields whose name would be that of a function: the folder, old, new
APART = [
    ("crates/walker/specs/", "from_in", "from-in"),
    ("crates/walker/specs/", "walk_at", "walk-at"),
]

# A module of specs/ may not be called Contracts: its file and the paths to it.
MOVED = ("crates/timing/specs/Contracts.antt", "crates/timing/specs/Allows.antt")
PATHS = [("Rattle.timing.specs.Contracts.", "Rattle.timing.specs.Allows."), ("pub mod Contracts\n", "pub mod Allows\n")]

WORD = re.compile(r'"(?:[^"\\\n]|\\.)*"|[A-Za-z_][\w\'-]*')


def table():
    rows = [it.split() for it in NAMES.replace("\n", " ").split(";")]
    return {old: new for old, new in rows}


def turned(text, names):
    def one(m):
        w = m[0]
        if w[0] == '"':
            return w
        return "-".join(names.get(p, p) for p in w.split("-"))

    return WORD.sub(one, text)


def files(top):
    for folder, dirs, names in os.walk(os.path.join(top, "crates")):
        dirs[:] = sorted(d for d in dirs if d != "out")
        for f in sorted(names):
            if f.endswith((".antt", ".rt", ".edit")):
                yield os.path.join(folder, f)


def main():
    top = sys.argv[1] if len(sys.argv) > 1 else "."
    names = table()
    texts = {}
    for path in files(top):
        with open(path, encoding="utf-8") as f:
            texts[path] = f.read()
    if all(turned(text, names) == text for text in texts.values()):
        return
    for path, text in texts.items():
        new = text
        where = os.path.relpath(path, top)
        for folder, old, to in APART:
            if where.startswith(folder) and path.endswith(".antt"):
                new = re.sub(rf"(?<![\w-]){old}(?![\w'-])", to, new)
        for old, to in PATHS:
            new = new.replace(old, to)
        new = turned(new, names)
        if new != text:
            with open(path, "w", encoding="utf-8") as f:
                f.write(new)
    old, to = (os.path.join(top, it) for it in MOVED)
    if os.path.exists(old):
        os.rename(old, to)


if __name__ == "__main__":
    main()
