#!/usr/bin/env python3
"""Respells the repository's own definitions and lemmas, after /opt/rattle/port/port.py, as the kit spells its own.

usage: python3 tools/respell.py    once, at the top of the repository

Words are in snake case: a capital inside a name, and the dash between two words, become an underscore. Only the names
below turn, so a name of the kit, a name that the kit makes of the code (`loop-i-preserved`), a function of src/ and all
text that is no contract stay as they are. Where two names would fall together, one is given in full.
"""

import os
import re
import subprocess

FULL = {
    "carbon-capacity": "carbon_capacity_law",
    "carbon-factor": "carbon_factor_law",
    "critical-in": "critical_in_parts",
    "in-range": "capacity_in_range",
    "steel-degree": "steel_degree_within",
}

NAMES = """
above-second afterBack afterHeat afterLoad ahead-on all-below answerTo answered-more answersOf answersTo at-step
backFault badLine below-first better-y better-z between-end between-falls buckling-alike buckling-mono bucklingUse
by-ratios by-test bytes-more canGoBack capDegree capFault capacityFormula capacityFrom cappedFactor carbon-capacity
carbon-factor carbon-linear carbon-sound carbonCapacity carbonFactor carbonRows carriedCold ceil-by-parts ceil-mono
cell-falls cell-most changed-sound clamped-rises comes-to critical-at critical-in critical-is critical-parts
criticalIn criticalOf criticalUnder degreeFits digit-here digits-on digitsIn endStop ends-hot ends-right entry-least
entry-most entryIn entryTurn equal-parts factor-law fails-above fails-too fault-none fault-some few-points field-more
figuresIn figuresOf final-degree fireBelow first-at first-fails first-inside first-none first-same firstFailing
firstFailingIn firstPoints firstTurn flux-sum flux-told fourth-most free-at front-digits fullPoint gas-answers
gas-degrees gas-place gas-range gasFault gasFlux gasTells gauge-answers gauge-place gauge-range gaugeReading
gaugeTells greatest-grows greatest-is-last greatest-last greatest-most greatest-parts h-beyond heat-counts heat-told
heatAnswer heated-course heatedBy heating-done heating-more heating-starts heating-stopped highest-of holds-here
hottest-least hottest-most hottest-same hottestIn imperfection-most imperfectionOf in-hand in-range isEnded isMissing
itsFire itsSteel k-pos kept-alike kept-buckling-most kept-most keptBuckling last-at last-by-length last-not-above
lastField lastSignedField law-holds least-of length-digit length-step letterOf line-falls line-most line-start
lineTurn linear-law loadFault m-less m-pos madeAhead mean-fits mean-least mean-most mean-narrow memberFault memberTurn
more-y more-z n-less neg-times never-19 newView nextCapacity nextEnd nextLine nextReading nextStop no-buckling
no-fault no-later no-load no-points none-fails-if-not-above none-holds none-less not-above-if-none-fails not-below
not-colder not-under noted-heat noted-judged noted-told orHere outcomeOf outsideFrom passes-below passes-fades
passes-too passes-unloaded passesAt passesCold phaseBytes picked-from pointFault powers-apart product-within
radiation-within reach-at reach-is reach-least reach-left reach-on readingTurn record-more record-push recordFault
recordOf refused-same reply-told room-from-fault rounded-within roundedUp rules-alike rules-kept running-done
running-starts s-pos same-as-after same-course same-heat same-member same-stands same-trans second-fails settled-call
settled-lawful shaded-answers shaded-range shaded-within shadedReading shadingFault shadingOf sheet-capacity-law
sheet-factor-law sheet-sound sheetCapacity sheetFactor sheetFault signedBy signedWord smallestOf stageOf stateBy
steel-degree steelBelow steelDegree stepped-least stepped-most stepsIn stop-left stop-on stopAhead stopCode stopNumber
stopOf stopped-at stoppedAhead stops-at-degree stops-at-figure strutFigures tallied-more tallied-sound tally-sound
temperatureAt temperatureIn temperatureOf temperaturesOf thousandthsOf toldBy toldIf unlessZero unshaded-end warm-from
widened-fits widened-product without-fault y-more y-most z-more z-most
""".split()

WORD = re.compile(r"(?<![^\s(){}\[\],;`«⟦])[^\s(){}\[\],;.⟦⟧\"«»`|:]+")


def snake(name):
    return FULL.get(name) or re.sub(r"([a-z0-9])([A-Z])", lambda m: m.group(1) + "_" + m.group(2).lower(), name).replace("-", "_")


NEW = {name: snake(name) for name in NAMES}


def words(text):
    return WORD.sub(lambda m: NEW.get(m.group(0), m.group(0)), text)


def quoted(text):
    """A comment is prose: only what stands in backticks is a name there, or has a capital inside."""
    text = re.sub(r"`[^`]*`", lambda m: words(m.group(0)), text)
    return re.sub(r"\b[a-z]+[A-Z]\w*\b", lambda m: NEW.get(m.group(0), m.group(0)), text)


def antt(text):
    def line(l):
        code, dashes, comment = re.match(r"(.*?)(--(?= |$)|$)(.*)", l).groups()
        return words(code) + dashes + quoted(comment)

    return "\n".join(line(l) for l in text.split("\n"))


def source(text):
    """Contracts, ghost items and comments of a .rt file; the code between them stays."""
    out, depth, ghost = [], 0, False
    for l in text.split("\n"):
        at = re.match(r"\s*(pub(\([a-z]+\))? )?(ghost|requires|ensures)\b", l)
        if not ghost and at:
            ghost, depth = True, 0
        if ghost:
            depth += l.count("{") - l.count("}")
            out.append(words(l))
            ghost = depth > 0
        elif re.match(r"\s*//", l):
            out.append(quoted(l))
        else:
            out.append(l)
    return "\n".join(out)


def main():
    for folder, dirs, files in os.walk("crates"):
        dirs[:] = [d for d in dirs if d != "out"]
        for f in files:
            turn = antt if f.endswith(".antt") else source if f.endswith(".rt") else None
            if turn:
                path = os.path.join(folder, f)
                with open(path, encoding="utf-8") as it:
                    old = it.read()
                new = turn(old)
                if new != old:
                    with open(path, "w", encoding="utf-8") as it:
                        it.write(new)
    assert len(set(NEW.values())) == len(NEW), "two names fall together"
    for crate in sorted(os.listdir("crates")):
        if os.path.isdir(os.path.join("crates", crate, "src")):
            subprocess.run(["rt", "fmt"], cwd=os.path.join("crates", crate), check=True, stdout=subprocess.DEVNULL)


main()
