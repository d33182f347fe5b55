"""Tries the edits of a crate: the prover has to refuse the edited function itself, by a goal in that function's lines.

All edits that change one body each go into one check, each in a copy of its function (`copies.py`). That loses nothing: the proof of a
function cites of each other one only its theorem, so the edit of one body can't touch the proof of another; and where a function has
hand-written proofs, the check shows that these prove a copy with nothing changed. Where a function can't be copied, edits of different
functions share a check, made in place. An edit of anything but one body, or of a function in a cycle of calls, has a check of its own. So has
each edit that wasn't refused in company, and each edit of a check that didn't reach the prover.

Refused is an edit only where the check prints a goal that it didn't prove in the lines of the edited function: `note: src/F:LINE:..` with
the goal's name. That a function calls another one that isn't proved doesn't count, nor that a hand-written proof names what is gone. Where
a hand-written proof fails with all its names there, the goal is tried without it, and counts if the prover knows values at which it is
false; else only where the edit has a line `witness: ..`, which says in words at which values it is.
"""
import os
import re
import shutil
import tempfile
from collections import defaultdict
from concurrent.futures import ThreadPoolExecutor
from pathlib import Path

from check import GOAL, check
from copies import Copies
from edit import modules_of, rt, with_edits
from functions import functions_of

# A law of an impl that isn't proved, with its name.
LAW = re.compile(r"(?:\./)?(src/\S+?):(\d+):\d+: error: ()`([^`]+)`: ")
# A hand-written proof that fails, and words that say that it only names what the edit took away. Of a record with a long name the prover's
# words are cut: "record `..` (nearest: ..)", without "has no field".
OF_A_PROOF = re.compile(r"(?:\./)?(proofs/\S+?):\d+:\d+: error: (?:`([^`]+)`: )?(.*)")
NAMES_ALONE = re.compile(r"has no field|has no `|is not in scope|was not admitted|that can be named|^record `")
# How many copies share a check at most: in a crate that stands on more than HIGH crates each takes some half a gigabyte there.
HIGH, MOST_COPIES, MOST_COPIES_HIGH = 30, 30, 6


def judge(edit, ran, texts):
    """Takes down whether a check refused an edit by a goal of a function whose body it changes, or of the copy that it was made in."""
    functions = functions_of(texts[edit.file])
    changed = [it for it in functions if it.name == edit.copy] if edit.copy else [functions[place] for place in edit.places]
    goals = sorted({(*goal, it.name) for it in changed for goal in ran.goals(edit.file, it)})
    if goals:
        is_open, goal, line, name = goals[0]
        edit.is_refused = True
        place = edit.home.name if edit.copy else f"{name}, {edit.file}:{line}"
        edit.verdict = f"`{goal}` of {place}" + ("" if is_open else ", which can be false")
        return
    names = "|".join(it.name for it in changed)
    own = ran.not_proved(names)
    folder = str(Path(edit.home.proofs).parent / edit.copy) if edit.copy else rf".*/\+?({names})"
    proofs = [at for at in map(OF_A_PROOF.match, ran.lines) if at and re.match(f"{folder}/", at[1])]
    telling = [at for at in proofs if at[2] and not NAMES_ALONE.search(at[3])]
    answers = {(at[1].replace(f"/{edit.copy}/", f"/{edit.home.name}/") if edit.copy else at[1], at[2]) for at in proofs if at[2]}
    edit.answers = sorted(answers) if telling else []
    if proofs:
        why = "only a hand-written proof fails" if telling else "only names in a hand-written proof are gone"
        edit.verdict = f"{why}: {(telling or proofs)[0][0][:160]}"
    elif own:
        edit.verdict = f"no goal in the lines of {names}: {own[0][:160]}"
    elif ran.status:
        edit.verdict = f"{names} is proved with it, and something else isn't"
    else:
        edit.verdict = "the crate is still proved with this edit"


def try_copied(crate, edits, kept, is_whole):
    """Tries edits in one check, each in a copy of its function: of the whole crate, or of these copies and what they call. Gives those of
    functions whose copy with nothing changed isn't proved, or all of them where the check didn't reach the prover or something of the crate
    isn't proved: nothing is said of these."""
    copies = Copies(crate)
    for edit in edits:
        edit.how, edit.copy = "batch", copies.add(edit.home, edit.hunks)
    texts = copies.files()
    ran = check(crate, texts, kept, () if is_whole else copies.paths())
    lost = {home for home, name in copies.bare.items() if ran.not_proved(name)}
    left = edits if not ran.reached_the_prover(of_code(texts)) or ran.crate_not_proved() else [edit for edit in edits if edit.home in lost]
    for edit in edits:
        if edit not in left:
            judge(edit, ran, texts)
    for edit in left:
        edit.how, edit.copy, edit.home = "", "", None
    tell_batch(crate, "copies", edits, left)
    return left


def try_copied_without_answers(crate, edits, kept):
    """Tries edits once more in copies, without the hand-written answers that fail with them; a goal counts only where the prover knows values at
    which it is false."""
    copies = Copies(crate)
    for edit in edits:
        files = {file for file, _ in edit.answers}
        proofs = {file: without_goals(Path(crate.folder, file).read_text(), [goal for it, goal in edit.answers if it == file]) for file in files}
        edit.copy = copies.add(edit.home, edit.hunks, proofs)
    texts = copies.files()
    ran = check(crate, texts, kept, copies.paths())
    for edit in edits:
        why, answers = edit.verdict, edit.answers
        if ran.reached_the_prover(of_code(texts)):
            judge(edit, ran, texts)
            edit.is_refused = edit.is_refused and "can be false" in edit.verdict
        if not edit.is_refused:
            edit.verdict, edit.answers = why, answers
    tell_batch(crate, "copies without the answers that fail", edits, [])


def parts_of(crate, copies):
    """The edits in copies that share a check."""
    most = MOST_COPIES_HIGH if len(crate.below()) > HIGH else MOST_COPIES
    return [copies[first : first + most] for first in range(0, len(copies), most)]


def of_code(texts):
    """Those of some files that are code: an error in a copy's hand-written proof is no error of reading."""
    return {file: text for file, text in texts.items() if file.startswith("src/")}


def tell_batch(crate, what, edits, unsaid):
    refused = sum(edit.is_refused for edit in edits)
    left = "".join(f"\n  {edit.name}: {edit.verdict or 'no verdict'}" for edit in edits if not edit.is_refused)
    print(f"edits: {crate.name}: {what}: {refused} of {len(edits)} refused, nothing said of {len(unsaid)}{left}", flush=True)


def rounds_of(edits):
    """The edits that can share a check, of each function one a round."""
    by_function = defaultdict(list)
    for edit in edits:
        by_function[edit.file, edit.places[0]].append(edit)
    most = max(map(len, by_function.values()), default=0)
    return [[own[k] for own in by_function.values() if k < len(own)] for k in range(most)]


def link(file, to):
    """Gives a file another name, or copies it to another disk."""
    try:
        os.link(file, to)
    except OSError:
        shutil.copy2(file, to)


def copied(kept, room):
    """A copy of what earlier checks proved, for one more check: by links, since a check replaces such a file and changes none."""
    over = os.path.join(tempfile.mkdtemp(dir=room), "kept")
    if kept:
        shutil.copytree(kept, over, copy_function=link)
    else:
        os.mkdir(over)
    return over


def kept_by_build(crate):
    """What `rt lib` or `rt check` kept in a crate's folder, which the first check need not prove anew; None where they kept nothing."""
    kept = Path(crate.folder, *rt.rtlib.KEPT[1].split("/"))
    return kept if kept.is_dir() else None


def try_together(crate, edits, room, kept, is_whole):
    """Tries edits in place, round by round, each check over a copy of what those before it proved. Gives what they hand on, and how many checks
    there were. The first proves the whole crate, if that wasn't done."""
    rounds = rounds_of(edits)
    for number, batch in enumerate(rounds, 1):
        before, kept = kept, copied(kept, room)
        shutil.rmtree(before)
        texts = with_edits(crate, batch)
        ran = check(crate, texts, kept, modules_of(batch) if is_whole or number > 1 else ())
        for edit in batch:
            edit.how = "batch"
            if ran.reached_the_prover(texts):
                judge(edit, ran, texts)
        tell_batch(crate, f"in place, {number} of {len(rounds)}", batch, [])
    return kept, len(rounds)


def without_answers(crate, answers, texts):
    """The texts of an edit, and those of the files of answers without the ones that fail with it."""
    texts = dict(texts)
    for file, goal in answers:
        texts[file] = without_goals(texts.get(file) or Path(crate.folder, file).read_text(), [goal])
    return texts


def without_goals(text, goals):
    """A file of answers without those to some goals."""
    for goal in goals:
        text = re.sub(rf"^(?:pub )?{re.escape(goal)} : goal\.\S+\n(?:(?!(?:pub )?[^\s:]+ : goal\.).*\n)*", "", text, flags=re.M)
    return text


def try_alone(edit, kept, room):
    """Tries an edit in a check of its own, over a copy of what earlier checks proved, or from nothing. Where it changes more than bodies,
    any goal of the code counts, and any law of an impl."""
    edit.how = "alone"
    texts, _ = rt.read_edit(str(edit.path), edit.crate.folder)
    ran = check_over(edit, texts, kept, room)
    edit.by_kit = ran.reached_the_prover(texts) and ran.status == 1
    if not ran.reached_the_prover(texts):
        edit.is_refused, edit.verdict = False, f"BAD EDIT: the prover can't read it, or wasn't reached: {ran.complaint(texts)}"
    elif edit.is_of_bodies:
        judge(edit, ran, texts)
    else:
        goals = [at for line in ran.lines if (at := GOAL.match(line) or LAW.match(line))]
        proofs = [at for at in map(OF_A_PROOF.match, ran.lines) if at and at[2] and not NAMES_ALONE.search(at[3])]
        edit.is_refused = bool(goals or proofs and edit.witness)
        if goals:
            edit.verdict = f"`{goals[0][4]}`, {goals[0][1]}:{goals[0][2]}"
        elif edit.is_refused:
            edit.verdict = f"the proof by hand of `{proofs[0][2]}`, {proofs[0][1]}; false where {edit.witness}"
        else:
            edit.verdict = f"no goal in src/ fails: {ran.complaint(texts)}"


def take_witness(edit):
    """Takes an edit with which hand-written answers fail for refused, by its witness."""
    goal, function = edit.answers[0][1], Path(edit.answers[0][0]).parent.name
    edit.by_kit, edit.is_refused = True, True
    edit.verdict = f"the proof by hand of `{goal}` of {function}; false where {edit.witness}"


def try_without_answers(edit, kept, room):
    """Judges an edit where hand-written answers fail with it: by its witness, or without these, when its goals are the prover's own, and count
    only where it knows values at which they are false. Gives how many checks that took."""
    why, answers, edit.by_kit = edit.verdict, edit.answers, True
    if edit.witness:
        take_witness(edit)
        return 0
    texts, _ = rt.read_edit(str(edit.path), edit.crate.folder)
    judge(edit, check_over(edit, without_answers(edit.crate, answers, texts), kept, room), texts)
    edit.is_refused = edit.is_refused and "can be false" in edit.verdict
    if not edit.is_refused:
        edit.verdict = why
    return 1


def check_over(edit, texts, kept, room):
    """A check of an edit's texts over a copy of what earlier checks proved, or from nothing."""
    over = copied(kept, room) if kept else None
    ran = check(edit.crate, texts, over, modules_of([edit]) if kept else ())
    if over:
        shutil.rmtree(over)
    return ran


def try_left(edit, kept, room):
    """Tries by itself an edit that no batch refused. Gives how many checks that took."""
    checks = 0
    if edit.how != "batch" or not edit.answers:
        edit.copy = ""
        try_alone(edit, kept, room)
        checks += 1
    if edit.answers and not edit.is_refused:
        checks += try_without_answers(edit, kept, room)
    elif kept and not edit.is_refused:
        try_alone(edit, None, room)
        checks += 1
    return checks


def try_edits(crate, edits, is_all_alone):
    """Tries some edits of a crate. Gives how many checks were shared, and how many there were alone."""
    together = [edit for edit in edits if not (edit.alone or is_all_alone)]
    with tempfile.TemporaryDirectory(prefix="edits-") as room:
        kept = copied(kept_by_build(crate), room)
        copies = [edit for edit in together if edit.home]
        parts = parts_of(crate, copies)
        # What others take over has to carry the whole crate.
        is_whole = len(copies) < len(edits) or len(parts) > 1
        unsaid = [try_copied(crate, part, kept, is_whole) for part in parts[:1]]
        with ThreadPoolExecutor(max(len(parts), 1)) as pool:
            unsaid += pool.map(lambda part: try_copied(crate, part, copied(kept, room), False), parts[1:])
        is_carried = is_whole and bool(copies) and len(unsaid[0]) != len(parts[0])
        kept, rounds = try_together(crate, [edit for edit in together if not edit.home], room, kept, is_carried)
        for edit in together:
            if edit.answers and edit.witness:
                take_witness(edit)
        by_hand = [edit for edit in together if edit.copy and edit.answers and not edit.is_refused]
        if by_hand:
            try_copied_without_answers(crate, by_hand, kept)
        left = [edit for edit in edits if not edit.is_refused]
        if left and not is_carried and check(crate, {}, kept).status:
            kept, left = None, edits
            for edit in edits:
                edit.is_refused, edit.verdict, edit.answers, edit.how, edit.copy = False, "", [], "", ""
        shared = len(parts) + rounds + bool(by_hand)
        return shared, sum(try_left(edit, kept, room) for edit in left)
