#!/usr/bin/env python3
"""Brings the edits that the check must refuse over to today's text: crates/*/must-fail/*.edit,
crates/*/must-fail-more/*.edit and wrong-rules/*.edit.

usage: tools/port_edits.py OLD [--room DIR] [WORD..]
           OLD: a checkout of the last commit before the port; WORD: only edits whose path has it
       tools/port_edits.py --fit
           says whether every edit stands once and changes something; writes nothing

The edits of OLD are put into copies of OLD, many to a copy and no two near one another, and each copy is turned by the
port's own scripts (port.py of the kit, then tools/port_names.py). Where it then differs from OLD turned alike, that is
what an edit has become. It is looked up in the files as they are now, and written as pairs of one line each that stand
once there. DIR keeps the turned copies, which take an hour: a second run takes seconds. HAND has the pairs for which
this is not enough.
"""
import collections
import difflib
import glob
import hashlib
import importlib.util
import os
import re
import shutil
import subprocess
import sys
import tempfile

ROOT = os.path.dirname(os.path.dirname(os.path.abspath(__file__)))
NEAR = 4  # lines between two edits of one copy
AT_ONCE = 3  # copies that are turned at a time
USE = re.compile(r"\s*(pub )?(ghost )?(pub )?(use|mod) ")
TOKEN = re.compile(r"\\.|◌[^\s◌]+◌|[\w'′·]+(?:-(?=\w)[\w'′·]+)*|\s+|[&|=<>!+:]+|.")
# edit -> path that OLD's edit names -> what stands for its pairs of that path: path now, old text, new text; or path
# now, (word, other word), which is a pair for each line that has the word. "+": pairs that no path of OLD had. A step
# of a proof is named by the code's own text today, so where an edit turns a test, the answers name the turned one.
HAND = {
    # said in one expression, so that the names that the proof cites stay
    "crates/gateway_slots/must-fail/more/add_with_rows.edit": {
        "src/lib.rt": [
            (
                "src/lib.rt",
                "    carried_out(gateway_state::with_slot(st, free, gateway_state::new_slot(address, asn)))",
                "    carried_out(gateway_state::with_slot(st, free, gateway_state::Slot { rows: 1, ..gateway_state::new_slot(address, asn) }))",
            ),
        ],
    },
    # the step has another name
    "crates/neighbour_wellformed/must-fail/more/timer_t3_to_3601.edit": {
        "+": [
            ("proofs/are_timers_formed/Answers.antt", ("t3-gt3600", "t3-gt3601")),
        ],
    },
    # the step has another name
    "crates/neighbour_wellformed/must-fail/more/timer_t1_to_123.edit": {
        "+": [
            ("proofs/are_timers_formed/Answers.antt", ("t1-gt122", "t1-gt123")),
        ],
    },
    # a proof file that is edited and falls makes rt take the edit for a bad one; the worked cases refuse it as it is
    "crates/neighbour_machine/must-fail/more/cease_7_to_a_cease_ack.edit": {
        "proofs/Theorems.antt": [],
    },
    # a proof file that is edited and falls makes rt take the edit for a bad one; the worked cases refuse it as it is
    "crates/neighbour_machine/must-fail/more/stray_cease_carries_the_number_of_a_hello.edit": {
        "proofs/Theorems.antt": [],
    },
    # the step has another name
    "crates/neighbour_wellformed/must-fail/more/t2_may_be_0_in_up.edit": {
        "+": [
            ("proofs/is_up_formed/Answers.antt", ("n-lt1", "n-lt0")),
        ],
    },
    # said in one place, so that the names that the proof cites stay
    "crates/gateway_calls/must-fail/three_before_two.edit": {
        "src/lib.rt": [
            ("src/lib.rt", "        return 2;", "        return 2 + u8::from(octets < 2048);"),
        ],
    },
    # the search finds what the pair had told
    "crates/host_state_block/must-fail/more/block_slot_written_one_octet_late.edit": {
        "proofs/put_slot/Proof.antt": [],
    },
    # said behind the test, whose name the proof cites
    "crates/message/must-fail/more/cease_status_1.edit": {
        "src/lib.rt": [
            ("src/lib.rt", "    if status < 3 {", "    if status < 3 { return true; } if status < 1 {"),
        ],
    },
    # left out what `peer_with` takes last
    "crates/model/must-fail/more/refused_hello_counts_as_heard_in_the_model.edit": {
        "specs/Model.antt": [
            (
                "specs/Model.antt",
                "use Rattle.neighbour.specs.Record.{idle, is_idle, acquired, is_up}",
                "use Rattle.neighbour.specs.Record.{idle, is_idle, acquired, is_up, heard_from}",
            ),
            (
                "specs/Model.antt",
                "answer; reply = refusal_reply g p.neighbour o answer; slot = used p }",
                "answer; reply = refusal_reply g p.neighbour o answer; slot = used (peer_with p (heard_from p.neighbour) p.rows p.seconds) }",
            ),
        ],
    },
    # left out what `peer_with` takes last
    "crates/model/must-fail/more/refused_hello_zeroes_its_count_in_the_model.edit": {
        "specs/Model.antt": [
            (
                "specs/Model.antt",
                "use Rattle.neighbour.specs.Record.{idle, is_idle, acquired, is_up}",
                "use Rattle.neighbour.specs.Record.{idle, is_idle, acquired, is_up, with_counts}",
            ),
            (
                "specs/Model.antt",
                "answer; reply = refusal_reply g p.neighbour o answer; slot = used p }",
                "answer; reply = refusal_reply g p.neighbour o answer; slot = used (peer_with p (with_counts p.neighbour 0 p.neighbour.sincepoll) p.rows p.seconds) }",
            ),
        ],
    },
    # was written for slots of another form
    "crates/model/must-fail/more/rows_cleared_by_net.edit": {
        "specs/Model.antt": [
            ("specs/Model.antt", "List, [], ◌∷◌, ltb", "List, [], ◌∷◌, map, ltb"),
            (
                "specs/Model.antt",
                "slots = set m.slots i slot }",
                "slots = set (map (λ s. elim s as (λ _. Slot) [ free ↦ free | used p ↦ used (peer_with p p.neighbour (elim p.rows as (λ _. List Row) [ [] ↦ [] | row ∷ (rest → kept) ↦ cond (elim (slot_in m i) as (λ _. Bool) [ free ↦ false | used q ↦ elim q.rows as (λ _. Bool) [ [] ↦ false | x ∷ (more → found) ↦ cond (eqb x.net row.net) true found ] ]) kept (row ∷ kept) ]) p.seconds) ]) m.slots) i slot }",
            ),
        ],
    },
    # named a word that its file does not import
    "crates/model/must-fail/more/seconds_of_down_told_as_up.edit": {
        "specs/Ticks.antt": [
            (
                "specs/Ticks.antt",
                "finds phase m j call = ticks m j call && is_phase (phase_of (slot_in m j)) phase",
                "finds phase m j call = ticks m j call && Rattle.neighbour.specs.Record.is_up phase",
            ),
        ],
    },
    # the same
    "crates/neighbour/must-fail/more/too_quick_in_any_state.edit": {
        "+": [
            ("specs/Rules.antt", "◌%◌, Bool, false, cond,", "◌%◌, Bool, true, false, cond,"),
        ],
    },
    # the same
    "crates/update_theorem/must-fail/more/equal_distances_let_through.edit": {
        "+": [
            ("specs/Canonical.antt", "List, [], ◌∷◌, eqb}", "List, [], ◌∷◌, eqb, length}"),
        ],
    },
    # the same
    "crates/update_theorem/must-fail/more/equal_gateways_let_through.edit": {
        "+": [
            ("specs/Canonical.antt", "List, [], ◌∷◌, eqb}", "List, [], ◌∷◌, eqb, length}"),
        ],
    },
    # said behind the test, whose name the proof cites
    "crates/update_walk/must-fail/more/nothing_said_of_octets_left_over.edit": {
        "src/lib.rt": [
            (
                "src/lib.rt",
                "return Walked::Broken(end - left);",
                "return if rows <= room { Walked::Rows(rows) } else { Walked::TooMany };",
            ),
        ],
    },
    "wrong-rules/add_starts_with_a_second.edit": {
        "crates/gateway_state/proofs/free_slot/Proof.antt": [
            (
                "crates/gateway_state/proofs/free_slot/Answers.antt",
                "returns c = c.new_slot.ensures",
                "returns c = rw c.new_slot-s.ensures",
            ),
        ],
        "+": [
            ("crates/gateway_state/proofs/new_slot/Answers.antt", ("c.none.", "c.none-s.")),
        ],
    },
    "wrong-rules/count_of_121.edit": {
        "+": [
            ("crates/neighbour_wellformed/proofs/are_timers_formed/Answers.antt", ("hello-gt-HOLDS_AT", "hello-gt121")),
        ],
    },
    "wrong-rules/counts_exchanged_in_the_block.edit": {
        "crates/host_state_block/proofs/read_neighbour/Proof.antt": [
            ("crates/host_state_block/proofs/read_neighbour/Answers.antt", ".now 27 0;", ".now 28  0;"),
            ("crates/host_state_block/proofs/read_neighbour/Answers.antt", ".now 28 0;", ".now 27 0;"),
        ],
        "crates/host_state_block/proofs/slot_octets/Proof.antt": [
            (
                "crates/host_state_block/proofs/slot_octets/Answers.antt",
                "∷ c.args.slot.neighbour.sincehello ∷ c.args.slot.neighbour.sincepoll",
                "∷ c.args.slot.neighbour.sincepoll ∷ c.args.slot.neighbour.sincehello",
            ),
        ],
    },
    "wrong-rules/eleven_before_ten.edit": {
        "crates/message_reading/src/lib.rt": [
            (
                "crates/message_reading/src/lib.rt",
                "        return Decoded::UnknownKind;",
                "        if 130 < octets::octet(message, 3) { return Decoded::BadStatus; } return Decoded::UnknownKind;",
            ),
        ],
        "crates/message_reading/proofs/decode/Proof.antt": [
            (
                "crates/message_reading/src/lib.rt",
                "// The kind stage: 10, 11 and 12, or the message's meaning.",
                "#[tactic(auto, unfolding(crate::specs::Reading::decode_of, crate::specs::Reading::decode_as))]",
            ),
            (
                "crates/message_reading/proofs/decode/Answers.antt",
                "c.in_default.is)",
                "c.in_default.is, ← c.octet-in_default.ensures, borrow.Author.Tests.le-leb _ _ c.if-octet-gt130.false)",
            ),
        ],
    },
    "wrong-rules/hello_interval_of_120_refused.edit": {
        "+": [
            ("crates/neighbour/proofs/is_unacceptable/Answers.antt", ("hello-gt120", "hello-gt119")),
        ],
    },
    "wrong-rules/home_list_of_13_octets_as_one_row.edit": {
        "crates/host_home/proofs/write_blocks/Proof.antt": [
            (
                "crates/host_home/proofs/write_blocks/Answers.antt",
                "pub split_of-split-requires : goal.split_of-split-requires",
                "",
            ),
            (
                "crates/host_home/proofs/write_blocks/Answers.antt",
                "split_of-split-requires c = (c.requires.net_value.1, (split_asked _ _ c.requires.net_value.2).1)",
                "",
            ),
            ("crates/host_home/proofs/write_blocks/Answers.antt", ("c.split_of-split", "c.internal_octets-split")),
        ],
        "+": [
            (
                "crates/host_home/proofs/Loops.antt",
                "→ good_net net ≡ true → length l % 12 ≡ 0 →",
                "→ good_net net ≡ true → length l % 12 ≤ 3 →",
            ),
            ("crates/host_home/proofs/good_home/Answers.antt", ("home-ne0", "home-gt3")),
        ],
    },
    "wrong-rules/larger_as_active.edit": {
        "+": [
            ("crates/neighbour/proofs/mode_of/Answers.antt", ("own-peer", "peer-own")),
        ],
    },
    "wrong-rules/quiet_2_let_through.edit": {
        "+": [
            ("crates/gateway_state/proofs/good_settings/Answers.antt", ("settings-gt1", "settings-gt2-2")),
        ],
    },
    "wrong-rules/quiet_before_the_net_in_the_block.edit": {
        "crates/host_state_block/proofs/read_settings/Proof.antt": [
            (
                "crates/host_state_block/proofs/read_settings/Answers.antt",
                "quiet = get_or c.args.part.now 11 0",
                "quiet = get_or c.args.part.now 7 0",
            ),
        ],
        "crates/host_state_block/proofs/settings_octets/Proof.antt": [
            ("crates/host_state_block/proofs/settings_octets/Answers.antt", "∷ c.args.s.quiet ∷ []", "∷ []"),
            (
                "crates/host_state_block/proofs/settings_octets/Answers.antt",
                "∷ c.args.s.capability",
                "∷ c.args.s.capability ∷ c.args.s.quiet",
            ),
        ],
    },
    "wrong-rules/quiet_taken_on_the_sixth_line.edit": {
        "+": [
            ("crates/recording_player/proofs/is_setting/Answers.antt", ("lines-ne4", "lines-ne5")),
        ],
    },
    "wrong-rules/seven_before_six.edit": {
        "crates/message_reading/src/lib.rt": [
            ("crates/message_reading/src/lib.rt", "        return 7;", ""),
            ("crates/message_reading/src/lib.rt", "    if octets::octet(message, 0) != 2 {", "    {"),
            (
                "crates/message_reading/src/lib.rt",
                "    if message.len() < 10 {",
                "    if octets::octet(message, 0) != 2 { return 7; } if message.len() < 10 {",
            ),
        ],
        "crates/message_reading/proofs/read_header/Proof.antt": [
            (
                "crates/message_reading/proofs/read_header/Answers.antt",
                "header_short _ c.if-message-lt10.true",
                "header_short _ _ c.octet.ensures c.if-octet-ne2.false c.if-message-lt10.true",
            ),
            (
                "crates/message_reading/proofs/read_header/Answers.antt",
                "header_long _ c.if-message-gt2048.true",
                "header_long _ _ c.octet.ensures c.if-octet-ne2.false c.if-message-gt2048.true",
            ),
            (
                "crates/message_reading/proofs/read_header/Answers.antt",
                "header_version _ c.if-message-lt10.false c.if-message-gt2048.false _ c.octet.ensures",
                "header_version _ _ c.octet.ensures",
            ),
        ],
    },
    "wrong-rules/seventeen_before_sixteen.edit": {
        "crates/gateway_slots/src/lib.rt": [
            ("crates/gateway_slots/src/lib.rt", "    let free = gateway_state::lowest_free(st);", ""),
            ("crates/gateway_slots/src/lib.rt", "        return gateway_state::refused(st, 17);", ""),
            ("crates/gateway_slots/src/lib.rt", "    if gateway_state::SLOTS <= free {", "    {"),
            (
                "crates/gateway_slots/src/lib.rt",
                "    let settings = st.settings;",
                "    let free = gateway_state::lowest_free(st); if gateway_state::SLOTS <= free { return gateway_state::refused(st, 17); } let settings = st.settings;",
            ),
        ],
        "crates/gateway_slots/proofs/add/Proof.antt": [
            (
                "crates/gateway_slots/proofs/add/Answers.antt",
                "add_16 c.args.st c.args.address c.args.asn (sym c.well_formed-2.ensures ∙ c.if-not-well_formed.false)",
                "add_16 c.args.st c.args.address c.args.asn (sym c.well_formed-2.ensures ∙ c.if-not-well_formed.false) (rw c.lowest_free-free.ensures at c.if-free-ge-SLOTS.false)",
            ),
            (
                "crates/gateway_slots/proofs/add/Answers.antt",
                "add_present c.args.st c.args.address c.args.asn (sym c.well_formed-2.ensures ∙ c.if-not-well_formed.false)",
                "add_present c.args.st c.args.address c.args.asn (sym c.well_formed-2.ensures ∙ c.if-not-well_formed.false) (rw c.lowest_free-free.ensures at c.if-free-ge-SLOTS.false)",
            ),
            (
                "crates/gateway_slots/proofs/add/Answers.antt",
                "add_17 c.args.st c.args.address c.args.asn (sym c.well_formed-2.ensures ∙ c.if-not-well_formed.false) (sym c.good_peer.ensures ∙ c.if-not-good_peer.false) (rw c.slot_of.ensures at c.if-slot_of-lt-SLOTS.false)",
                "add_17 c.args.st c.args.address c.args.asn (sym c.well_formed-2.ensures ∙ c.if-not-well_formed.false)",
            ),
        ],
    },
    "wrong-rules/t1_of_123.edit": {
        "+": [
            ("crates/neighbour_wellformed/proofs/are_timers_formed/Answers.antt", ("t1-gt122", "t1-gt123")),
        ],
    },
}


def read(path):
    with open(path, encoding="utf-8") as f:
        return f.read()


def edits_below(root):
    found = []
    for pattern in ("crates/*/must-fail/*.edit", "crates/*/must-fail/more/*.edit", "crates/*/must-fail-more/*.edit", "wrong-rules/*.edit"):
        found += glob.glob(os.path.join(root, pattern))
    return sorted(os.path.relpath(it, root) for it in found)


def place_now(edit):
    """where an edit of OLD stands now"""
    return edit.replace("/must-fail/more/", "/must-fail-more/")


def folder_of(edit):
    """the folder from which an edit's paths are told, with a slash"""
    return "" if edit.startswith("wrong-rules/") else "/".join(edit.split("/")[:2]) + "/"


def parsed(text):
    """the lines that are no pairs, and the pairs: path, old, new"""
    notes, pairs, path, old = [], [], None, None
    for line in text.split("\n"):
        if line.startswith("file: "):
            path = line[6:].strip()
        elif line.startswith("old: "):
            old = line[5:]
        elif line.startswith("new:"):
            new = line[4:]
            pairs.append((path, old, new[1:] if new.startswith(" ") else new))
            old = None
        elif line:
            notes.append(line)
    return notes, pairs


def applied(root, edit, pairs):
    """the files that the pairs touch, before and after, by their path from root; or a word on what does not fit"""
    was, now = {}, {}
    for path, old, new in pairs:
        path = folder_of(edit) + path
        if path not in now:
            if not os.path.isfile(os.path.join(root, path)):
                return None, f"there is no {path}"
            was[path] = now[path] = read(os.path.join(root, path))
        if now[path].count(old) != 1:
            return None, f"its old text is in {path} {now[path].count(old)} times: {old}"
        now[path] = now[path].replace(old, new)
    if not pairs or was == now:
        return None, "it changes nothing"
    if any(old == new for _, old, new in pairs):
        return None, "a new text is the old one"
    return (was, now), None


# ---- what the port's scripts make of the edits


def lines_changed(old, edit):
    """(path, line number) -> the line that an edit of OLD makes there"""
    both, fault = applied(old, edit, parsed(read(os.path.join(old, edit)))[1])
    if fault:
        raise SystemExit(f"{edit} does not apply in {old}: {fault}")
    found = {}
    for path in both[0]:
        before, after = both[0][path].split("\n"), both[1][path].split("\n")
        for at, (a, b) in enumerate(zip(before, after)):
            if a != b:
                found[path, at] = b
    return found


def batches(old):
    """the edits of OLD in lists, no two of a list near one another; one that touches an import has its file alone"""
    changes = {it: lines_changed(old, it) for it in edits_below(old)}
    texts = collections.defaultdict(list)
    made = []
    for edit in sorted(changes, key=lambda it: (-len(changes[it]), it)):
        alone = set()
        for (path, at), line in changes[edit].items():
            texts[path] = texts[path] or read(os.path.join(old, path)).split("\n")
            if USE.match(line) or USE.match(texts[path][at]):
                alone.add(path)
        for batch in made:
            if any(path in batch["alone"] for path, _ in changes[edit]) or any(path in batch["files"] for path in alone):
                continue
            if all(abs(at - other) > NEAR for path, at in changes[edit] for other in batch["files"][path]):
                break
        else:
            batch = {"files": collections.defaultdict(list), "alone": set(), "edits": []}
            made.append(batch)
        batch["edits"].append(edit)
        batch["alone"] |= alone
        for path, at in changes[edit]:
            batch["files"][path].append(at)
    return [it["edits"] for it in made], changes


def turn(folder):
    """runs the port's scripts on a copy"""
    kit = os.path.dirname(os.path.dirname(os.path.realpath(shutil.which("rt"))))
    spec = importlib.util.spec_from_file_location("port", os.path.join(kit, "port", "port.py"))
    port = importlib.util.module_from_spec(spec)
    spec.loader.exec_module(port)
    port.SAID = os.path.join(folder, "said")
    git = ["git", "-c", "user.name=port", "-c", "user.email=port@localhost"]
    for words in (["init", "-q"], ["add", "-A"], ["commit", "-qm", "as it was"]):
        subprocess.run([*git, *words], cwd=folder, check=True, stdout=subprocess.DEVNULL)
    port.turn(folder)
    subprocess.run([sys.executable, os.path.join(folder, "tools", "port_names.py")], cwd=folder, check=True)


def turned_copies(old, room):
    """OLD turned, and a turned copy for each list of edits: their folders, and the lists"""
    lists, changes = batches(old)
    waiting, folders = [], []
    for edits in [[], *lists]:
        sum = hashlib.sha256(read(os.path.join(ROOT, "tools", "port_names.py")).encode())
        for edit in edits:
            sum.update((edit + read(os.path.join(old, edit))).encode())
        folder = os.path.join(room, sum.hexdigest()[:16])
        folders.append(folder)
        if os.path.isfile(os.path.join(folder, "done")):
            continue
        shutil.rmtree(folder, ignore_errors=True)
        os.makedirs(os.path.join(folder, "tools"))
        shutil.copytree(os.path.join(old, "crates"), os.path.join(folder, "crates"), ignore=shutil.ignore_patterns("out"))
        shutil.copy(os.path.join(old, "crates.txt"), folder)
        shutil.copy(os.path.join(ROOT, "tools", "port_names.py"), os.path.join(folder, "tools"))
        with open(os.path.join(folder, ".gitignore"), "w") as f:
            f.write("out/\nsaid/\n")
        texts = {}
        for edit in edits:
            for (path, at), line in changes[edit].items():
                texts.setdefault(path, read(os.path.join(folder, path)).split("\n"))[at] = line
        for path, text in texts.items():
            with open(os.path.join(folder, path), "w", encoding="utf-8") as f:
                f.write("\n".join(text))
        waiting.append(folder)
    running = []
    while waiting or running:
        while waiting and len(running) < AT_ONCE:
            folder = waiting.pop(0)
            with open(folder + ".log", "w") as log:
                running.append((folder, subprocess.Popen([sys.executable, __file__, "--turn", folder], stdout=log, stderr=log)))
        folder, ran = running.pop(0)
        if ran.wait():
            raise SystemExit(f"{folder} was not turned: see {folder}.log")
        open(os.path.join(folder, "done"), "w").close()
    return folders, lists, changes


# ---- what an edit has become, line by line


def plain(line):
    """a line without what the port changes in it"""
    line = re.sub(r"\b(now|entry|exit|old|new|result|λ \w+\.)", "", line)
    return re.sub(r"\W|_", "", line).lower()


def came_from(before, after):
    """for each line of the turned text the line of OLD that it was, or the nearest one"""
    a, b = [plain(it) for it in before], [plain(it) for it in after]
    found = []
    for tag, i, i2, j, j2 in difflib.SequenceMatcher(None, a, b, False).get_opcodes():
        for at in range(j, j2):
            found.append(i + at - j if tag == "equal" else min(i2 - 1 if i2 > i else i, i + (at - j) * max(i2 - i, 1) // (j2 - j)))
    return found


def is_note(line):
    return line.strip().startswith(("--", "//"))


def differences(base, turned):
    return [(i, i2, turned[j:j2]) for tag, i, i2, j, j2 in difflib.SequenceMatcher(None, base, turned, False).get_opcodes() if tag != "equal"]


def whole(parts, base):
    """joins the differences of one edit that move lines about, so that as many lines stand as before"""
    found, k = [], 0
    while k < len(parts):
        start, end, new = parts[k]
        shift, m = len(new) - (end - start), k + 1
        grown = (start, end, list(new))
        while shift and m < len(parts) and parts[m][0] - grown[1] <= 15:
            s, e, n = parts[m]
            grown = (grown[0], e, grown[2] + base[grown[1] : s] + n)
            shift += len(n) - (e - s)
            m += 1
        if not shift and m > k + 1:
            found.append(grown)
            k = m
        else:
            found.append(parts[k])
            k += 1
    return found


def tokens(text):
    """(token, start, end) without white space"""
    return [(m.group(0), m.start(), m.end()) for m in TOKEN.finditer(text) if not m.group(0).isspace()]


def without_last_commas(words):
    """leaves out each comma behind the last member of a list, which the layout puts and takes away"""
    return [it for it, after in zip(words, [*words[1:], ("", 0, 0)]) if it[0] != "," or after[0] not in (")", "]", "}")]


def relaid(lines, new):
    """line number -> new line, where lines were laid out anew: a change goes into the line of its first word"""
    was = without_last_commas([(word, row, a, b) for row, line in enumerate(lines) for word, a, b in tokens(line)])
    text = " ".join(it.strip() for it in new if it.strip())
    now = without_last_commas(tokens(text))
    changes = collections.defaultdict(list)
    for tag, i, i2, j, j2 in difflib.SequenceMatcher(None, [it[0] for it in was], [it[0] for it in now], False).get_opcodes():
        if tag == "equal":
            continue
        if i == i2:
            if i:
                i, j = i - 1, j - 1
            else:
                i2, j2 = i2 + 1, j2 + 1
        piece = text[now[j][1] : now[j2 - 1][2]] if j < j2 else ""
        for row in sorted({it[1] for it in was[i:i2]}):
            part = [it for it in was[i:i2] if it[1] == row]
            changes[row].append((part[0][2], part[-1][3], piece))
            piece = ""
    found = {}
    for row, them in changes.items():
        line = lines[row]
        for a, b, piece in sorted(them, reverse=True):
            line = line[:a] + piece + line[b:]
        found[row] = line
    return found


def became(base, parts):
    """line number -> new line, in the turned text, for the differences of one edit; and what finds no place"""
    notes, moved, kept = [], [], []
    for start, end, new in parts:
        # an import of a file that was not imported before
        heads = {it.split("{")[0] for it in base[start:end] if USE.match(it)}
        fresh = [it for it in new if USE.match(it) and "{" in it and it.split("{")[0] not in heads]
        if fresh and end - start != len(new):
            moved += fresh
            new = [it for it in new if it not in fresh]
        lines = [it for it in new if it.strip()]
        if start == end and not lines:
            continue
        if not any(is_note(it) for it in lines) and end - start != len(new):
            # an edit of OLD can put a line in only where a remark stands
            had = [it for it in range(start, end) if is_note(base[it])]
            rest = [it for it in range(start, end) if it not in had and base[it].strip()]
            if not rest and (had or all(USE.match(it) for it in lines)):
                notes += had
                moved += lines
                continue
            notes += [it for it in had if it < rest[0] or it > rest[-1]] if rest else []
            if rest:
                start, end = rest[0], rest[-1] + 1
        kept.append((start, end, new))
    found = {}
    for start, end, new in whole(kept, base):
        if start == end:  # what was put in goes behind the line above
            start -= 1
            while start and not base[start].strip():
                start -= 1
            new = [base[start], *new]
        lines = base[start:end]
        if len(lines) == len(new):
            rows = {row: it for row, it in enumerate(new) if it != lines[row]}
        else:
            rows = relaid(lines, new)
        for row, it in rows.items():
            found[start + row] = it
    found.update(zip(sorted(notes), moved))
    return found, moved[len(notes) :] + [it for row, it in found.items() if is_note(base[row]) and is_note(it)]


def turned_edits(old, room):
    """edit -> path -> line number of the turned text -> new line; and what could not be told"""
    folders, lists, changes = turned_copies(old, room)
    base_of, from_of, found, faults = {}, {}, collections.defaultdict(dict), []
    for folder, edits in zip(folders[1:], lists):
        paths = collections.defaultdict(list)
        for edit in edits:
            for path, at in changes[edit]:
                paths[path].append((at, edit))
        for path, touched in paths.items():
            if not os.path.isfile(os.path.join(folders[0], path)):
                faults += [(edit, path, "has another place") for edit in {it for _, it in touched}]
                continue
            if path not in base_of:
                base_of[path] = read(os.path.join(folders[0], path)).split("\n")
                from_of[path] = came_from(read(os.path.join(old, path)).split("\n"), base_of[path])
            parts = collections.defaultdict(list)
            for part in differences(base_of[path], read(os.path.join(folder, path)).split("\n")):
                rows = [from_of[path][min(it, len(base_of[path]) - 1)] for it in (part[0], max(part[0], part[1] - 1))]
                far, edit = min((min(abs(at - it) for it in rows), edit) for at, edit in touched)
                if far > NEAR and len({it for _, it in touched}) > 1:
                    faults.append((edit, path, f"line {part[0] + 1} of the turned text differs far from every edit"))
                parts[edit].append(part)
            for edit in {it for _, it in touched}:
                lines, lost = became(base_of[path], parts[edit])
                if lost:
                    faults.append((edit, path, f"no remark makes room for {lost}"))
                if not lines:
                    faults.append((edit, path, "nothing is left of it"))
                found[edit][path] = lines
    return base_of, found, faults


# ---- the same in the files as they are now


def merged(base, new, now):
    """the line `now`, changed as `base` was into `new`; None where what changes is not in it"""
    a, b, c = tokens(base), tokens(new), tokens(now)
    place = {}
    for i, k, size in difflib.SequenceMatcher(None, [it[0] for it in a], [it[0] for it in c], False).get_matching_blocks():
        for at in range(size):
            place[i + at] = k + at
    line = now
    for tag, i, i2, j, j2 in reversed(difflib.SequenceMatcher(None, [it[0] for it in a], [it[0] for it in b], False).get_opcodes()):
        if tag == "equal":
            continue
        if i == i2:
            if i:
                i, j = i - 1, j - 1
            else:
                i2, j2 = i2 + 1, j2 + 1
        spots = [place.get(it) for it in range(i, i2)]
        if None in spots or spots != list(range(spots[0], spots[0] + len(spots))):
            return None
        line = line[: c[spots[0]][1]] + (new[b[j][1] : b[j2 - 1][2]] if j < j2 else "") + line[c[spots[-1]][2] :]
    return line


def carried(base, lines, now):
    """row of `now` -> new line, for the rows of `base`; and the rows that could not be found"""
    place, near = {}, {}
    for tag, i, i2, j, j2 in difflib.SequenceMatcher(None, base, now, False).get_opcodes():
        for row in range(i, i2):
            if tag == "equal":
                place[row] = j + row - i
            else:
                near[row] = range(j, j2)
    found, lost = {}, []
    for row, new in lines.items():
        if row in place:
            found[place[row]] = new
            continue
        tried = [(difflib.SequenceMatcher(None, plain(base[row]), plain(now[it])).ratio(), it, merged(base[row], new, now[it])) for it in near[row]]
        tried = [it for it in tried if it[2] is not None and it[0] > 0.3]
        if tried:
            _, at, line = max(tried)
            found[at] = line
        else:
            lost.append((row, base[row], new))
    return found, lost


def context(edit_pairs, line):
    """how many words of context the edit of OLD has on each side of what it changes in such a line"""
    best = max(edit_pairs, key=lambda it: difflib.SequenceMatcher(None, plain(it[0]), plain(line)).ratio())
    a, b = [it[0] for it in tokens(best[0])], [it[0] for it in tokens(best[1])]
    left = 0
    while left < min(len(a), len(b)) and a[left] == b[left]:
        left += 1
    right = 0
    while right < min(len(a), len(b)) - left and a[-1 - right] == b[-1 - right]:
        right += 1
    return left, right


def fragment(text, line, new, sides):
    """a part of the line that stands once in the text, and what it becomes"""
    a, b = tokens(line), tokens(new)
    left = 0
    while left < min(len(a), len(b)) and a[left][0] == b[left][0]:
        left += 1
    right = 0
    while right < min(len(a), len(b)) - left and a[-1 - right][0] == b[-1 - right][0]:
        right += 1
    first, last = max(0, left - sides[0]), min(len(a), len(a) - right + sides[1])
    if USE.match(line):
        first = 0
    while first < left and re.match(r"[^\w\s(\[{\"→∷←λ]+$", a[first][0]):
        first += 1
    while True:
        if first == last:
            first = max(0, first - 1)
        while 0 < first < len(a) and a[first][1] == a[first - 1][2] and "." in (a[first][0], a[first - 1][0]):
            first -= 1
        while 0 < last < len(a) and a[last][1] == a[last - 1][2] and "." in (a[last][0], a[last - 1][0]):
            last += 1
        cut = a[first][1] if first else len(line) - len(line.lstrip())
        end = a[last - 1][2] if last < len(a) else len(line.rstrip())
        head, tail = line[:cut], line[end:]
        if new.startswith(head) and (not tail or new.endswith(tail)) and len(new) >= len(head) + len(tail):
            old = line[cut:end]
            if text.count(old) == 1:
                return old, new[len(head) : len(new) - len(tail)].rstrip()
        if first == 0 and last == len(a):
            return (line, new) if text.count(line) == 1 else None
        first, last = max(0, first - 1), min(len(a), last + 1)


def spread(new, old, is_code):
    """`new` with a space more in it, so that `old` is not in it"""
    at = new.index(old)
    inner = [it for it in range(at + 1, at + len(old) - 1) if new[it] == " "]
    if not inner and is_code:
        inner = [it for it in range(at + 1, at + len(old)) if new[it - 1] in "(.[" or new[it] in ",;)"]
    return new[: inner[0]] + " " + new[inner[0] :] if inner else None


def pairs_for(text, rows, edit_pairs, is_code):
    """pairs that make the lines of `rows` out of the text"""
    lines = text.split("\n")
    wanted = dict(rows)
    for _ in range(20):
        now, made, again = text, [], False
        for row in sorted(wanted):
            it = fragment(now, lines[row], wanted[row], context(edit_pairs, lines[row]))
            if it is None:
                old = lines[row].strip()
                for other in sorted(wanted):
                    if other < row and old in wanted[other]:
                        wide = spread(wanted[other], old, is_code)
                        if wide:
                            wanted[other], again = wide, True
                            break
                if again:
                    break
                return None, f"no part of a line stands once: {lines[row]}"
            now = now.replace(it[0], it[1])
            made.append(it)
        if not again:
            want = list(lines)
            for row, line in wanted.items():
                want[row] = line
            if [it[0] for it in tokens(now)] != [it[0] for it in tokens("\n".join(want))]:
                return None, "the pairs make another text"
            return made, None
    return None, "the lines cannot be told apart"


def written(edit, notes, pairs):
    text, path = "\n".join([*notes, ""]) if notes else "", None
    for at, old, new in pairs:
        if at != path:
            text += f"file: {at}\n"
            path = at
        text += f"old: {old}\nnew: {new}".rstrip(" ") + "\n"
    return text


def spelled_out(edit, given):
    """pairs of HAND, one for each line that has a word"""
    pairs = []
    for path, *it in given:
        if len(it) == 1:
            word, other = it[0]
            lines = read(os.path.join(ROOT, folder_of(edit) + path)).split("\n")
            pairs += [(path, line.strip(), line.strip().replace(word, other)) for line in lines if word in line]
        else:
            pairs.append((path, *it))
    return pairs


def port(old, room, words):
    base_of, became_of, faults = turned_edits(old, room)
    count = 0
    for edit in HAND:
        if not os.path.isfile(os.path.join(old, edit)):
            print(f"HAND names {edit}, which is not there")
    for edit in edits_below(old):
        if words and not any(it in edit for it in words):
            continue
        notes, was = parsed(read(os.path.join(old, edit)))
        pairs, why, hand = [], [], HAND.get(edit, {})
        for path in dict.fromkeys(folder_of(edit) + it[0] for it in was):
            if path[len(folder_of(edit)) :] in hand:
                pairs += spelled_out(edit, hand[path[len(folder_of(edit)) :]])
            else:
                why += [f"{path}: {it[2]}" for it in faults if it[:2] == (edit, path)]
                if not os.path.isfile(os.path.join(ROOT, path)):
                    why.append(f"{path} is gone")
                    continue
                text = read(os.path.join(ROOT, path))
                rows, lost = carried(base_of[path], became_of[edit].get(path, {}), text.split("\n"))
                why += [f"{path} has no line like: {it[1]}" for it in lost]
                made, fault = pairs_for(text, rows, [it[1:] for it in was if folder_of(edit) + it[0] == path], path.endswith(".rt")) if rows else ([], None)
                if fault:
                    why.append(f"{path}: {fault}")
                pairs += [(path[len(folder_of(edit)) :], *it) for it in made or []]
        pairs += spelled_out(edit, hand.get("+", []))
        if not why:
            why = [it for it in [applied(ROOT, edit, pairs)[1]] if it]
        if why:
            count += 1
            for it in why:
                print(f"{edit}: {it}")
        if pairs:
            with open(os.path.join(ROOT, place_now(edit)), "w", encoding="utf-8") as f:
                f.write(written(edit, notes, pairs))
    print(f"{count} edits want a hand")
    return 1 if count else 0


def fit():
    faults = [(it, applied(ROOT, it, parsed(read(os.path.join(ROOT, it)))[1])[1]) for it in edits_below(ROOT)]
    for edit, why in faults:
        if why:
            print(f"{edit}: {why}")
    bad = sum(why is not None for _, why in faults)
    print(f"{len(faults) - bad} edits fit, {bad} do not")
    return 1 if bad else 0


def main(words):
    if words[:1] == ["--turn"] and len(words) == 2:
        return turn(words[1])
    if words == ["--fit"]:
        return fit()
    if not words or words[0].startswith("-"):
        print(__doc__)
        return 2
    old, words = os.path.abspath(words[0]), words[1:]
    room = os.path.join(tempfile.gettempdir(), "port_edits")  # outside the tree, where rt ci wants no second one
    if words[:1] == ["--room"] and len(words) > 1:
        room, words = os.path.abspath(words[1]), words[2:]
    return port(old, room, words)


if __name__ == "__main__":
    sys.exit(main(sys.argv[1:]))
