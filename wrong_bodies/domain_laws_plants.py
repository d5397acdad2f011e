#!/usr/bin/env python3
"""domain_laws_plants.py [NUMBER..]: tries wrong definitions of domain_laws, each a changed line, by `rt check` of that
crate on a copy of the repository (with what checks kept of the crates below, their out/). Each must be refused, but for
the one whose name says that script_laws refuses it. Prints what came of each, with the first lines that weren't
proved. `rt must-fail` isn't for these: it changes bodies, and a changed definition breaks lemmas first."""
import pathlib
import shutil
import subprocess
import sys
import tempfile

TOP = pathlib.Path(__file__).resolve().parent.parent

# name, file, what stands there once, what takes its place
PLANTS = [
 ('put_in has full for out','specs/Frames.antt','put_in k (Switched frame out full) = if bit_at out k == 1','put_in k (Switched frame out full) = if bit_at full k == 1'),
 ('Receives is an own entry','specs/Domain.antt','IsOwnEvent (OnPort (Receives frame)) = ⊥','IsOwnEvent (OnPort (Receives frame)) = ⊤'),
 ('ports turn before disks (turns_over: domain_laws proves it, script_laws refuses it)','specs/Lines.antt','turns_over n m = both_ends (lanes_from DiskLane 0 n) ++ both_ends (lanes_from PortLane 0 m)','turns_over n m = both_ends (lanes_from PortLane 0 m) ++ both_ends (lanes_from DiskLane 0 n)'),
 ('Blocked of a port moves','specs/Counts.antt','is_blocked (OnPort (OnLane (Steps e Blocked))) = true','is_blocked (OnPort (OnLane (Steps e Blocked))) = false'),
 ('forged ports hold no frame','specs/Settling.antt','  pub rests : port.IsUnforged t → HoldsNoFrame t','  pub rests : HoldsNoFrame t'),
 ('entries of disks may change ports','specs/Domain.antt','PortsStep lanes _ behind = behind ≡ lanes','PortsStep lanes _ behind = ⊤'),
 ('gifts are not said','specs/Along.antt','port_said j (OfPort k event) = lanes.own_or (j == k) event (gets j event)','port_said j (OfPort k event) = lanes.own_or (j == k) event []'),
 ('a front of a call is the call','specs/Lines.antt','BeginsPart line w part behind = part ≡ []','BeginsPart (Calls lane call) w part behind = AnswersOn lane call part\nBeginsPart line w part behind = part ≡ []'),
 ('pokes forge nothing','specs/Forged.antt','ForgesNothing (Calls lane (Pokes e at bytes)) = ⊥','ForgesNothing (Calls lane (Pokes e at bytes)) = ⊤'),
 ('other ports stay, also where a frame is switched','specs/Isolation.antt','      → t ≡ record s { queue = s.queue ++ frames_put j part }','      → t ≡ s'),
 ('rounds are for each lane','specs/Isolation.antt','IsFor lane _ = ⊥','IsFor lane (Rounds count) = ⊤\nIsFor lane _ = ⊥'),
 ('a stop leaves all running','specs/Running.antt','LeavesRunning (Calls lane Stops) = ⊥','LeavesRunning (Calls lane Stops) = ⊤'),
 ('arrived at the switch','specs/Frames.antt','arrived_in (OnPort (OnLane (Steps A (Frame frame)))) = frame ∷ []','arrived_in (OnPort (OnLane (Steps e (Frame frame)))) = frame ∷ []'),
]


def planted(name, text, old, new):
    """The file's text with the plant; one of them wants two more imports."""
    assert text.count(old) == 1, (name, text.count(old))
    text = text.replace(old, new)
    if name.startswith("rounds are for"):
        text = text.replace("PortLane, Sends, Steps}", "PortLane, Rounds, Sends, Steps}")
        text = text.replace("List, ◌++◌, length, Some, slice_get}", "List, ◌++◌, length, Some, slice_get, ⊤}")
    return text


def main(numbers):
    with tempfile.TemporaryDirectory(prefix="plants-") as made:
        room = pathlib.Path(made)
        shutil.copy2(TOP / "crates.txt", room)
        subprocess.run(["cp", "-a", "--reflink=auto", TOP / "crates", room], check=True)
        crate = room / "crates" / "domain_laws"
        for i in numbers or range(len(PLANTS)):
            name, file, old, new = PLANTS[i]
            text = (crate / file).read_text()
            (crate / file).write_text(planted(name, text, old, new))
            ran = subprocess.run(["rt", "check"], cwd=crate, capture_output=True, text=True)
            (crate / file).write_text(text)
            print(i, name, "->", "proved" if ran.returncode == 0 else "refused", flush=True)
            wrong = [line for line in (ran.stdout + ran.stderr).splitlines() if "not proved" in line or ": error" in line]
            print("".join(f"    {line[:115]}\n" for line in wrong[:14]), end="", flush=True)


if __name__ == "__main__":
    main([int(word) for word in sys.argv[1:]])
