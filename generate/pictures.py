"""python3 -m generate.pictures [PSI [FOLDER]]

Draws the pictures of docs/TOUR.md and of examples/README.md: it runs each block of the tour in which
tools/psi-plot is called, one after the other, as they stand there, draws each network of the
gallery, and moves the pictures to FOLDER, docs/pictures if it is not given. PSI is the built program,
crates/psi/out/psi if it is not given. A picture above 200,000 bytes, or one that is not shown, is
reported; the exit status is 1 where there is one, or a block fails.
"""

import os
import pathlib
import re
import shutil
import subprocess
import sys
import tempfile

TOP = pathlib.Path(__file__).resolve().parent.parent
TOUR, GALLERY = TOP / "docs/TOUR.md", TOP / "examples/README.md"
MOST_BYTES = 200_000
BLOCK = re.compile(r"^```\n(.*?)^```\n", re.M | re.S)
SHOWN = re.compile(r"!\[[^\]]*\]\((?:\.\./docs/)?pictures/([^)]*\.svg)\)")


def room_of(program: pathlib.Path, folder: pathlib.Path) -> None:
    """Makes a folder look like the top of the repository, with a program that is built."""
    for name in ("examples", "tools"):
        (folder / name).symlink_to(TOP / name)
    (folder / "psi").symlink_to(program)
    (folder / "crates/psi/out").mkdir(parents=True)
    (folder / "crates/psi/out/psi").symlink_to(program)


def main() -> int:
    program = pathlib.Path(sys.argv[1]) if len(sys.argv) > 1 else TOP / "crates/psi/out/psi"
    folder = pathlib.Path(sys.argv[2]) if len(sys.argv) > 2 else TOP / "docs/pictures"
    text, wrong = TOUR.read_text(), 0
    calls = [block for block in BLOCK.findall(text) if "tools/psi-plot" in block]
    for name in sorted(net.stem for net in (TOP / "examples").glob("*.toml")):
        calls.append(f"tools/psi-plot network examples/{name}.toml -o network-{name}.svg")
    folder.mkdir(parents=True, exist_ok=True)
    with tempfile.TemporaryDirectory() as name:
        room = pathlib.Path(name)
        room_of(program.resolve(), room)
        env = {**os.environ, "PATH": f"{room}:{os.environ['PATH']}"}
        wrong += sum(subprocess.run(["sh", "-c", call], cwd=room, env=env).returncode != 0 for call in calls)
        drawn = sorted(room.glob("*.svg"))
        for picture in drawn:
            if os.path.getsize(picture) > MOST_BYTES:
                print(f"{picture.name} has {os.path.getsize(picture)} bytes")
                wrong += 1
            shutil.copyfile(picture, folder / picture.name)
    shown = {*SHOWN.findall(text), *SHOWN.findall(GALLERY.read_text())}
    for name in shown ^ {picture.name for picture in drawn}:
        print(f"{name} is drawn or shown, but not both")
        wrong += 1
    print(f"{len(drawn)} pictures are drawn")
    return 1 if wrong else 0


if __name__ == "__main__":
    sys.exit(main())
