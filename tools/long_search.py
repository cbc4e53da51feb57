#!/usr/bin/env python3
"""Writes the long sample search to standard output: four hours, always the same text.

Two patrollers of 12 cells each fill lists, report them over a radio link and lose them again, in turns of lists of different
lengths and links of different keys and modes, so that every cell is used many times. Some links are lost before they close.
The end is told in the sample's own comments.
"""

BEACONS = ["1A2B3C4D", "99AA0011", "C0FFEE42"]
FOURTH = "0D15EA5E"
KEYS = [16, 24, 32]
MODES = ["cbc", "cfb", "ofb"]


def clock(second):
    return f"{second // 3600}:{second // 60 % 60:02}:{second % 60:02}"


def sweep(name, second, at, beacons):
    heard = []
    for k, beacon in enumerate(beacons):
        metres = 40 + (second // 7 + 13 * k) % 560
        heard.append(f"{beacon} {metres // 10}.{metres % 10} m {255 - metres // 3}")
    return f"{clock(second)} {name} sweeps list {at}: " + "; ".join(heard)


def turn(name, second, n, shift):
    """Lists 0 to 3 take turns at one cell each, three rounds; one is reported over a link; then every second list is lost and
    its cells go to another."""
    lines = []
    for round_ in range(3):
        for at in range(4):
            lines.append(sweep(name, second, at, [BEACONS[(n + round_ + at) % 3]]))
            second += 9
    lines.append(f"{clock(second)} {name} opens link {MODES[(n + shift) % 3]} with {KEYS[(n // 2 + shift) % 3]} bytes")
    second += 3
    lines.append(f"{clock(second)} {name} reports list {n % 4}")
    for at in (1, 3):
        second += 5
        lines.append(f"{clock(second)} {name} loses list {at}")
    second += 5
    lines.append(sweep(name, second, 8 + n % 8, [BEACONS[k % 3] for k in range(6)]))
    for at in (0, 2, 8 + n % 8):
        second += 5
        lines.append(f"{clock(second)} {name} loses list {at}")
    return lines, second


def main():
    print("# Four hours. Lists fill, are lost and fill again, links open and close, until every cell has been used many times.")
    print("search Long Ridge, 2 March")
    print("radio mkv128")
    print("leader Mara with 48 cells and 41 key cells")
    for name in ("Jon", "Ada", "Leo", "Kim"):
        print(f"patroller {name} with 12 cells and 17 key cells")
    second = 60
    for n in range(24):
        print(f"# turn {n + 1}")
        for shift, name in enumerate(("Jon", "Ada")):
            lines, second = turn(name, second, n, shift)
            print("\n".join(lines))
            second += 20
        # both links are open now; the second one closes first, and every fifth time the first is lost
        print(f"{clock(second)} Ada closes link")
        second += 4
        print(f"{clock(second)} Jon {'loses' if n % 5 == 4 else 'closes'} link")
        if n % 8 == 5:
            for at in (1, 2):
                second += 5
                print(f"{clock(second)} Mara loses list {at}")
        second += 240
    last(second)


def last(second):
    def step(text, pause=5):
        nonlocal second
        print(f"{clock(second)} {text}")
        second += pause

    print("# The last turn. All of Kim's 12 cells are free, and lists 0 to 3 take one each in turn.")
    for round_ in range(3):
        for at in range(4):
            print(sweep("Kim", second, at, [BEACONS[(round_ + at) % 3]]))
            second += 9
    print("# Lists 1 and 3 are lost: six cells are free again. An allocator that gives each append the first run of neighbouring")
    print("# free cells has put list 1 into cells 1, 5 and 9 and list 3 into 3, 7 and 11: no two of the six lie side by side.")
    for at in (1, 3):
        step(f"Kim loses list {at}")
    print("# A fourth beacon is heard, six times in one sweep. Such an allocator has no place for it; any free cell serves a")
    print("# chain, so the shelf takes all six.")
    print(sweep("Kim", second, 5, [FOURTH] * 6))
    second += 30
    print("# Not one cell is free now.")
    step(f"Kim hears {FOURTH} at 3.2 m, strength 240, on list 6", 10)
    print("# Kim has no link yet. Three other links take all 41 key cells of the leader: 13, 15 and 13.")
    step("Mara counts")
    step("Jon opens link ofb with 16 bytes")
    step("Ada opens link cfb with 24 bytes")
    step("Leo opens link cbc with 16 bytes")
    step("Kim opens link cbc with 24 bytes")
    print("# The first and the third close: 26 key cells are free, but such an allocator has them in two runs of 13, one on either")
    print("# side of Ada's, and none of 15. Here the link opens.")
    step("Jon closes link")
    step("Leo closes link")
    step("Mara counts")
    step("Kim opens link cbc with 24 bytes")
    step("Leo opens link cbc with 16 bytes")
    step("Kim reports list 5", 10)
    step("Kim closes link", 10)
    step("Mara reads list 4 at 5", 10)
    step("Mara counts")
    step("Mara lists")


if __name__ == "__main__":
    main()
