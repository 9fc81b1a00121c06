"""Prints what runs of the program wrote as a table: nanoseconds a packet in the best run, old and new side by side."""
import sys

PACKETS = 4194304
NAMES = {"send": "seal, look up, free", "receive-false": "store and consume, in order", "receive-true": "store and consume, in reverse"}
figures = {}
for line in open(sys.argv[1]):
    what, side, depth, nanos, _sum = line.split()
    key = what, int(depth), side
    figures[key] = min(figures.get(key, 1e9), int(nanos) / PACKETS)
depths = sorted({depth for _, depth, _ in figures})
print("| a packet | " + " | ".join("depth %d" % depth for depth in depths) + " |")
print("|---|" + "---|" * len(depths))
for what, name in NAMES.items():
    for side in ("old", "new"):
        cells = ["%.1f" % figures[what, depth, side] for depth in depths]
        print("| %s, %s | " % (name, side) + " | ".join(cells) + " |")
