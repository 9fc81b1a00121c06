"""Words that are refused, and some that just aren't."""
from __future__ import annotations

import random

from rules import built

from .tables import drop_word

DROPS = ["", "01", "0", "1,", ",1", "1,,2", "2,1", "1,1", "+1", "-1", "1 ", " 1", "4294967296", "1.0", "a", "1,2,x", "٣", "1;2", "0,1", "1,02"]
WORDS = [[], ["sim", "drop=1", "drop=2"]] + [["sim", f"drop={drops}"] for drops in DROPS]
WORDS += [[""], ["sim", ""], ["run"], ["SIM"], ["sim "], ["drop=1", "sim"], ["sim", "sim"], ["check"]]
WORDS += [["sim", word] for word in ("drop", "drops=1", "Drop=1", "seed=1", "=1", "drop=4294967295", "drop=1,4294967295")]
WORDS += [["sim", "drop=1\udcff"], ["\udcff"]]  # an argument that is no text


# those of a program that runs every plan
ALL_WORDS = [f"seed={text}" for text in ("0", "1", "18446744073709551615", "18446744073709551616", "01", "-1", "", "1e3", "٣", "9" * 400)]
ALL_WORDS += [f"{name}={number}" for name in ("loss", "repeat") for number in ("0", "900", "901", "00", "+1")]
ALL_WORDS += ["delay=0", "delay=64", "delay=65", "rounds=0", "rounds=1", "rounds=10000000", "rounds=10000001", "tally=yes", "tally=no", "tally="]
ALL_WORDS += ["tally=No", "mute=0:-1", "mute=-1:63", "mute=0:64", "mute=-2:0", "mute=0", "mute=0:0:0", "mute=00:1", "mute=:", "mute=-0:1", "mute= 0:1"]


def faulty_words(rng: random.Random, turn: int) -> list[str]:
    """Words that are none of the command's, or just are: each of the list in turn, and every third time a long list of drops."""
    if turn % 3 == 2 and built.EVERY_PLAN and turn % 12 != 11:
        return ["sim", *rng.choices(ALL_WORDS, k=rng.choice([1, 1, 2, 3]))]
    if turn % 3 == 2:
        return ["sim", drop_word(rng.sample(range(1, 2**32), rng.choice([1, 63, 64, 65, 66])))]
    return WORDS[(turn - turn // 3) % len(WORDS)]
