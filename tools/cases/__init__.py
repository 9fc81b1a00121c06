"""Documents and words made at random, with a count of what they cover, and how a failing one is made small."""
