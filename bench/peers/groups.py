"""Python's own grouping, `format(n, ',')`."""

import sys

sys.set_int_max_str_digits(0)
write = sys.stdout.write
for line in sys.stdin:
    whole, point, fraction = line.rstrip("\n").partition(".")
    sign = "-" if whole.startswith("-") else ""
    write(sign + format(abs(int(whole)), ",") + point + fraction + "\n")
