"""driver.py POINT..: hits these points one after the other, and prints what each hit returned: `go`, or `return(ARGUMENT)`."""
import sys

from paklour_points import hit

for point in sys.argv[1:]:
    answer = hit(point)
    print("go" if answer is None else f"return({answer})", flush=True)
