#!/usr/bin/env python3
"""Three updates that overlap finish in every order."""

# The order in which they finish, and what is published each time.
ORDERS = [
    ((1, 2, 3), (1, 2, 3)),
    ((1, 3, 2), (1, 1, 3)),
    ((2, 1, 3), (0, 2, 3)),
    ((2, 3, 1), (0, 0, 3)),
    ((3, 1, 2), (0, 1, 3)),
    ((3, 2, 1), (0, 0, 3)),
]

for order, published in ORDERS:
    print("# run --page 4 --providers 3 --replicas 2")
    print(f"# Three updates that overlap finish in the order {', '.join(map(str, order))}.")
    print("create\n# blob 1")
    print("start-append 1 616263646566\n# ticket 1 version 1 at 0 size 6")
    print("start-write 1 3 55565758595a\n# ticket 2 version 2 at 3 size 9")
    print("start-write 1 2 3132\n# ticket 3 version 3 at 2 size 9")
    for ticket, last in zip(order, published):
        print(f"finish {ticket}\n# published {last}")
    print("read 1 1 0 6\n# data 616263646566")
    print("read 1 2 0 9\n# data 61626355565758595a")
    print("read 1 3 0 9\n# data 61623132565758595a")
    print()
