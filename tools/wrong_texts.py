"""Texts that `plain.py pack` refuses: the text, the line that is wrong, and words that must be said of it."""

FIRST = "`nodes N` must come first"
PARENT = "is not `CHILD PARENT`"
REQUEST = "is neither `combine NODE` nor `write NODE VALUE`"

TREES = [
    ("", 1, FIRST),
    ("# nodes 3\n\nnode 3\n", 3, FIRST),
    ("nodes\n", 1, FIRST),
    ("nodes 3 4\n", 1, FIRST),
    ("1 0\nnodes 2\n", 1, FIRST),
    ("nodes x\n", 1, "node count 'x' is not a number from 1 to 256"),
    ("nodes 0\n", 1, "node count '0' is not a number from 1 to 256"),
    ("nodes 257\n", 1, "node count '257' is not"),
    ("nodes " + "9" * 5000, 1, "9...' is not a number"),
    ("nodes 3\n1 0\n2\n", 3, PARENT),
    ("nodes 3\n1 0\n2 0 0\n", 3, PARENT),
    ("nodes 3\n1 0\nchild 0\n", 3, "child 'child' is not a number"),
    ("nodes 3\n1 0\n2 1_0\n", 3, "parent '1_0' is not a number"),
    ("nodes 3\n1 0\n2 \u00b9\n", 3, "parent '\u00b9' is not a number"),
    ("nodes 3\n1 0\n2 -1\n", 3, "parent '-1' is not a number from 0 to 255"),
    ("nodes 256\n256 0\n", 2, "child '256' is not a number from 0 to 255"),
    ("nodes 3\n1 0\n2 0\n\n3 0\n", 5, "child 3 is not in a tree of 3 nodes"),
    ("nodes 3\n1 0\n2 2\n", 3, "parent 2 is not smaller than its child 2"),
    ("nodes 3\n1 2\n2 0\n", 2, "parent 2 is not smaller than its child 1"),
    ("nodes 3\n0 0\n", 2, "parent 0 is not smaller than its child 0"),
    ("nodes 3\n1 0\n2 0\n1 0\n", 4, "child 1 has a line already"),
    ("#\nnodes 4\n3 0\n1 0\n", 2, "child 2 of 4 nodes has no line"),
]

REQUESTS = [
    ("combine 0\nread 0\n", 2, f"'read 0' {REQUEST}"),
    ("Combine 0\n", 1, REQUEST),
    ("combine\n", 1, REQUEST),
    ("combine 0 1\n", 1, REQUEST),
    ("write 0\n", 1, REQUEST),
    ("\n\nwrite 0 1 2\n", 3, REQUEST),
    ("combine x\n", 1, "node 'x' is not a number"),
    ("combine 256\n", 1, "node '256' is not a number from 0 to 255"),
    ("write -1 0\n", 1, "node '-1' is not"),
    ("write 0 1.5\n", 1, "value '1.5' is not a number"),
    ("write 0 2147483648\n", 1, "value '2147483648' is not a number from -2147483648 to 2147483647"),
    ("write 0 -2147483649\n", 1, "value '-2147483649' is not"),
    ("combine 0\n" * 4097, 4097, "at most 4096 requests"),
]
