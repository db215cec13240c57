"""Files and commands of good runs, written by hand. The scripts of tools/ turn them into bad ones."""
import dataclasses
import struct

ONE = b"range N 2\nindex N i j\ntensor A[N]\ntensor B[N]\ntensor C[N,N]\nC[i,j] = A[i] * B[j]\n"

# Two elements by two, with a sum.
SUM = b"range N 2\nindex N i j k\ntensor F[N,N]\ntensor G[N,N]\ntensor H[N,N]\nH[i,j] = sum{k}(F[i,k] * G[k,j])\n"

# Two formulas over matrices: the result of the first is an operand of the second.
STEPS = (
    b"range N 2\nindex N i j k\ntensor F[N,N]\ntensor G[N,N]\ntensor U[N,N]\ntensor W[N,N]\n"
    b"U[i,j] = sum{k}(F[i,k] * G[k,j])\nW[i,j] = sum{k}(U[i,k] * F[k,j])\n"
)

TWO = (
    b"range I 5\nrange J 7\nrange K 2\nindex I i\nindex J j\nindex K k l\ntensor A[I,K]\ntensor B[J,K]\ntensor C[I,J]\n"
    b"C[i,j] = (sum{k}(A[i,k])) * (sum{l}(B[j,l]))\n"
)

FOUR = (
    b"range V 3000\nrange O 100\nindex V a b c d e f\nindex O i j k l\ntensor A[V,V,O,O]\ntensor B[V,V,V,O]\n"
    b"tensor C[V,V,O,O]\ntensor D[V,V,V,O]\ntensor S[V,V,O,O]\n"
    b"S[a,b,i,j] = sum{c,k}(sum{d,f}(sum{e,l}(B[b,e,f,l] * D[c,d,e,l]) * C[d,f,j,k]) * A[a,c,i,k])\n"
)

# P has an array file, K has none. No part of the formula is one.
TILED = b"range N 5 tile 2\nindex N i\ntensor P[N]\ntensor K[N]\ntensor C[N]\nC[i] = (2 * P[i] - (K[i] + 1))\n"

CERTIFICATE = (
    b"tce certificate 1\nnode 0 sum loops i,k fused - size 5\nnode 1 sum loops j,l fused j size 1\n"
    b"node 2 product loops j,i result\nmemory 6\ntable 0 2\nrow 5 -\nrow 1 i\ntable 1 2\nrow 7 -\nrow 1 j\nend\n"
)


def words(*numbers):
    """The numbers as little-endian words."""
    return struct.pack(f"<{len(numbers)}Q", *numbers)


def array(extents, edges, elements):
    """The array file of the elements, which stand tile by tile with their padding."""
    return b"TCARRAY1" + words(len(extents), *extents, *edges, *elements)


FILES = {
    "one.tce": ONE,
    "A.tca": array([2], [1], [1, 2]),
    "B.tca": array([2], [1], [3, 4]),
    "sum.tce": SUM,
    "F.tca": array([2, 2], [1, 1], [1, 2, 3, 4]),
    "G.tca": array([2, 2], [1, 1], [5, 6, 7, 8]),
    "steps.tce": STEPS,
    "two.tce": TWO,
    "two.cert": CERTIFICATE,
    "four.tce": FOUR,
    "tiled.tce": TILED,
    "p.flat": words(1, 2, 3, 4, 5),
    "P.tca": array([5], [2], [1, 2, 3, 4, 5, 0]),
    "H.sym": b"TCSYMM01" + words(0, 1, 0, 1, 2, 3),
    "other.txt": b"a file that no command names\n",
}

FOUR_REPORT = b"""tce plan 1
node 0 product loops b,c,d,f,e,l fused b,c,d,e,f,l size 1
node 1 sum loops b,c,d,f,e,l fused b,c,d,f size 1
node 2 product loops b,c,d,f,j,k fused b,c,d,f,j,k size 1
node 3 sum loops b,c,d,f,j,k fused b,c size 10000
node 4 product loops b,c,a,i,j,k fused a,b,c,i,j,k size 1
node 5 sum loops b,c,a,i,j,k result
memory 10004
"""


@dataclasses.dataclass(frozen=True)
class Command:
    """A command whose run is good: its words, the files that it reads, the file that it writes, and its report.

    Where the bytes of the output are not fixed, `written` is None. `beside` are the files that it makes beside the
    output; they may hold anything where it fails. `earlier` are the files of the results that it writes before the
    output, in order, each with its bytes. `free` are the places of the words that may be any text: of one that is no more
    than text the status is 14.
    """

    name: str
    words: tuple
    reads: tuple
    report: bytes
    output: str = None
    written: bytes = None
    beside: tuple = ()
    earlier: tuple = ()
    free: tuple = ()


COMMANDS = [
    Command(
        "run",
        (b"run", b"one.tce", b"3"),
        ("one.tce", "A.tca", "B.tca"),
        b"tce run 1\nnode 0 product loops i,j result\nmemory 0\ntiles 3\nwrote C.tca 80\n",
        "C.tca",
        array([2, 2], [1, 1], [3, 4, 6, 8]),
    ),
    Command(
        "run of a sum",
        (b"run", b"sum.tce", b"3"),
        ("sum.tce", "F.tca", "G.tca"),
        b"tce run 1\nnode 0 product loops i,j,k fused i,j,k size 1\nnode 1 sum loops i,j,k result\nmemory 1\ntiles 3\n"
        b"wrote H.tca 80\n",
        "H.tca",
        array([2, 2], [1, 1], [19, 22, 43, 50]),
    ),
    Command(
        "batch",
        (b"batch", b"steps.tce", b"3"),
        ("steps.tce", "F.tca", "G.tca"),
        b"tce batch 1\nformula 1\nnode 0 product loops i,j,k fused i,j,k size 1\nnode 1 sum loops i,j,k result\nmemory 1\n"
        b"tiles 3\nwrote U.tca 80\nformula 2\nnode 0 product loops i,j,k fused i,j,k size 1\n"
        b"node 1 sum loops i,j,k result\nmemory 1\ntiles 3\nwrote W.tca 80\n",
        "W.tca",
        array([2, 2], [1, 1], [85, 126, 193, 286]),
        earlier=(("U.tca", array([2, 2], [1, 1], [19, 22, 43, 50])),),
    ),
    Command(
        "spill",
        (b"spill", b"sum.tce", b"3", b"0"),
        ("sum.tce", "F.tca", "G.tca"),
        b"tce spill 1\npiece 0 memory 0 tiles 3\npiece 1 memory 0 tiles 3\nwrote H.tca 80\n",
        "H.tca",
        array([2, 2], [1, 1], [19, 22, 43, 50]),
        earlier=(("spill-0.tca", array([2, 2, 2], [1, 1, 1], [5, 14, 6, 16, 15, 28, 18, 32])),),
    ),
    Command("plan", (b"plan", b"four.tce"), ("four.tce",), FOUR_REPORT),
    Command(
        "cert",
        (b"cert", b"two.tce", b"new.cert"),
        ("two.tce",),
        b"tce cert 1\nmemory 6\nwrote new.cert 187\n",
        "new.cert",
    ),
    Command(
        "check",
        (b"check", b"two.tce", b"two.cert"),
        ("two.tce", "two.cert"),
        b"tce check 1\naccepted memory 6\n",
    ),
    Command(
        "pack",
        (b"pack", b"tiled.tce", b"K", b"p.flat"),
        ("tiled.tce", "p.flat"),
        b"tce pack 1\nwrote K.tca 80\n",
        "K.tca",
        array([5], [2], [1, 2, 3, 4, 5, 0]),
    ),
    Command(
        "unpack",
        (b"unpack", b"tiled.tce", b"P", b"q.flat"),
        ("tiled.tce", "P.tca"),
        b"tce unpack 1\nwrote q.flat 40\n",
        "q.flat",
        words(1, 2, 3, 4, 5),
    ),
    Command(
        "convert",
        (b"convert", b"tiled.tce", b"P", b"4"),
        ("tiled.tce", "P.tca"),
        b"tce convert 1\nwrote P.v2.tca 64\n",
        "P.v2.tca",
        b"TCARRAY2" + words(1, 4, 5, 2) + struct.pack("<6I", 1, 2, 3, 4, 5, 0),
    ),
    Command(
        "expand",
        (b"expand", b"sum.tce", b"H"),
        ("sum.tce", "H.sym"),
        b"tce expand 1\nwrote H.tca 80\n",
        "H.tca",
        array([2, 2], [1, 1], [1, 2, 2, 3]),
    ),
    Command(
        "einsum",
        (b"einsum", b"ik,kj->ij@i=2,k=2,j=2", b"0,1", b"mm.tce"),
        (),
        b"tce einsum 1\nnodes 2\nwrote mm.tce 111\n",
        "mm.tce",
        b"range N0 2\nindex N0 i k j\ntensor X0[N0,N0]\ntensor X1[N0,N0]\ntensor Y[N0,N0]\n"
        b"Y[i,j] = sum{k}(X0[i,k] * X1[k,j])\n",
        free=(1, 2),
    ),
    Command(
        "demo",
        (b"demo", b"1", b"1", b"1"),
        (),
        b"tce demo 1\nmemory 5\ntiles 5\nsum 168\n",
        "demoS.tca",
        array([1, 1, 1, 1], [1, 1, 1, 1], [168]),
        ("demo.tce", "demoA.tca", "demoB.tca", "demoC.tca", "demoD.tca"),
    ),
]
