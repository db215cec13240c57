"""Draws the operands of doubles.tce, and compares its result with numpy's.

make     draws amplitudes, a Fock matrix and antisymmetrized integrals from a seed, and writes a flat file for each operand
compare  compares R.flat with the doubles equation as it is written out without intermediates, its 31 kinds of terms one by
         one (Crawford and Schaefer 2000), in floating point. All numbers are multiples of 1/4 and small, so that is exact.
"""
import sys
import numpy

O, V = 6, 10
occupied, virtual = slice(0, O), slice(O, O + V)


def antisymmetric(array, left, right):
    return array - array.swapaxes(left, right)


def draw():
    """The amplitudes, the Fock matrix and the integrals <pq||rs> over all orbitals, occupied ones first."""
    random = numpy.random.default_rng(1991)
    N = O + V
    t1 = random.integers(-4, 5, (V, O))
    t2 = antisymmetric(antisymmetric(random.integers(-4, 5, (V, V, O, O)), 0, 1), 2, 3)
    f = random.integers(-9, 10, (N, N))
    v = antisymmetric(antisymmetric(random.integers(-9, 10, (N, N, N, N)), 0, 1), 2, 3)
    return t1, t2, f + f.T, v + v.transpose(2, 3, 0, 1)


def blocks(t1, t2, f, v):
    """The operands of doubles.tce by name."""
    off_diagonal = f - numpy.diag(numpy.diag(f))
    spaces = {"o": occupied, "v": virtual}
    made = {"T1": t1, "T2": t2}
    made |= {f"f_{it}": off_diagonal[tuple(spaces[s] for s in it)] for it in ("oo", "ov", "vv")}
    integrals = ("oooo", "ooov", "oovv", "ovvo", "ovvv", "vvvv")
    return made | {f"v_{it}": v[tuple(spaces[s] for s in it)] for it in integrals}


def P_ij(array):
    return antisymmetric(array, 2, 3)


def P_ab(array):
    return antisymmetric(array, 0, 1)


def right_side(t1, t2, f, v):
    """What the doubles amplitudes times their denominators are equal to, without intermediates."""
    t1, t2, f, v = (it.astype(float) for it in (t1, t2, f, v))
    f = f - numpy.diag(numpy.diag(f))
    o, u = occupied, virtual

    def of(text, *operands):
        return numpy.einsum(text + "->abij", *operands, optimize=True)

    foo, fov, fvv = f[o, o], f[o, u], f[u, u]
    oooo, vvvv, oovv, ovvo = v[o, o, o, o], v[u, u, u, u], v[o, o, u, u], v[o, u, u, o]
    vvvo, ovoo, ooov, oovo, ovvv = v[u, u, u, o], v[o, u, o, o], v[o, o, o, u], v[o, o, u, o], v[o, u, u, u]
    vovv, ovov = v[u, o, u, u], v[o, u, o, u]
    R = v[u, u, o, o].copy()
    # doubles alone
    R += P_ab(of("bc,acij", fvv, t2)) - P_ij(of("kj,abik", foo, t2))
    R += of("klij,abkl", oooo, t2) / 2 + of("abcd,cdij", vvvv, t2) / 2
    R += P_ij(P_ab(of("kbcj,acik", ovvo, t2)))
    R += P_ij(P_ab(of("klcd,acik,dblj", oovv, t2, t2))) / 2
    R += of("klcd,cdij,abkl", oovv, t2, t2) / 4
    R -= P_ab(of("klcd,acij,bdkl", oovv, t2, t2)) / 2 + P_ij(of("klcd,abik,cdjl", oovv, t2, t2)) / 2
    # singles alone
    R += P_ij(of("abcj,ci", vvvo, t1)) - P_ab(of("kbij,ak", ovoo, t1))
    R += P_ab(of("klij,ak,bl", oooo, t1, t1)) / 2 + P_ij(of("abcd,ci,dj", vvvv, t1, t1)) / 2
    R -= P_ij(P_ab(of("kbic,ak,cj", ovov, t1, t1)))
    R -= P_ij(P_ab(of("kbcd,ci,ak,dj", ovvv, t1, t1, t1))) / 2
    R += P_ij(P_ab(of("klcj,ci,ak,bl", oovo, t1, t1, t1))) / 2
    R += P_ij(P_ab(of("klcd,ci,ak,dj,bl", oovv, t1, t1, t1, t1))) / 4
    # singles times doubles
    R += P_ab(of("kc,ak,bcij", fov, t1, t2)) + P_ij(of("kc,ci,abjk", fov, t1, t2))
    R -= P_ij(of("klci,ck,ablj", oovo, t1, t2))
    R += P_ab(of("kacd,ck,dbij", ovvv, t1, t2))
    R += P_ij(P_ab(of("akdc,di,bcjk", vovv, t1, t2)))
    R += P_ij(P_ab(of("klic,al,bcjk", ooov, t1, t2)))
    R += P_ij(of("klcj,ci,abkl", oovo, t1, t2)) / 2
    R -= P_ab(of("kbcd,ak,cdij", ovvv, t1, t2)) / 2
    # singles twice times doubles
    R -= P_ij(of("klcd,ck,di,ablj", oovv, t1, t1, t2)) + P_ab(of("klcd,ck,al,dbij", oovv, t1, t1, t2))
    R += P_ij(of("klcd,ci,dj,abkl", oovv, t1, t1, t2)) / 4 + P_ab(of("klcd,ak,bl,cdij", oovv, t1, t1, t2)) / 4
    R += P_ij(P_ab(of("klcd,ci,bl,adkj", oovv, t1, t1, t2)))
    return R


if __name__ == "__main__":
    if sys.argv[1:] == ["make"]:
        for name, array in blocks(*draw()).items():
            numpy.ascontiguousarray(array, dtype="<i8").tofile(f"{name}.flat")
    else:
        found = numpy.fromfile("R.flat", dtype="<i8").reshape(V, V, O, O)
        due = 8 * right_side(*draw())
        print("equal to eight times numpy's" if (found == due).all() else "DIFFERS from eight times numpy's")
