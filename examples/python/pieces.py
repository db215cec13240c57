"""A product cut along an index that is in the middle of an operand, by four processes."""
from concurrent.futures import ProcessPoolExecutor

import numpy

import cabunlit

if __name__ == "__main__":
    A, B = (numpy.random.default_rng(seed).integers(0, 2**63, (512, 512)) for seed in (1, 2))
    spec = cabunlit.Specification({"N": (512, 64)}, {"N": "i j k"}, {"A": "N N", "B": "N N", "C": "N N"},
                                  "C[i,j] = sum{k}(A[i,k] * B[k,j])")
    made = cabunlit.cut(spec, "j", 4, {"A": A, "B": B}, folder="product-in-pieces")
    with ProcessPoolExecutor(4) as workers:
        cabunlit.run_pieces(made, workers, memory="1 MiB")
    print(len(made.bounds), "pieces, right:", (numpy.asarray(cabunlit.join(made, "C.tca")) == A @ B).all())
