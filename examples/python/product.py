"""A product of two matrices in a quarter of the memory that one of them takes."""
import numpy

import cabunlit

A, B = (numpy.random.default_rng(seed).integers(-1000, 1000, (512, 512)) for seed in (1, 2))
C = cabunlit.einsum("ij,jk->ik", A, B, memory=A.nbytes // 4)
print(C.shape, "in more than one tile:", C.chunks < C.shape, "right:", (numpy.asarray(C) == A @ B).all())
