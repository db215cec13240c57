"""A transformation of four indexes, along the path that numpy finds, in 1 MiB."""
import numpy

import cabunlit

draw = numpy.random.default_rng(7)
V, U = draw.integers(-50, 50, (24, 24, 24, 24)), draw.integers(-50, 50, (24, 24))
T = cabunlit.einsum("ap,bq,cr,ds,pqrs->abcd", U, U, U, U, V, memory="1 MiB")
due = numpy.einsum("ap,bq,cr,ds,pqrs->abcd", U, U, U, U, V, optimize=True)
print(T.nbytes, "bytes, right:", (numpy.asarray(T) == due).all())
