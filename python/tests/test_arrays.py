"""Array files: what is written is read again, in bounded memory, and nothing is converted in silence."""
import gc
import os
import pickle
import resource
import subprocess
import sys
from math import prod

import numpy
import pytest
from hypothesis import given, strategies as some

from cabunlit import create_array, einsum, evaluate, open_array, write_array
from cabunlit.errors import ArrayError, DiskFault, FileChanged
from cabunlit.heads import head_bytes, is_whole
from cabunlit.tiles import bands, counts_of

WORDS = some.integers(-2**63, 2**63 - 1)


@some.composite
def arrays(draw, most_rank=4):
    """An array of words with edges of tiles."""
    shape = tuple(draw(some.lists(some.integers(1, 6), max_size=most_rank)))
    edges = tuple(draw(some.integers(1, n)) for n in shape)
    dtype = draw(some.sampled_from(["<i8", "<u8", "<i4"]))
    seed = draw(some.integers(0, 2**32 - 1))
    words = numpy.random.default_rng(seed).integers(0, 256, (*shape, numpy.dtype(dtype).itemsize), dtype="u1")
    return numpy.ascontiguousarray(words).view(dtype).reshape(shape), edges


@some.composite
def keys(draw, shape):
    """An index for each dimension: a number, a slice, a list or a mask; and dots, or a mask for two dimensions."""
    found = []
    for n in shape:
        kind = draw(some.integers(0, 5))
        if kind == 0:
            found.append(draw(some.integers(-n, n - 1)))
        elif kind == 1:
            found.append(slice(draw(some.integers(-n, n)), draw(some.integers(-n, n)), draw(some.sampled_from([1, 2, -1]))))
        elif kind == 2:
            found.append(draw(some.lists(some.integers(-n, n - 1), min_size=2, max_size=2)))
        elif kind == 3:
            found.append(numpy.array([draw(some.booleans())] * n))
        else:
            found.append(slice(draw(some.none() | some.integers(0, n)), draw(some.none() | some.integers(0, n))))
    at = draw(some.integers(0, 2 * len(found) + 2))
    if at < len(found):
        found[at:at + draw(some.integers(1, 2))] = [...]
    elif len(found) > 1 and at == 2 * len(found):
        found[:2] = [numpy.arange(shape[0] * shape[1]).reshape(shape[:2]) % 3 == 0]
    return tuple(found)


@given(arrays())
def test_what_is_written_is_read(given_array):
    array, edges = given_array
    tiled = write_array("A.tca", array, edges, flush=False)
    assert tiled.shape == array.shape and tiled.chunks == edges and tiled.dtype == array.dtype
    assert (numpy.asarray(tiled) == array).all()
    assert tiled.nbytes == array.nbytes and tiled.ndim == array.ndim and tiled.size == array.size


@given(arrays().flatmap(lambda it: some.tuples(some.just(it), keys(it[0].shape))))
def test_slices_are_those_of_numpy(found):
    (array, edges), key = found
    tiled = write_array("A.tca", array, edges, flush=False)
    try:
        due = array[key]
    except IndexError:  # (lists that do not go side by side)
        with pytest.raises(IndexError):
            tiled[key]
        return
    assert tiled[key].shape == due.shape and (tiled[key] == due).all() and type(tiled[key]) is type(due)
    assert (tiled[...] == array).all()


@pytest.mark.parametrize("key", [[], numpy.array(1), (numpy.int32(1), numpy.uint8(2)), [[0, 1], [2, 0]], ([0, 1], [1, 2]),
                                 numpy.ix_([0, 1], [1, 2]), (slice(None), [[3]]), (numpy.arange(12).reshape(3, 4) > 5,)])
def test_other_keys_are_those_of_numpy(key):
    array = numpy.arange(12).reshape(3, 4)
    tiled = write_array("A.tca", array, 2)
    assert tiled[key].shape == array[key].shape and (tiled[key] == array[key]).all()


def test_elements_that_change_while_they_are_read(monkeypatch):
    tiled = write_array("A.tca", numpy.arange(12), 2)
    for read in (lambda: numpy.asarray(tiled), lambda: tiled[2:5], lambda: tiled[[1, 2]]):
        answers = iter([False, True])
        monkeypatch.setattr(tiled, "changed", lambda: next(answers))
        with pytest.raises(FileChanged):
            read()


@given(arrays(3))
def test_blocks_lead_back_to_the_array(given_array):
    array, edges = given_array
    tiled = write_array("A.tca", array, edges, flush=False)
    again = write_array("B.tca", iter(tiled), edges, shape=array.shape, flush=False)
    assert (numpy.asarray(again) == array).all()
    with create_array("C.tca", array.shape, edges, array.dtype, flush=False) as writer:
        for region, block in tiled.tiles():
            writer[region] = block
    assert (numpy.asarray(open_array("C.tca")).view(array.dtype) == array).all()


@given(arrays(3))
def test_the_files_are_those_of_the_format(given_array):
    array, edges = given_array
    write_array("A.tca", array, edges, flush=False)
    with open("A.tca", "rb") as file:
        found = file.read()
    due = [head_bytes(array.shape, edges, array.dtype.itemsize)]
    counts = [-(-n // e) for n, e in zip(array.shape, edges)]
    for number in numpy.ndindex(*counts):
        tile = numpy.zeros(edges, array.dtype)
        part = array[tuple(slice(t * e, t * e + e) for t, e in zip(number, edges))]
        tile[tuple(map(slice, part.shape))] = part
        due.append(tile.tobytes())
    assert found == b"".join(due)


def test_views_are_taken_as_they_are():
    array = numpy.arange(48).reshape(4, 6, 2)
    for view in (array[::2], array[:, 1:5], array.transpose(1, 0, 2)):
        assert (numpy.asarray(write_array("A.tca", view, 2)) == view).all()


@pytest.mark.parametrize("array, says", [
    (numpy.ones((2, 2)), "float64"), (numpy.ones(2, ">i8"), "highest byte first"), (numpy.ones(2, "i2"), "4 with a sign"),
    (numpy.asfortranarray(numpy.ones((2, 3), "<i8")), "ascontiguousarray"), (numpy.ones(2, bool), "bool"), ([[1, 2]], "list"),
    (numpy.ones((2, 0), "<i8"), "1 to 2"), (numpy.ones(2, complex), "complex"), (numpy.ones(2, "u4"), "4 with a sign"),
    (numpy.ma.masked_array(numpy.ones(2, "<i8"), [True, False]), "masked: take filled"), (numpy.array([1, None]), "object"),
    (numpy.zeros(2, [("a", "<i8")]), "fields"), (numpy.array(["A.tca"]), "open_array"), (numpy.ones((1,) * 9, "<i8"), "8 dimensions"),
])
def test_what_is_refused(array, says):
    with pytest.raises(ArrayError, match=says):
        write_array("A.tca", array, 2)
    assert not os.path.exists("A.tca") and os.listdir(".") == []


@pytest.mark.parametrize("chunks", [0, -1, (1,), (1, 2, 3), 1.5, "auto", None, (1, 2.0), numpy.array([1, 0])])
def test_edges_that_are_refused(chunks):
    with pytest.raises(ArrayError):
        write_array("A.tca", numpy.ones((2, 2), "<i8"), chunks)
    with pytest.raises(ArrayError, match="2.20"):
        create_array("A.tca", (2000, 2000), 2000)


@pytest.mark.parametrize("chunks", [numpy.int64(2), [2, numpy.int32(2)], numpy.array([2, 2])])
@pytest.mark.parametrize("array", [numpy.arange(9).reshape(3, 3).view(numpy.matrix), numpy.ma.masked_array(numpy.arange(9).reshape(3, 3)),
                                   -numpy.arange(9, dtype="<i4").reshape(3, 3), numpy.arange(36).reshape(6, 6)[::-2, ::2],
                                   numpy.broadcast_to(numpy.arange(3), (3, 3))])
def test_arrays_of_other_kinds(array, chunks):
    tiled = write_array("A.tca", array, chunks)
    assert tiled.chunks == (2, 2) and type(numpy.asarray(tiled)) is numpy.ndarray and (numpy.asarray(tiled) == array).all()


@given(arrays(), some.integers(8, 200))
def test_bands_are_the_whole_but_for_padding(given_array, most):
    array, edges = given_array
    due = numpy.zeros((*counts_of(array.shape, edges), *edges), array.dtype)
    for place in numpy.ndindex(array.shape):
        due[(*(it // edge for it, edge in zip(place, edges)), *(it % edge for it, edge in zip(place, edges)))] = array[place]
    assert all(prod(it.counts) * prod(it.edges) * array.itemsize <= max(most, array.itemsize)
               for it in bands(array.shape, edges, array.itemsize, most))
    with create_array("A.tca", array.shape, edges, array.dtype, flush=False) as writer:
        writer.write_bands(array, most)
    assert numpy.fromfile("A.tca", "u1")[-due.nbytes:].tobytes() == due.tobytes()


def test_blocks_that_do_not_fit():
    block = numpy.ones(2, "<i8")
    for blocks in ([block], [block] * 3, [block, numpy.ones(3, "<i8")]):
        with pytest.raises(ArrayError):
            write_array("A.tca", iter(blocks), 2, shape=(4,))
    with pytest.raises(ArrayError):
        write_array("A.tca", iter([block, block]), 2)
    assert os.listdir(".") == []


def test_regions_that_do_not_fit():
    with create_array("A.tca", (4, 4), 2) as writer:
        rows = (slice(0, 2), slice(0, 4))
        for region, block in [(0, numpy.ones(4, "<i8")), (slice(0, 2), numpy.ones((2, 4), "<i8")),
                              (rows, numpy.ma.masked_array(numpy.ones((2, 4), "<i8"), True)), (rows, numpy.ones((2, 4), bool)),
                              (rows, numpy.ones((2, 4), "<i4")), (rows, numpy.ones((2, 2), "<i8")), (rows, numpy.ones((2, 4))),
                              ((slice(0, 4, 2), slice(0, 4)), numpy.ones((2, 4), "<i8"))]:
            with pytest.raises(ArrayError):
                writer[region] = block
        writer[0:2, 2:4] = numpy.full((2, 2), 2**64 - 1, "<u8")
    assert (numpy.asarray(open_array("A.tca")) == [[0, 0, -1, -1]] * 2 + [[0] * 4] * 2).all()


@pytest.mark.parametrize("shape", [(2, -2), (2.0,), (0,), ("2",), (2**32,)])
def test_shapes_that_are_refused(shape):
    with pytest.raises(ArrayError, match="dimensions of 1 to"):
        create_array("A.tca", shape, 1)
    assert os.listdir(".") == []


def test_a_writer_that_is_given_up_leaves_nothing():
    writer = create_array("A.tca", (4, 4), 2)
    assert len(os.listdir(".")) == 1
    del writer
    gc.collect()
    assert os.listdir(".") == []


def test_a_writer_that_is_finished():
    with create_array("A.tca", (4, 4), 2) as writer:
        writer[0:4, 0:4] = numpy.ones((4, 4), "<i8")
        writer.finish()
    writer.finish()
    writer.abandon()
    with pytest.raises(ArrayError, match="A.tca is finished.*create_array"):
        writer[0:4, 0:4] = numpy.zeros((4, 4), "<i8")
    assert (numpy.asarray(open_array("A.tca")) == 1).all() and os.listdir(".") == ["A.tca"]


def test_a_shape_of_one_dimension():
    with create_array("A.tca", 5, 2) as writer:
        writer[1:3] = numpy.array([1, 2])
    assert open_array("A.tca")[:].tolist() == [0, 1, 2, 0, 0]


def test_an_old_file_stays_until_the_new_one_is_whole():
    old = write_array("A.tca", numpy.arange(4), 2)
    with pytest.raises(ZeroDivisionError):
        with create_array("A.tca", (4,), 2) as writer:
            writer[0:2] = numpy.ones(2, "<i8")
            assert (numpy.asarray(old) == numpy.arange(4)).all() and not is_whole(writer._name)
            1 / 0
    assert os.listdir(".") == ["A.tca"] and (numpy.asarray(old) == numpy.arange(4)).all()
    write_array("A.tca", numpy.zeros(4, "<i8"), 2)
    with pytest.raises(FileChanged):
        numpy.asarray(old)


def test_files_that_are_no_arrays():
    with pytest.raises(FileNotFoundError):
        open_array("A.tca")
    whole = head_bytes((2,), (2,)) + bytes(16)
    for content, says in [(b"", "not finished"), (bytes(40), "not finished"), (whole[:-1], "cut short"), (whole + b"x", "cut short"),
                          (b"NUMPY" + whole, "no array"), (head_bytes((2,), (3,)) + bytes(24), "edges"), (whole[:12], "no head")]:
        with open("A.tca", "wb") as file:
            file.write(content)
        with pytest.raises(ArrayError, match=says):
            open_array("A.tca")
        assert not is_whole("A.tca")


def test_a_disk_without_room():
    code = ("import resource, numpy, cabunlit\nresource.setrlimit(resource.RLIMIT_FSIZE, (4096, 4096))\n"
            "import signal; signal.signal(signal.SIGXFSZ, signal.SIG_IGN)\n"
            "try:\n    cabunlit.write_array('A.tca', numpy.ones(10000, '<i8'), 100)\n"
            "except cabunlit.errors.DiskFault as error:\n    print('refused', error.status)\n")
    said = subprocess.run([sys.executable, "-c", code], capture_output=True, text=True, env={**os.environ, "PYTHONPATH": _package()})
    assert said.stdout == "refused 8\n", said.stderr
    assert os.listdir(".") == []


def test_a_folder_that_is_not_there():
    with pytest.raises(DiskFault):
        write_array("nowhere/A.tca", numpy.ones(2, "<i8"), 1)


def _package():
    import cabunlit
    return os.path.dirname(os.path.dirname(cabunlit.__file__))


def test_memory_is_bounded():
    code = ("import numpy, resource, cabunlit\n"
            "array = numpy.zeros((4096, 4096), '<i8'); array[:] = 1\n"
            "before = resource.getrusage(resource.RUSAGE_SELF).ru_maxrss\n"
            "cabunlit.write_array('A.tca', array, 64, flush=False)\n"
            "print(resource.getrusage(resource.RUSAGE_SELF).ru_maxrss - before)\n")
    said = subprocess.run([sys.executable, "-c", code], capture_output=True, text=True, env={**os.environ, "PYTHONPATH": _package()})
    assert int(said.stdout) < 64 * 1024, said.stderr
    assert resource.getpagesize() and (open_array("A.tca")[-1, -1]) == 1


@pytest.mark.parametrize("sign", [0, 1])
@pytest.mark.parametrize("pair", [(0, 1), (0, 2), (1, 2)])
def test_pairs_that_are_stored_once(pair, sign):
    draw = numpy.random.default_rng(3)
    shape = tuple(4 if d in pair else 3 for d in range(3))
    whole = draw.integers(-9, 9, shape)
    turned = whole.swapaxes(*pair)
    whole = whole - turned if sign else whole + turned
    last = numpy.moveaxis(whole, pair, (-2, -1)).swapaxes(-2, -1)
    rows, columns = numpy.tril_indices(4, -sign)
    with open("A.sym", "wb") as file:
        file.write(b"TCSYMM01" + numpy.array([*pair, sign], "<u8").tobytes() + last[..., rows, columns].astype("<i8").tobytes())
    found = open_array("A.sym", shape=shape)
    assert found.pair == pair and found.antisymmetric == bool(sign)
    assert (numpy.asarray(found) == whole).all()
    assert (found[1, ::-1, 2] == whole[1, ::-1, 2]).all()
    assert (numpy.asarray(write_array("A.tca", found, 2)) == whole).all()


def test_four_bytes_an_element():
    array = numpy.array([-2**31, 2**31 - 1, 0], "<i4")
    tiled = write_array("A.tca", array, 2)
    assert tiled.dtype == numpy.dtype("<i4") and os.path.getsize("A.tca") == 40 + 16
    with pytest.raises(ArrayError, match="<i4"):
        tiled.view("<i8")
    with pytest.raises(ArrayError):
        open_array("A.tca", "<f4")


def test_dask_arrays_go_in_and_out():
    dask_array = pytest.importorskip("dask.array")
    array = numpy.arange(35).reshape(5, 7)
    tiled = write_array("A.tca", dask_array.from_array(array, chunks=(2, 3)), (3, 2))
    assert (numpy.asarray(tiled) == array).all()
    lazy = tiled.to_dask()
    assert lazy.chunks == ((3, 2), (2, 2, 2, 1)) and lazy.dtype == tiled.dtype
    assert int((lazy[1:, ::2] * 2).sum()) == int((array[1:, ::2] * 2).sum())
    assert (numpy.asarray(write_array("B.tca", dask_array.ones((), dtype="<i8"), ())) == 1).all()
    unknown = lazy[lazy[:, 0] > 3]
    for call in (lambda: write_array("C.tca", unknown, 2), lambda: einsum("ij->ji", unknown)):
        with pytest.raises(ArrayError, match="compute_chunk_sizes"):
            call()
    assert sorted(os.listdir(".")) == ["A.tca", "B.tca"]


def test_slices_read_few_bytes():
    write_array("A.tca", numpy.zeros((2048, 2048), "<i8"), 64)
    code = ("import os, cabunlit\n"
            "tiled = cabunlit.open_array('A.tca')\nbefore = resident()\nassert int(tiled[100:110, 100:110].sum()) == 0\n"
            "print(resident() - before)\n")
    head = ("def resident():\n    return next(int(it.split()[1]) for it in open('/proc/self/status') if it.startswith('RssFile'))\n")
    said = subprocess.run([sys.executable, "-c", head + code], capture_output=True, text=True,
                          env={**os.environ, "PYTHONPATH": _package()})
    assert int(said.stdout) < 1024, said.stderr


def test_indexes_that_are_refused():
    tiled = write_array("A.tca", numpy.arange(6).reshape(2, 3), 2)
    for key in [2, -3, (2,), (0, 0, 0), (0, 3), (0, -4), (Ellipsis, Ellipsis), ([0.5],), (numpy.array([[2]]),), [-3], 1.0, "a", None, True,
                numpy.True_, numpy.ones((2, 4), bool), ([0, 1], [0, 1, 2]), numpy.array([], "<f8")]:
        with pytest.raises(IndexError):
            tiled[key]
    assert tiled[numpy.array([True, False])].tolist() == [[0, 1, 2]] and tiled[[1, 0], 2].tolist() == [5, 2]
    assert len(tiled) == 2 and tiled[-1, -1] == 5
    with pytest.raises(ValueError, match="leave copy= out"):
        tiled.__array__(copy=False)
    assert int(sum(block.sum() for block in tiled)) == 15


def test_another_process_opens_the_file():
    array = numpy.arange(6, dtype="<u8").reshape(2, 3)
    tiled = write_array("A.tca", array, 2)
    again = pickle.loads(pickle.dumps(tiled))
    assert again.path == tiled.path and again.dtype == tiled.dtype and (numpy.asarray(again) == array).all()
    assert len(pickle.dumps(write_array("B.tca", numpy.zeros(10000, "<i8"), 100))) < 1000


def test_a_view_keeps_a_temporary_file():
    found = evaluate("C[i] = 0 - A[i]", A=numpy.arange(3)).view("<u8")
    gc.collect()
    assert numpy.asarray(found).tolist() == [0, 2**64 - 1, 2**64 - 2]


def test_a_forked_process_leaves_a_temporary_file():
    found = evaluate("C[i] = 0 - A[i]", A=numpy.arange(3))
    process = os.fork()
    if process == 0:
        try:
            del found
            gc.collect()
        finally:
            os._exit(0)
    assert os.waitpid(process, 0)[1] == 0 and numpy.asarray(found).tolist() == [0, -1, -2]


def test_files_have_the_rights_of_new_ones():
    before = os.umask(0o027)
    try:
        write_array("A.tca", numpy.arange(3), 2)
        assert os.stat("A.tca").st_mode & 0o777 == 0o640 and os.umask(0o027) == 0o027
    finally:
        os.umask(before)


def test_a_file_of_pairs_is_an_operand():
    with open("S.sym", "wb") as file:
        file.write(b"TCSYMM01" + numpy.array([0, 1, 1, 5, -6, 7], "<i8").tobytes())
    pairs = open_array("S.sym")
    whole = numpy.array([[0, 5, -6], [-5, 0, 7], [6, -7, 0]])
    assert (numpy.asarray(pairs) == whole).all()
    assert (einsum("ij,jk", pairs, pairs, out=numpy.ndarray, chunks=2) == whole @ whole).all()
    assert (evaluate("C[i,j] = S[i,j] - S[j,i]", S=pairs, out=numpy.ndarray) == 2 * whole).all()
