"""The caller's bytes, lent to the library where they are: no copy is made."""
import contextlib
import ctypes

SIMPLE = 0  # PyBUF_SIMPLE: bytes in one run


class _Buffer(ctypes.Structure):
    """Python's Py_buffer."""

    _fields_ = [
        ('buf', ctypes.c_void_p),
        ('obj', ctypes.c_void_p),
        ('len', ctypes.c_ssize_t),
        ('itemsize', ctypes.c_ssize_t),
        ('readonly', ctypes.c_int),
        ('ndim', ctypes.c_int),
        ('format', ctypes.c_void_p),
        ('shape', ctypes.c_void_p),
        ('strides', ctypes.c_void_p),
        ('suboffsets', ctypes.c_void_p),
        ('internal', ctypes.c_void_p),
    ]


# ctypes gives the address of writable objects only; Python's own call gives that of read-only maps and bytes too.
_get = ctypes.pythonapi.PyObject_GetBuffer
_get.argtypes = (ctypes.py_object, ctypes.POINTER(_Buffer), ctypes.c_int)
_get.restype = ctypes.c_int
_release = ctypes.pythonapi.PyBuffer_Release
_release.argtypes = (ctypes.POINTER(_Buffer),)
_release.restype = None

# An empty buffer may have no address, and the library takes no null pointer.
_somewhere = ctypes.c_uint8()


def flat(data):
    """A view of data's bytes. While it lives the owner can neither be resized nor closed."""
    view = memoryview(data)
    if not view.c_contiguous:
        raise BufferError('the bytes do not stand in one run')
    # A view with a 0 in its shape cannot be cast.
    return view.cast('B') if view.nbytes else memoryview(b'')


def writable(data):
    """The same, of a buffer that can be written to."""
    if memoryview(data).readonly:
        raise BufferError('the output is read-only')
    return flat(data)


@contextlib.contextmanager
def lent(view):
    """Address and length of a view's bytes, which is held meanwhile so that no thread can release it."""
    held = _Buffer()
    _get(view, ctypes.byref(held), SIMPLE)
    try:
        yield held.buf or ctypes.addressof(_somewhere), held.len
    finally:
        _release(ctypes.byref(held))


class Closing:
    """Is closed where a `with` that has it ends."""

    __slots__ = ()

    def __enter__(self):
        return self

    def __exit__(self, *_):
        self.close()


class Holder(Closing):
    """Holds the caller's bytes until it is closed. The parts that it handed out hold them by themselves."""

    def __init__(self, *files):
        self._files = [flat(file) for file in files]
        try:
            self._read()
        except BaseException:
            # The error's traceback keeps this object, and with it the caller could not close a map.
            self.close()
            raise

    def _read(self):
        """What is asked of the files at the start."""
        raise NotImplementedError

    def close(self):
        for file in self._files:
            file.release()

    def part(self, place, length, which=0):
        """So many bytes of a file from a place on."""
        return self._files[which][place:place + length]


def overlap(one, other):
    """Whether two views have a byte in common."""
    with lent(one) as (start, length), lent(other) as (other_start, other_length):
        return start < other_start + other_length and other_start < start + length
