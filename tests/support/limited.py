"""Files that take some bytes and no further one, as on a full disk."""

import contextlib
import resource


@contextlib.contextmanager
def small_files(most):
    """In it files take so many bytes and no further one, also from programs that are started there."""
    before = resource.getrlimit(resource.RLIMIT_FSIZE)
    resource.setrlimit(resource.RLIMIT_FSIZE, (most, before[1]))
    try:
        yield
    finally:
        resource.setrlimit(resource.RLIMIT_FSIZE, before)
