"""Shows that something which takes long still runs."""
import contextlib
import sys
import threading
import time


@contextlib.contextmanager
def shown(what, seconds=10):
    """While the block runs, prints each so many seconds on standard error for how long it has."""
    begun, is_over = time.monotonic(), threading.Event()

    def tell():
        while not is_over.wait(seconds):
            print(f"{what}: {time.monotonic() - begun:.0f} s ..", file=sys.stderr, flush=True)

    thread = threading.Thread(target=tell, daemon=True)
    thread.start()
    try:
        yield
    finally:
        is_over.set()
        thread.join()
