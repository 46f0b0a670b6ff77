"""Jobs done one after another in this process, or by Dask: on this machine, or by the workers of a scheduler."""
import contextlib
import importlib.util
import logging
import os
import pathlib
import signal
import tempfile
import threading
import zipfile
from multiprocessing import resource_tracker

from .many import FAILED, Row, one
from .trouble import MISSING, READING, Trouble

PACKAGE = pathlib.Path(__file__).resolve().parent
# Starting the workers takes some seconds, and each task goes through a scheduler; so they are started for work that takes longer by one
# process than this. What a file takes is a part for each and a part for its bytes, of which a stream has fewer than a mesh.
SMALL_WORK = 30.0  # seconds
SECONDS_A_FILE = 0.05
BYTES_A_SECOND = {"pack": 3e6, "verify": 3e6, "gltf": 3e6, "unpack": 5e5, "recode": 1e6}


def seconds_of(jobs):
    """About how long the jobs take one after another."""
    return sum(SECONDS_A_FILE + size_of(job.source) / BYTES_A_SECOND[job.do] for job in jobs)


def size_of(path):
    try:
        return os.path.getsize(path)
    except OSError:
        return 0


def is_by_dask(given, jobs):
    """Whether Dask does the work: where it was asked for, or where it is there, the work is long, and there are processors for it."""
    if given.one_by_one or given.scheduler or given.workers:
        return not given.one_by_one
    return (os.cpu_count() or 1) > 1 and seconds_of(jobs) > SMALL_WORK and is_dask_there()


def is_dask_there():
    return importlib.util.find_spec("distributed") is not None


def rows_of(jobs, given):
    """A row for each job, as soon as it is done."""
    return rows_by_dask(jobs, given) if is_by_dask(given, jobs) else map(one, jobs)


def zipped(folder):
    """The package as a file for the workers of a cluster."""
    path = pathlib.Path(folder) / "drcfiles.zip"
    with zipfile.ZipFile(path, "w") as file:
        for it in sorted(PACKAGE.rglob("*.py")):
            file.write(it, it.relative_to(PACKAGE.parent))
    return str(path)


@contextlib.contextmanager
def interrupts_later():
    """An interrupt that comes meanwhile waits until the end. Processes and threads that are started meanwhile take no notice of Ctrl-C, which
    a terminal sends to all processes of a program: this one ends them."""
    before = signal.getsignal(signal.SIGINT)
    if threading.current_thread() is not threading.main_thread() or before == signal.SIG_IGN:
        yield
        return
    resource_tracker.ensure_running()  # which would take the mask away when a worker starts it
    came = []
    signal.signal(signal.SIGINT, lambda *_: came.append(True))
    mask = signal.pthread_sigmask(signal.SIG_BLOCK, {signal.SIGINT})
    try:
        yield
    finally:
        signal.pthread_sigmask(signal.SIG_SETMASK, mask)
        signal.signal(signal.SIGINT, before)
    if came:
        raise KeyboardInterrupt


def open_client(given, count, folder, opened):
    """Opens a client of the scheduler that was named, or workers on this machine and their client; what was opened last is the client."""
    try:
        import distributed
    except ImportError:
        raise Trouble("Dask is missing: apt-get install python3-dask python3-distributed; --one-by-one works without it", MISSING) from None
    logging.getLogger("distributed").setLevel(logging.CRITICAL)
    if given.scheduler:
        try:
            opened.append(distributed.Client(given.scheduler, timeout=10, set_as_default=False))
        except (OSError, ValueError) as why:
            raise Trouble(f"the scheduler {given.scheduler} doesn't answer: {' '.join(str(why).split())[:100]}", READING) from None
        opened[-1].upload_file(zipped(folder))
        return
    opened.append(distributed.LocalCluster(n_workers=min(given.workers or os.cpu_count() or 1, count), threads_per_worker=1, processes=True, dashboard_address=None,
                                           silence_logs=logging.CRITICAL, local_directory=folder))
    opened.append(distributed.Client(opened[-1], set_as_default=False))


def rows_by_dask(jobs, given):
    """The rows in the order in which workers end them. A task whose worker ends is done by another one."""
    opened = []
    with tempfile.TemporaryDirectory() as folder:
        try:
            with interrupts_later():
                open_client(given, len(jobs), folder, opened)
            import distributed

            client = opened[-1]
            made = client.map(one, jobs, pure=False, retries=0)
            futures = dict(zip((it.key for it in made), jobs))
            for future in distributed.as_completed(made, loop=client.loop):
                job = futures[future.key]
                try:
                    yield future.result()
                except Exception as why:  # the worker ended, again and again
                    yield Row(job.file, FAILED, type(why).__name__, "", size_of(job.source), 0, "", "", job.words, "each worker that took it ended")
                future.release()
        finally:
            with interrupts_later():
                for it in reversed(opened):
                    it.close()
