"""Forks of a process whose threads use bitmaps."""

import threading
import unittest
from unittest import mock

from mortarpink import ClosedError, _session
from mortarpink._library import CALLS
from support import bitmap_of, run_script


class Forks(unittest.TestCase):
    def test_a_fork_while_a_thread_is_in_calls(self):
        printed = run_script(
            "import os, signal, threading, warnings",
            "warnings.simplefilter('ignore')",
            "bitmap = Bitmap(64)",
            "with bitmap.batch(1) as batch:",
            "    batch.push_bytes(bytes(1 << 22))",
            "def read():",
            "    while True:",
            "        bitmap.count_ones()",
            "threading.Thread(target=read, daemon=True).start()",
            "def child():",
            "    signal.alarm(20)",
            "    with bitmap.batch(2) as batch:",
            "        batch.push(True)",
            "    os._exit(bitmap.count_ones() + bitmap.latest)",
            "for _ in range(20):",
            "    process = os.fork()",
            "    if process == 0:",
            "        child()",
            "    status = os.waitstatus_to_exitcode(os.waitpid(process, 0)[1])",
            "    if status != 3:",
            "        break",
            "print(status, bitmap.count_ones(), bitmap.latest)",
        )
        self.assertEqual(printed, ("3 0 1\n", ""))

    def test_a_fork_in_a_batch(self):
        printed = run_script(
            "import os",
            "bitmap = Bitmap()",
            "with bitmap.batch(1) as batch:",
            "    batch.push(True)",
            "    process = os.fork()",
            "    batch.push(process == 0)",
            "    if process:",
            "        os.waitpid(process, 0)",
            "print(process == 0, list(bitmap.ones()), flush=True)",
        )
        self.assertEqual(printed, ("True [0, 1]\nFalse [0]\n", ""))

    def test_a_fork_waits_for_a_call(self):
        bitmap, started, end = bitmap_of("1"), threading.Event(), threading.Event()

        def count_ones(*_arguments):
            started.set()
            end.wait(60)
            return 0

        with mock.patch.dict(CALLS, count_ones=count_ones):
            thread = threading.Thread(target=bitmap.count_ones)
            thread.start()
            started.wait()
            forking = threading.Thread(target=lambda: (_session.take_locks(), _session.release_locks()))
            forking.start()
            forking.join(0.05)
            self.assertTrue(forking.is_alive())
            end.set()
            forking.join(60)
            thread.join(60)
        self.assertFalse(forking.is_alive())
        self.assertEqual(bitmap.count_ones(), 1)

    def test_a_signal_while_a_fork_waits(self):
        """No lock stays taken in the parent, and the child has what no thread uses."""
        printed = run_script(
            "import os, signal, sys, threading, warnings",
            "warnings.simplefilter('ignore')",
            "sys.unraisablehook = lambda raised: print(raised.exc_type.__name__, flush=True)",
            "used, free = Bitmap(), Bitmap()",
            "taken, end = threading.Event(), threading.Event()",
            "def hold():",
            "    with used._session.lock:",
            "        taken.set()",
            "        end.wait(60)",
            "thread = threading.Thread(target=hold)",
            "thread.start()",
            "taken.wait()",
            "signal.signal(signal.SIGALRM, signal.default_int_handler)",
            "signal.setitimer(signal.ITIMER_REAL, 1)",
            "process = os.fork()",
            "if process == 0:",
            "    print(free.length, used, flush=True)",
            "    os._exit(0)",
            "os.waitpid(process, 0)",
            "end.set()",
            "thread.join()",
            "threading.Thread(target=lambda: print(free.length, used.length)).start()",
        )
        self.assertEqual(printed, ("KeyboardInterrupt\n0 <mortarpink.Bitmap, closed>\n0 0\n", ""))

    def test_a_bitmap_in_a_call_of_a_thread_is_closed_in_the_child(self):
        """What the child does if the fork has not waited."""
        bitmap, other, end = bitmap_of("1"), bitmap_of("1"), threading.Event()
        taken = threading.Event()

        def hold():
            with bitmap._session.lock:
                taken.set()
                end.wait(60)

        thread = threading.Thread(target=hold)
        thread.start()
        taken.wait()
        with mock.patch.dict(CALLS, free=mock.Mock()):
            handle = bitmap._session.handle
            _session.lose_sessions()
            self.assertRaises(ClosedError, bitmap.count_ones)
            bitmap.close()
            CALLS["free"].assert_not_called()
        self.assertEqual(other.count_ones(), 1)
        end.set()
        thread.join()
        CALLS["free"](handle)
