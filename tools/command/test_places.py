"""Tests of the line of each event, by lines that are found by hand, and of the data in a page."""
from __future__ import annotations

import json
import os
import sys
import unittest

sys.dont_write_bytecode = True
sys.path.insert(0, os.path.dirname(os.path.dirname(os.path.abspath(__file__))))
from command import page, places, shown  # noqa: E402 (their folder is on the path only now)

# The first scenario of the guide, with its trace.
FIRST = """# One app reads from a device that completes each read at once.
cpus 1
limit 100
objects 16

device D working
  queue Q sequential
    default
    on EvtIoRead
      call WdfRequestComplete request SUCCESS
    end
  end
end

app A
  at 0 read D 16
end
"""
FIRST_TRACE = """1 A read D.2 16 -> req.4
2 cpu0 start EvtIoRead Q.3 req.4
3 cpu0 call WdfRequestComplete req.4 SUCCESS -> SUCCESS
4 cpu0 end EvtIoRead Q.3 SUCCESS
5 fw cleanup req.4
6 fw destroy req.4
finished 6
"""
# Two callbacks on two processors, one of which is parked in a wait, with a loop, branches and a return. Line 1 is `device D working`.
BRANCHES = """device D working
  register R 0
  at 4 set R 1
  at 6 set R 2
  queue Q parallel 2
    default
    on EvtIoRead
      repeat 2
        log 1
      end
      if ( length == 0 )
        call WdfRequestComplete request SUCCESS
        return SUCCESS
      else
        call WdfRequestComplete request UNSUCCESSFUL
      end
      call WdfWaitLockAcquire lock
      if ( length == 1 )
        log 5
      else
        log 5
      end
    end
  end
end
app A
  at 0 read D 0
  at 0 read D 1
end
"""
BRANCHES_TRACE = (
    ("A read D.2 0 -> req.4", 27),
    ("A read D.2 1 -> req.5", 28),
    ("cpu0 start EvtIoRead Q.3 req.4", 7),
    ("cpu1 start EvtIoRead Q.3 req.5", 7),
    ("cpu0 step 8", 8),
    ("cpu1 step 8", 8),
    ("cpu0 log 1", 9),
    ("cpu0 step 8", 8),
    ("cpu1 log 1", 9),
    ("cpu0 log 1", 9),
    ("cpu0 step 8", 8),
    ("cpu0 step 11", 11),
    ("cpu0 call WdfRequestComplete req.4 SUCCESS -> SUCCESS", 12),
    ("cpu0 end EvtIoRead Q.3 SUCCESS", 13),
    ("cpu1 step 8", 8),
    ("cpu1 log 1", 9),
    ("cpu1 step 8", 8),
    ("cpu1 step 11", 11),
    ("cpu1 call WdfRequestComplete req.5 UNSUCCESSFUL -> SUCCESS", 15),
    ("cpu1 wait WdfWaitLockAcquire Lock.6", 17),
    ("cpu1 park 4", 0),
    ("clock tick 4", 0),
    ("D.2 set R 1", 3),
    ("cpu0 unpark 4", 0),
    ("cpu0 woke WdfWaitLockAcquire Lock.6 -> SUCCESS", 17),
    ("cpu0 step 18", 18),
    ("cpu0 log 5", 0),  # (either of two lines)
    ("cpu0 end EvtIoRead Q.3 SUCCESS", 23),
    ("D.2 set R 2", 4),
)


class Places(unittest.TestCase):
    """The line of each event."""

    def test_first(self) -> None:
        self.assertEqual(places.lines_of(FIRST, FIRST_TRACE), [16, 9, 10, 11, 0, 0])

    def test_branches(self) -> None:
        trace = "".join(f"{number} {event}\n" for number, (event, _) in enumerate(BRANCHES_TRACE, 1))
        found = places.lines_of(BRANCHES, trace)
        for number, ((event, due), line) in enumerate(zip(BRANCHES_TRACE, found), 1):
            self.assertEqual(line, due, f"{number} {event}")

    def test_fault(self) -> None:
        trace = FIRST_TRACE.split("3 cpu0")[0] + "3 cpu0 fault NotOwned 10\nfault 3\n"
        self.assertEqual(places.lines_of(FIRST, trace), [16, 9, 10])


class Data(unittest.TestCase):
    """The block of data in a page."""

    HOSTILE = "# </script><script>alert(1)</script> <!-- & \u2028\n"

    def test_it_ends_nowhere_else(self) -> None:
        data = page.data_of("</script>.kmdf", self.HOSTILE, [1, 0], "<b>&amp;")
        text = data.decode("ascii").split(">", 1)[1].rpartition("</script>")[0]
        self.assertFalse(set(text) & set("<>&"))
        self.assertEqual(json.loads(text), {"name": "</script>.kmdf", "script": self.HOSTILE, "lines": [1, 0], "story": "<b>&amp;"})

    def test_it_stands_before_the_script(self) -> None:
        whole = b"<p>&lt;script&gt;\n</p><script>\nrun();\n</script>\n"
        self.assertEqual(page.with_data(whole, b"DATA"), b"<p>&lt;script&gt;\n</p>DATA<script>\nrun();\n</script>\n")


class Joined(unittest.TestCase):
    """A scenario and a trace in one text."""

    def test_split(self) -> None:
        for line in ("trace\n", "  trace # from here on\n", "\ttrace\r\n"):
            self.assertEqual(shown.split(f"{FIRST}{line}{FIRST_TRACE}".encode()), (FIRST.encode(), FIRST_TRACE.encode()))
        self.assertIsNone(shown.split(f"{FIRST}trace it\n# trace\n".encode()))


if __name__ == "__main__":
    unittest.main()
