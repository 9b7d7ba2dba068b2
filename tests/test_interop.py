"""Other implementations of QUIC: the table of cases and its checks, and five of the cases where everything they need is there.

`interop/peers/run` runs all of them (docs/interop.md).
"""
import os
import pathlib
import subprocess
import sys
import tempfile
import unittest

from test_programs import ROOT

INTEROP = pathlib.Path(ROOT) / "interop"
sys.path.insert(0, str(INTEROP))

from common import packages, site  # noqa: E402
from peers import cases, checks, drivers, running, table  # noqa: E402
from quinn import layout  # noqa: E402

FIVE = (
    "ngtcp2-client/mix",
    "quic-go-client/cancelled-without-credit-hq",
    "quic-go-server/two-thousand-streams",
    "caddy-server/side-by-side",
    "quinn-server/0rtt-rejected",
)
HASHES = {"/a": "11", "/b": "22"}
# Two files over HTTP/3.
EXAMPLE = running.Case("example", drivers.THESE, drivers.QUIC_GO, paths=("/a", "/b"))


def missing():
    """Why the five cases cannot run here, or None."""
    absent = packages.missing(layout.PACKAGES + table.PACKAGES)
    if absent:
        return f"{len(absent)} packages are not installed, {absent[0]} among them: interop/peers/run installs them"
    folder = pathlib.Path(os.environ.get("QUIC_STREAMS_LIB_DIR", layout.ROOT / "build" / "lib"))
    if not (folder / "libquic_streams.a").is_file():
        return "the library is not there: make"
    if not (layout.BUILD / f"peer-{layout.OURS}").is_file():
        return "the peers are not built: interop/peers/run builds them, in some minutes"
    return None


class Table(unittest.TestCase):
    def test_each_case_has_a_name_and_one_endpoint_under_test(self):
        found = cases.all_cases()
        self.assertGreaterEqual(len(found), 80)
        self.assertEqual(len({case.name for case in found}), len(found))
        for case in found:
            self.assertEqual((case.server, case.client).count(drivers.THESE), 1, case.name)
            self.assertTrue(case.paths or case.protocol == "echo", case.name)

    def test_each_implementation_is_met_in_each_role_it_has(self):
        met = {(case.server, case.client) for case in cases.all_cases()}
        self.assertEqual(met, {(server, client) for client, server in cases.PAIRS})

    def test_the_five_are_in_the_table(self):
        self.assertEqual(set(FIVE) - {case.name for case in cases.all_cases()}, set())

    def test_the_site_has_what_cases_fetch(self):
        files = {f"/{name}" for name in site.SIZES} | set(drivers.all_small()) | set(drivers.all_parts()) | {"/up", "/unread"}
        for case in cases.all_cases():
            self.assertEqual({path.split("?")[0] for path in case.paths} - files, set(), case.name)


class Checks(unittest.TestCase):
    """A check returns a reason if something is wrong."""

    def outcome(self, case=EXAMPLE, **files):
        """What a case would have left with these files, by names such as client_out."""
        folder = tempfile.TemporaryDirectory()
        self.addCleanup(folder.cleanup)
        for name, text in files.items():
            (pathlib.Path(folder.name) / name.replace("_", ".")).write_text(text, encoding="utf-8")
        return running.Outcome(case, pathlib.Path(folder.name), HASHES)

    def test_files(self):
        right = "file /a 200 5 11 3\nfile /b 200 5 22 4\n"
        self.assertIsNone(checks.files_received(self.outcome(client_out=right)))
        for wrong in ("", right.replace("22", "33"), right.replace("200", "404"), right.splitlines()[0], right + right):
            self.assertIsNotNone(checks.files_received(self.outcome(client_out=wrong)), wrong)

    def test_frames(self):
        told = "sent FrameStats { ACK: 3, STREAM: 7 }\nreceived FrameStats { ACK: 3, STREAM: 0 }\n"
        made = self.outcome(server_out=told)
        self.assertEqual(made.frames("sent"), {"ACK": 3, "STREAM": 7})
        self.assertIsNone(checks.saw("STREAM", "sent", 7)(made))
        self.assertIsNotNone(checks.saw("STREAM", "sent", 8)(made))
        self.assertIsNotNone(checks.saw("STREAM", "received")(made))

    def test_early_data(self):
        self.assertIsNone(checks.early("rejected")(self.outcome(client_out="early rejected\n")))
        self.assertIsNotNone(checks.early("accepted")(self.outcome(client_out="early rejected\n")))
        self.assertIsNotNone(checks.early("accepted")(self.outcome(client_out="")))

    def test_echoes(self):
        back = "echo bidirectional=5 unidirectional=5 datagrams=9\n"
        self.assertIsNone(checks.echoed(5, 10, 0.9)(self.outcome(client_out=back)))
        self.assertIsNotNone(checks.echoed(5, 10)(self.outcome(client_out=back)))
        self.assertIsNotNone(checks.echoed(6)(self.outcome(client_out=back)))

    def test_order(self):
        paths = tuple(f"/a?{number}" for number in range(8))
        case = running.Case("order", drivers.THESE, drivers.QUIC_GO, paths=paths)

        def reason(order):
            lines = "".join(f"file {path} 200 5 11 3\n" for path in order)
            return checks.in_order_of_priority(self.outcome(case, client_out=lines))

        last_first = paths[::-1]
        self.assertIsNone(reason(last_first))
        self.assertIsNone(reason((last_first[1], last_first[0], *last_first[2:])))
        for wrong in (paths, last_first[:7], last_first[4:] + last_first[:4], paths[:1] + last_first[:7]):
            self.assertIsNotNone(reason(wrong), wrong)

    def test_an_error_of_the_connection_fails_a_case(self):
        made = self.outcome(client_out="file /a 200 5 11 3\nfile /b 200 5 22 4\n", server_out="closed error: 7\n")
        self.assertEqual(made.failure(), "closed error: 7")


class Meetings(unittest.TestCase):
    def test_five_cases(self):
        reason = missing()
        if reason:
            self.skipTest(reason)
        run = [str(INTEROP / "peers" / "run"), *FIVE]
        done = subprocess.run(run, stdout=subprocess.PIPE, stderr=subprocess.STDOUT, text=True, timeout=300)
        self.assertEqual(done.returncode, 0, done.stdout)
        for name in FIVE:
            self.assertRegex(done.stdout, rf"(?m)^{name} +these +passes")


if __name__ == "__main__":
    unittest.main()
