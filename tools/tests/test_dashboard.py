"""The picture of the dashboard: samples, expressions, panels, and a run over the stub."""
from __future__ import annotations

import contextlib
import io
import unittest
from unittest import mock
from xml.etree import ElementTree

from tools import dashboard
from tools.dashboard import DASHBOARD, Panel, Sample, values_of
from trials.lib import stub

TEXT = """\
# HELP urbd_node_up 1 if the node answers.
# TYPE urbd_node_up gauge
urbd_node_up{base_port="7400",node="1"} 1
urbd_node_up{base_port="7400",node="2"} 0
urbd_node_state{base_port="7400",node="1",state="ready"} 1
urbd_cap_messages{base_port="7400"} 100
urbd_node_accepted_messages_total{base_port="7400",node="1"} 40
urbd_node_accepted_messages_total{base_port="7400",node="2"} 1e+01
"""


def accepted(moment: float, count: int) -> Sample:
    """A sample in which node 1 has accepted so many messages."""
    return Sample(moment, {"urbd_accepted": {"1": float(count)}})


class Expressions(unittest.TestCase):
    def test_a_sample_has_the_values_of_nodes_and_of_the_group(self) -> None:
        sample = Sample.read(3.0, TEXT)
        self.assertEqual(sample.moment, 3.0)
        self.assertEqual(
            sample.figures,
            {
                "urbd_node_up": {"1": 1.0, "2": 0.0},
                "urbd_cap_messages": {"": 100.0},
                "urbd_node_accepted_messages_total": {"1": 40.0, "2": 10.0},
            },
        )

    def test_figures_and_quotients(self) -> None:
        samples = [Sample.read(3.0, TEXT)]
        of_cap = "urbd_node_accepted_messages_total{a} / on (b) group_left () urbd_cap_messages{a}"
        for expr, values in (
            ('urbd_node_up{base_port="$base_port"}', {"1": 1.0, "2": 0.0}),
            ("urbd_none", {}),
            (of_cap, {"1": 0.4, "2": 0.1}),
            ("urbd_node_up / urbd_node_up", {"1": 1.0}),
        ):
            with self.subTest(expr):
                self.assertEqual(values_of(expr, samples), values)
        with self.assertRaisesRegex(dashboard.Unknown, "max by"):
            values_of("max by (node) (urbd_node_up)", samples)

    def test_a_rate_is_over_the_samples_of_its_span(self) -> None:
        samples = [accepted(0.0, 5), accepted(10.0, 15), accepted(20.0, 45)]
        self.assertEqual(values_of("rate(urbd_accepted[10s])", samples), {"1": 3.0})
        self.assertEqual(values_of("rate(urbd_accepted{a}[1m])", samples), {"1": 2.0})
        self.assertEqual(values_of("rate(urbd_accepted[1m])", samples[:1]), {})

    def test_values_have_their_unit(self) -> None:
        for value, unit, words in (
            (2.5e6, "bytes", "2.5 MB"),
            (12, "bytes", "12 bytes"),
            (0.5, "bytes", "0.5 bytes"),
            (0.25, "percentunit", "25 %"),
            (3.25, "s", "3.25 s"),
            (7, "none", "7"),
        ):
            with self.subTest(words):
                self.assertEqual(dashboard.told(value, unit), words)


class Pictures(unittest.TestCase):
    def test_a_panel_has_a_line_for_each_series(self) -> None:
        panel = Panel("Accepted <", "none", 60, 30, 100, 58, [("urbd_accepted", "node {{node}}")])
        drawn = "\n".join(panel.draw([accepted(0.0, 0), accepted(10.0, 50)]))
        self.assertIn('points="60.0,88.0 160.0,38.0"', drawn)
        for words in ("Accepted &lt;", "node 1", ">50<", ">10 s<"):
            self.assertIn(words, drawn)

    def test_a_line_breaks_while_a_value_is_not_known(self) -> None:
        parts = list(dashboard.unbroken([(0, None), (1, 5.0), (2, 6.0), (3, None), (4, 7.0)]))
        self.assertEqual(parts, [[(1, 5.0), (2, 6.0)], [(4, 7.0)]])

    def test_a_panel_without_values(self) -> None:
        panel = Panel("None", "s", 60, 30, 100, 58, [("urbd_none", "none")])
        self.assertNotIn("polyline", "\n".join(panel.draw([accepted(0.0, 0)])))

    def test_each_panel_of_the_dashboard_can_be_drawn(self) -> None:
        samples = [Sample.read(0.0, TEXT), Sample.read(1.0, TEXT)]
        picture = ElementTree.fromstring(dashboard.draw(DASHBOARD.read_text(), samples))
        titles = [it.text for it in picture.iter() if it.get("class") == "title"]
        self.assertEqual(len(titles), 8)
        self.assertEqual(titles[0], "Nodes that are up")

    def test_a_run(self) -> None:
        said = io.StringIO()
        with contextlib.redirect_stdout(said), mock.patch.object(dashboard, "EVERY", 0.1):
            status = dashboard.main([str(stub.PATH), "--seconds", "1.5"])
        self.assertEqual(status, 0)
        for name in ("node 1", "node 2", "node 3", "all journals", "disk"):
            self.assertIn(f">{name}</text>", said.getvalue())

    def test_a_program_that_is_not_there(self) -> None:
        error = io.StringIO()
        with contextlib.redirect_stderr(error):
            self.assertEqual(dashboard.main(["/nowhere/urbd"]), 1)
        self.assertEqual(len(error.getvalue().splitlines()), 1)
        self.assertTrue(error.getvalue().startswith("dashboard: "))


if __name__ == "__main__":
    unittest.main()
