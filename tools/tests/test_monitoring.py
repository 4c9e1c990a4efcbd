"""What is held of the alerts, the dashboard and the page about them."""
from __future__ import annotations

import json

from tools.checks import monitoring
from tools.checks.monitoring import DASHBOARD, FIGURES, MONITORING, OPERATIONS, PICTURE, RULES
from tools.tests.trees import TreeTest
from tools.tree import Tree

TABLE = """
    # Running

    | alert on | when | why |
    |---|---|---|
    | `urbdctl check` | at once | it stays |
    | share of the cap (`check`) | 80 % | it refuses |

    | other | table |
"""
ALERTS = """
    groups:
      - name: urbd
        rules:
          - alert: Down
            expr: urbd_up == 0
            annotations:
              row: "urbdctl check"
          - alert: NearCap
            expr: >-
              urbd_accepted
              / urbd_cap > 0.8
            for: 1m
            annotations:
              row: "share of the cap (check)"
              summary: "urbd_none isn't in an expression"
"""
PRINTED = """
    UP = Metric("urbd_up", "Whether it is up.")
    CAP = Metric("urbd_cap", "The cap.")
    ACCEPTED = Metric(
        "urbd_accepted", "How many it has accepted.", "counter"
    )
"""
PAGE = "| `urbd_up` | |\n| `urbd_cap`, `urbd_accepted` | |\n"


class Alerts(TreeTest):
    def rules(self, old: str = "", new: str = "") -> Tree:
        """A tree with the alerts, in which this text is replaced."""
        return self.tree({OPERATIONS: TABLE, RULES: ALERTS.replace(old, new), FIGURES: PRINTED})

    def test_an_expression_may_go_on_in_the_next_line(self) -> None:
        found = monitoring.alerts_of(self.rules().text_of(RULES))
        told = [(alert.line, alert.name, alert.expr, alert.row) for alert in found]
        self.assertEqual(
            told,
            [
                (4, "Down", "urbd_up == 0", "urbdctl check"),
                (8, "NearCap", "urbd_accepted / urbd_cap > 0.8", "share of the cap (check)"),
            ],
        )

    def test_each_row_has_an_alert(self) -> None:
        self.holds(monitoring.alerts(self.rules()))
        self.holds(
            monitoring.alerts(self.rules("urbdctl check", "urbdctl chek")),
            f"{OPERATIONS}:5: no alert stands for `urbdctl check`",
            f"{RULES}:4: Down stands for no row of {OPERATIONS}",
        )

    def test_an_alert_has_the_limit_of_its_row(self) -> None:
        self.holds(
            monitoring.alerts(self.rules("0.8", "0.9")),
            f"{RULES}:8: NearCap doesn't alert at 80 %",
        )

    def test_a_page_without_the_table(self) -> None:
        self.holds(monitoring.alerts(self.tree({})), f"{OPERATIONS}: has no table of alerts")


class Figures(TreeTest):
    def test_each_name_is_printed(self) -> None:
        panel = {"title": "Up", "targets": [{"expr": "urbd_upp"}, {"expr": "time()"}]}
        tree = self.tree(
            {
                RULES: ALERTS.replace("urbd_up ", "urbd_down "),
                FIGURES: PRINTED,
                MONITORING: PAGE.replace("urbd_cap", "urbd_capp"),
                DASHBOARD: json.dumps({"panels": [panel]}),
            }
        )
        self.holds(
            monitoring.figures(tree),
            f"{RULES}:4: urbdctl metrics prints no urbd_down",
            f"{DASHBOARD}: Up: urbdctl metrics prints no urbd_upp",
            f"{DASHBOARD}: Up: names no figure",
            f"{MONITORING}: `urbd_cap` is printed or told, and not both",
            f"{MONITORING}: `urbd_capp` is printed or told, and not both",
        )

    def test_names_that_are_all_printed(self) -> None:
        files = {RULES: ALERTS, FIGURES: PRINTED, MONITORING: PAGE}
        self.holds(monitoring.figures(self.tree(files)))

    def test_the_picture_has_each_panel(self) -> None:
        panels = [{"title": "Up", "targets": []}, {"title": "Cap", "targets": []}]
        files = {DASHBOARD: json.dumps({"panels": panels}), PICTURE: "<text>Up</text>"}
        self.holds(monitoring.picture(self.tree(files)), f"{PICTURE}: has no panel 'Cap'")
