"""Netlists and circuits in the package `bbmlab`."""

import sys
import unittest

import support

sys.path.insert(0, str(support.LAB / "public"))
import bbmlab  # noqa: E402

FREDKIN = bbmlab.Circuit().input("c", "x", "y").gate("fredkin c x y -> d u v").output("u", "v", "d")
HALF_ADDER = "circuit\ninput a b\nxor a b -> sum\nand a b -> carry\noutput sum carry\nend\n"


class Circuits(unittest.TestCase):
    """What can be asked of circuits and made of them."""

    def test_netlists(self) -> None:
        """Netlists are read, and become circuits."""
        netlist = bbmlab.read_netlist(HALF_ADDER)
        self.assertEqual((netlist.form, netlist.inputs, netlist.outputs, netlist.stored),
                         ("gates", ("a", "b"), ("sum", "carry"), ()))
        circuit = bbmlab.to_conservative(netlist)
        self.assertEqual(circuit, bbmlab.to_conservative(HALF_ADDER))
        self.assertEqual([(sorted(row.inputs), sorted(row.outputs or ()), row.gate) for row in bbmlab.table(circuit)],
                         [([], [], None), (["b"], ["sum"], None), (["a"], ["sum"], None),
                          (["a", "b"], ["carry"], None)])
        machine = bbmlab.read_netlist(".model m\n.outputs q\n.latch n q 0\n.names q n\n0 1\n.end\n", form="blif")
        self.assertEqual((machine.form, machine.stored), ("blif", ("q",)))
        self.assertEqual(bbmlab.to_conservative(machine, cycles=2).inputs, ("q_start",))
        self.assertEqual(bbmlab.to_conservative(machine, cycles=2, state="initial").inputs, ())

    def test_refused(self) -> None:
        """Wrong texts and arguments are errors of the API."""
        for call in (lambda: bbmlab.read_netlist("circuit\nend\n"), lambda: bbmlab.read_netlist("", form="verilog"),
                     lambda: bbmlab.read_netlist("x", form="pla"), lambda: bbmlab.to_conservative(HALF_ADDER, cycles=1),
                     lambda: bbmlab.to_conservative(HALF_ADDER, state="none"),
                     lambda: bbmlab.to_conservative(".model m\n.latch a a\n.outputs a\n.end\n"),
                     lambda: bbmlab.table(bbmlab.Circuit().input(*(f"i{at}"
                                                                   for at in range(13))).spill(*(f"i{at}"
                                                                                                 for at in range(
                                                                                                     13))))):
            self.assertRaises(ValueError, call)
        self.assertRaises(bbmlab.RefusedError, bbmlab.table, bbmlab.Circuit().input("a"))
        self.assertRaises(bbmlab.NotFoundError, bbmlab.inverse, bbmlab.Circuit().input("a").spill("a"))

    def test_changes(self) -> None:
        """The inverse, a circuit without garbage, and a smaller one."""
        self.assertEqual(str(bbmlab.inverse(FREDKIN)), "circuit\ninput u\ninput v\ninput d\nfredkin d u v -> c x y\n"
                         "output c\noutput x\noutput y\nend\n")
        self.assertEqual(bbmlab.inverse(bbmlab.inverse(FREDKIN)), FREDKIN)
        circuit = bbmlab.to_conservative(HALF_ADDER)
        cleaned = bbmlab.clean(circuit)
        self.assertEqual(cleaned.outputs, ("sum", "carry", "sum_not", "carry_not"))
        found = bbmlab.equivalent(circuit, cleaned)
        self.assertEqual((found.is_equal, found.difference[:27]), (False, "only one of them has the ou"))
        self.assertEqual(bbmlab.equivalent(circuit, cleaned, common=True),
                         bbmlab.Comparison(True, "", "in all 4 choices of the inputs"))
        double = FREDKIN.gate("delay 1 d -> e")
        self.assertEqual(len(bbmlab.simplify(bbmlab.Circuit(double.inputs, double.gates, ("u",), ("v", "e"))).gates), 1)

    def test_stats(self) -> None:
        """The figures of a circuit and of a bundle."""
        self.assertEqual(bbmlab.stats(FREDKIN),
                         {"inputs": 3, "outputs": 3, "constants": 0, "garbage": 0, "gates": 1, "fredkin": 1, "depth": 1,
                          "width": 3})
        layout = bbmlab.Layout(8, 8, 3).in_cell("p", 2, 2).out_cell("p", 5, 5)
        figures = bbmlab.stats(bbmlab.Bundle(bbmlab.Circuit().input("p").output("p"), layout))
        self.assertEqual([figures[name] for name in ("area", "steps", "area times steps", "mirrors", "in cells")],
                         [64, 3, 192, 0, 1])

    def test_rows_without_values(self) -> None:
        """A row names the gate that has no row."""
        rows = bbmlab.table(bbmlab.Circuit().input("c", "y", "z").gate("unswitch c y z -> d x").output("d", "x"))
        self.assertEqual([row.gate for row in rows], [None, None, 0, 0, None, 0, None, 0])
        self.assertIsNone(rows[2].outputs)
