"""Logs read: CSV and VCD files by the names of variables, and what is refused."""
import os
import tempfile
import unittest

from logs import LogFault, rows_of

VCD = """$date today $end
$timescale 1 ms $end
$scope module top $end
$var wire 1 ! clk $end
$var wire 1 " door $end
$var wire 8 # level [7:0] $end
$scope module inner $end
$var reg 1 $ lamp $end
$upscope $end
$upscope $end
$enddefinitions $end
#0
$dumpvars
0!
0"
b00000000 #
1$
$end
#5
1!
1"
#10
0!
b101 #
0$
#15
1!
"""


class Logs(unittest.TestCase):
    def rows(self, text, variables, ending="csv", columns=None, **more):
        with tempfile.TemporaryDirectory() as folder:
            path = os.path.join(folder, "log." + ending)
            with open(path, "w", newline="", encoding="utf-8") as file:
                file.write(text)
            return list(rows_of(path, variables, columns or {}, **more))

    def fault(self, *words, **more):
        with self.assertRaises(LogFault) as caught:
            self.rows(*words, **more)
        return str(caught.exception)

    def test_columns_are_found_by_name(self):
        text = "time,grant,other,request\n0.0,1,x,0\n0.5,false,x,TRUE\n"
        self.assertEqual(self.rows(text, ["request", "grant"]), [("0.0", "01"), ("0.5", "10")])

    def test_without_a_column_for_labels_rows_have_their_lines(self):
        self.assertEqual(self.rows("p\n1\n0\n\n", ["p"]), [("2", "1"), ("3", "0")])

    def test_other_separators_and_a_byte_order_mark(self):
        for mark in ";\t":
            self.assertEqual(self.rows(f"\ufeffp{mark} q\r\non{mark}no\r\n", ["q", "p"]), [("2", "01")])

    def test_a_column_of_another_name(self):
        self.assertEqual(self.rows("door.open,t\n1,a\n", ["p"], columns={"p": "door.open"}), [("a", "1")])

    def test_wrong_columns_are_told_by_name(self):
        self.assertIn("no column is named grant; there are: request, grunt", self.fault("request,grunt\n1,0\n", ["request", "grant"]))
        self.assertIn("2 columns are named p", self.fault("p,p\n1,0\n", ["p"]))

    def test_what_is_no_truth_is_told_by_name_and_line(self):
        for value in ("x", "z", "2", "", "-1", "1.0"):
            self.assertIn(f":3: q is '{value}', which is no truth", self.fault(f"p,q\n1,0\n1,{value}\n", ["p", "q"]))
        self.assertIn(":3: the row ends before the column of q", self.fault("p,q\n1,0\n1\n", ["p", "q"]))

    def test_vcd_at_each_time(self):
        self.assertEqual(self.rows(VCD, ["door", "lamp"], "vcd"), [("#0", "01"), ("#5", "11"), ("#10", "10"), ("#15", "10")])

    def test_vcd_at_rises_has_the_values_before(self):
        self.assertEqual(self.rows(VCD, ["door", "lamp"], "vcd", clock="clk"), [("#5", "01"), ("#15", "10")])

    def test_vcd_at_periods(self):
        wanted = [("#0", "01"), ("#3", "01"), ("#6", "11"), ("#9", "11"), ("#12", "10"), ("#15", "10")]
        self.assertEqual(self.rows(VCD, ["door", "lamp"], "vcd", period=3), wanted)

    def test_where_a_vcd_file_ends(self):
        """A last time without a change is no instant; with one it is."""
        wanted = [("#0", "0"), ("#3", "0"), ("#6", "1"), ("#9", "1"), ("#12", "1"), ("#15", "1")]
        self.assertEqual(self.rows(VCD + "#18\n", ["door"], "vcd", period=3), wanted)
        self.assertEqual(self.rows(VCD + "#18\n", ["door"], "vcd")[-1], ("#15", "1"))
        self.assertEqual(self.rows(VCD + "#18\n0!\n", ["door"], "vcd", period=3)[-1], ("#18", "1"))

    def test_vcd_by_the_path_of_a_signal(self):
        self.assertEqual(self.rows(VCD, ["p"], "vcd", columns={"p": "top.inner.lamp"})[2], ("#10", "0"))

    def test_vcd_faults(self):
        self.assertIn("no signal is named gate", self.fault(VCD, ["gate"], "vcd"))
        self.assertIn("no signal is named tick", self.fault(VCD, ["door"], "vcd", clock="tick"))
        self.assertIn("top.level has 8 bits", self.fault(VCD, ["level"], "vcd"))
        twice = VCD.replace("inner $end\n", "inner $end\n$var wire 1 % door $end\n")
        self.assertIn("several signals are named door: top.door, top.inner.door", self.fault(twice, ["door"], "vcd"))
        self.assertIn("at #5 door is x", self.fault(VCD.replace('1"', 'x"'), ["door"], "vcd"))
        self.assertIn("at #5 door is z", self.fault(VCD.replace('1"', 'z"'), ["door"], "vcd"))
        self.assertIn("at #0 door has no value yet", self.fault(VCD.replace('0"\n', ""), ["door"], "vcd"))
        self.assertIn("#4 is no time after #5", self.fault(VCD.replace("#10", "#4"), ["door"], "vcd"))
        self.assertIn("this is no VCD file", self.fault("", ["door"], "vcd"))
        self.assertIn("are for VCD files", self.fault("p\n1\n", ["p"], period=2))


if __name__ == "__main__":
    unittest.main()
