// Adds two numbers of two bits in place, with a carry (Cuccaro, Draper, Kutin and Moulton 2004).
OPENQASM 2.0;
include "qelib1.inc";
gate majority c, b, a { cx a, b; cx a, c; ccx c, b, a; }
gate unmajority c, b, a { ccx c, b, a; cx a, c; cx c, b; }
qreg a[2];
qreg b[2];
qreg c[1];
qreg carry[1];
creg sum[2];
creg out[1];
reset c[0];
reset carry[0];
majority c[0], b[0], a[0];
majority a[0], b[1], a[1];
cx a[1], carry[0];
unmajority a[0], b[1], a[1];
unmajority c[0], b[0], a[0];
measure b -> sum;
measure carry -> out;
