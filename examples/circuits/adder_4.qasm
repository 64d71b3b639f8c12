// Adds two numbers of four bits in place, with a carry (Cuccaro, Draper, Kutin and Moulton 2004).
OPENQASM 2.0;
include "qelib1.inc";
gate majority c, b, a { cx a, b; cx a, c; ccx c, b, a; }
gate unmajority c, b, a { ccx c, b, a; cx a, c; cx c, b; }
qreg a[4];
qreg b[4];
qreg c[1];
qreg carry[1];
creg sum[4];
creg out[1];
reset c[0];
reset carry[0];
majority c[0], b[0], a[0];
majority a[0], b[1], a[1];
majority a[1], b[2], a[2];
majority a[2], b[3], a[3];
cx a[3], carry[0];
unmajority a[2], b[3], a[3];
unmajority a[1], b[2], a[2];
unmajority a[0], b[1], a[1];
unmajority c[0], b[0], a[0];
measure b -> sum;
measure carry -> out;
