/* examples/litmus/flags.ntb: may a frame's flags be seen in the receiver's memory before its byte? */
#include "fabric.h"

byte flags, data;

active proctype script() {
    send(A, 0, 0, false, 97);
    flags = READ(B, FLAGS(0));
    data = READ(B, DATA(0));
    c_code { printf("outcome mem %02x000000; mem %02x\n", now.flags, now.data); }
}
