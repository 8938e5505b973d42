/* examples/litmus/offers.ntb: both sides' offers cross; may one side go up while the other doesn't yet? Scratchpad 4 and 5 have the
   window's size, 3 the windows, 2 the queues, 0 the version, which comes last and without which a check waits. */
#include "fabric.h"

byte one, other;

inline offer(side) {
    post(side, true, 0, 4, 0);
    post(side, true, 0, 5, 1);
    post(side, true, 0, 3, 1);
    post(side, true, 0, 2, 1);
    post(side, true, 0, 0, 4)
}

active proctype script() {
    offer(A);
    offer(B);
    one = READ(A, 0);
    other = READ(B, 0);
    c_code { printf("outcome %s; %s\n", now.one ? "up" : "notyet", now.other ? "up" : "notyet"); }
}
