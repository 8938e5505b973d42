/* examples/litmus/classes.ntb: two queues of two classes, on a strict pair: may the commit be found and the data not be there? */
#include "fabric.h"

byte commit, data;

active proctype script() {
    send(A, 0, 0, true, 97);
    send(A, 1, 3, true, 98);
    commit = READ(B, FLAGS(1));
    data = READ(B, FLAGS(0));
    c_code { printf("outcome %s; %s\n", now.commit ? "ready 0 1" : "empty", now.data ? "ready 0 1" : "empty"); }
}
