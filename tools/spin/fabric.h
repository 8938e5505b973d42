/* Two lists of writes in flight, one from each side, and a process for each that lets them land in any order that the rules permit:
   a relaxed write passes any, a strict one passes none of its class. A write that lands stores a value at a place of its peer's. */
#define A 0
#define B 1
#define MOST 10
#define PLACES 16

byte posted[2];
bool flying[20];
bool strict[20];
byte of_class[20];
byte place[20];
byte value[20];
byte memory[32];

/* whether a write stands in the way of another one, both by their numbers, counted from 0 in the order of posting */
#define STOPS(side, number, before) \
    (before < number && flying[side * MOST + before] && of_class[side * MOST + before] == of_class[side * MOST + number])
#define MAY_LAND(side, n) (flying[side * MOST + n] && (!strict[side * MOST + n] || !(STOPS(side, n, 0) || STOPS(side, n, 1) || \
    STOPS(side, n, 2) || STOPS(side, n, 3) || STOPS(side, n, 4) || STOPS(side, n, 5) || STOPS(side, n, 6) || STOPS(side, n, 7) || \
    STOPS(side, n, 8))))

inline post(side, is_strict, class, where, what) {
    d_step {
        flying[side * MOST + posted[side]] = true;
        strict[side * MOST + posted[side]] = is_strict;
        of_class[side * MOST + posted[side]] = class;
        place[side * MOST + posted[side]] = where;
        value[side * MOST + posted[side]] = what;
        posted[side]++
    }
}

/* The writes of a frame of one byte, in their order: chunk, length, version, flags, doorbell. On a strict pair all are strict. */
#define DATA(queue) (queue * 5)
#define FLAGS(queue) (queue * 5 + 3)
#define BELL(queue) (queue * 5 + 4)
inline send(side, queue, class, all_strict, byte_sent) {
    post(side, all_strict, class, DATA(queue), byte_sent);
    post(side, all_strict, class, queue * 5 + 1, 1);
    post(side, all_strict, class, queue * 5 + 2, 0);
    post(side, true, class, FLAGS(queue), 1);
    post(side, true, class, BELL(queue), 1)
}

#define READ(side, where) memory[side * PLACES + where]
#define LANDS(side, number) \
    :: d_step { MAY_LAND(side, number) -> flying[side * MOST + number] = false; \
                memory[(1 - side) * PLACES + place[side * MOST + number]] = value[side * MOST + number] }

active proctype from_a() {
end:
    do
    LANDS(0, 0) LANDS(0, 1) LANDS(0, 2) LANDS(0, 3) LANDS(0, 4) LANDS(0, 5) LANDS(0, 6) LANDS(0, 7) LANDS(0, 8) LANDS(0, 9)
    od
}

active proctype from_b() {
end:
    do
    LANDS(1, 0) LANDS(1, 1) LANDS(1, 2) LANDS(1, 3) LANDS(1, 4) LANDS(1, 5) LANDS(1, 6) LANDS(1, 7) LANDS(1, 8) LANDS(1, 9)
    od
}
