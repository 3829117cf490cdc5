/* The protocol between the daemon and the programs of the kernel (lagd/tap/fast.c), for one conversation and two links, over all
 * interleavings: no frame passes one that was sent before, none comes twice, and each one comes or is counted.
 *
 * The host sends frames 1, 2 and on, one behind the other. Its program reads the row and counts the frame in one step; then it puts the
 * frame into the queue of the TAP device, or on the way of the member that the row names. The daemon takes frames from the queue, sends
 * them or has them wait, and gives the row a member once none is left. To move the conversation it takes the member back, waits until the
 * program that may have read the old row is done, and sends a marker behind the data. A frame that was counted may be lost before it is in
 * the queue: a row that counts frames which do not come is suspected, and confirmed to have none once each program that ran then is done, no
 * frame came since, and the queue is empty. What a program loses for want of room it counts beside the row, and the daemon takes it off. At
 * the peer, data and markers of a link go through one backlog. What a link is, is a way in
 * which nothing overtakes; that one goes down is not in this model, since the order rests on time there.
 *
 * Each of these makes it wrong: NO_WAIT, MARKER_BY_ANOTHER_WAY, ANSWERED_BEFORE_THE_BACKLOG, TWO_WORDS, NO_COUNT, UNCOUNTED_LOSS,
 * OVERTAKES_THOSE_THAT_WAIT, NEVER_BELIEVED, BELIEVED_AT_ONCE, A_QUEUE_THAT_HOLDS,
 * TAKEN_OFF_BY_THE_PROGRAM, UNFIT_BY_THE_DAEMON. */
#ifndef FRAMES
#define FRAMES 5
#endif
#ifndef MOVES
#define MOVES 2
#endif
#define MOST_LEFT 2
#define MARKER 0
#define ROOM (FRAMES + MOVES)

byte member;     /* of the row: 0, or the number of a link */
byte left;       /* of the same word: frames that are on their way to the daemon */
byte overflowed; /* of these, what was lost for want of room, and is not taken off yet */
bool in_program; /* whether the program of the host runs */
byte runs;       /* how often it ended */
bool leaked;     /* whether a frame was lost behind its count */
bool refused;    /* whether one was found unfit for the member of its row */
chan tap = [MOST_LEFT] of {byte};
chan queue = [MOST_LEFT] of {byte}; /* of a discipline that holds frames before that */
chan waiting = [FRAMES] of {byte};
chan way[2] = [ROOM] of {byte};
chan backlog[2] = [ROOM] of {byte};
chan response = [MOVES] of {byte};
byte port = 1;
bool held, sent_all;
byte last, came, lost; /* the last frame that came, how many came, and how many were counted as lost */

proctype Host() {
    byte number = 1, seen;
    do
    :: number <= FRAMES ->
        atomic { in_program = true; seen = member; left++ }
        if
        :: seen > 0 -> left--; way[seen - 1]!number
#ifdef UNFIT_BY_THE_DAEMON
        :: seen > 0 && !refused -> refused = true; tap!number
#else
        :: seen > 0 && !refused -> refused = true; left--; lost++ /* it is unfit for the member */
#endif
        :: seen == 0 && left > MOST_LEFT ->
#ifdef TAKEN_OFF_BY_THE_PROGRAM
            left--;
#else
            overflowed++;
#endif
#ifndef UNCOUNTED_LOSS
            lost++
#endif
#ifdef A_QUEUE_THAT_HOLDS
        :: seen == 0 && left <= MOST_LEFT -> queue!number
#else
        :: seen == 0 && left <= MOST_LEFT -> tap!number
#endif
        :: seen == 0 && left <= MOST_LEFT && !leaked -> leaked = true; lost++
        fi;
        atomic { in_program = false; runs++; seen = 0; number++ }
    :: number > FRAMES -> break
    od;
    sent_all = true
}

/* Gives the row the member of the port, if nothing waits and nothing is on its way to the daemon. */
inline pass_on() {
    if
    :: !held && empty(waiting) ->
#ifdef TWO_WORDS
        if
        :: member == 0 && left == 0 -> member = port
        :: else
        fi
#else
        atomic {
            if
#ifdef NO_COUNT
            :: member == 0 -> member = port
#else
            :: member == 0 && left == 0 -> member = port
#endif
            :: else
            fi
        }
#endif
    :: else
    fi
}

/* Waits until each run of the program that began before is done. */
inline wait_for_programs() {
    before = runs;
    if
    :: !in_program
    :: in_program -> runs != before
    fi
}

#ifdef A_QUEUE_THAT_HOLDS
proctype Queue() {
    byte number;
end:
    do
    :: queue?number -> tap!number; number = 0
    od
}
#endif

proctype Daemon() {
    byte number, moves, before, doubted; /* `doubted`: how many frames a row counted that was doubted, or 0 */
    bool again; /* it is doubted once while frames are sent, and as often as it has to be then */
    do
#ifndef NEVER_BELIEVED
    :: doubted == 0 && member == 0 && left > 0 && (!again || sent_all) ->
        doubted = left;
        again = !sent_all;
#ifndef BELIEVED_AT_ONCE
        wait_for_programs();
        before = 0
#endif
    :: doubted > 0 && empty(tap) ->
        atomic {
            if
            :: member == 0 && left == doubted -> left = 0; overflowed = 0
            :: else
            fi;
            doubted = 0
        }
        pass_on()
#endif
    :: overflowed > 0 ->
        atomic { left = left - overflowed; overflowed = 0; doubted = 0 }
        pass_on()
    :: tap?number ->
        if
#ifdef OVERTAKES_THOSE_THAT_WAIT
        :: held -> waiting!number
#else
        :: held || nempty(waiting) -> waiting!number
#endif
        :: else -> way[port - 1]!number
        fi;
        number = 0;
        doubted = 0;
        left--;
        pass_on()
    :: !held && empty(waiting) && moves < MOVES ->
        member = 0;
#ifndef NO_WAIT
        wait_for_programs();
#endif
        held = true;
        moves++;
        before = 0;
#ifdef MARKER_BY_ANOTHER_WAY
        backlog[port - 1]!MARKER
#else
        way[port - 1]!MARKER
#endif
    :: response?number ->
        port = 3 - port;
        held = false
    :: !held && nempty(waiting) ->
        waiting?number;
        way[port - 1]!number;
        number = 0;
        pass_on()
    :: nempty(waiting) -> waiting?number; number = 0; lost++ /* it waited too long */
    :: sent_all && empty(tap) && empty(queue) && empty(waiting) && !held && left == 0 -> break
    od;
    came + lost == FRAMES /* each one comes, or is counted: else this waits for ever, which is an error */
}

proctype Member(byte link) {
    byte number;
end:
    do
    :: way[link]?number ->
        if
#ifdef ANSWERED_BEFORE_THE_BACKLOG
        :: number == MARKER -> response!MARKER
#endif
        :: else -> backlog[link]!number
        fi;
        number = 0
    od
}

proctype Handover(byte link) {
    byte number;
end:
    do
    :: backlog[link]?number ->
        atomic {
            if
            :: number == MARKER -> response!MARKER
            :: else ->
                assert(number > last);
                last = number;
                came++
            fi;
            number = 0
        }
    od
}

init {
    atomic {
        run Host();
#ifdef A_QUEUE_THAT_HOLDS
        run Queue();
#endif
        run Daemon();
        run Member(0);
        run Member(1);
        run Handover(0);
        run Handover(1)
    }
}
