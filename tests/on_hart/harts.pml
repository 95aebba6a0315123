/*
 * The meeting of harts: the monitor's lock with its sleep, the stop of harts, fences on other harts, parked harts and their start,
 * and the end of the board, all together. Spin searches every interleaving (interleavings.py says for which harts and worlds).
 *
 * Each step is one access of firmware/trap.S, harts.c, serve.c or reset.c. A store waits in a buffer of its hart: one for memory, from
 * which stores to two words leave in either order, and one for the CLINT. `fence` waits for both buffers; `fence rw, rw`, a release
 * and a sequentially consistent atomic access wait for that of memory. Loads are done in program order. A store whose fence follows
 * directly, while both buffers are empty, is one step: no other hart can tell the difference.
 *
 * Assertions: no hart runs a world, or loads its entries, while they change, or runs a world with the entries of before; no world runs
 * without a fence that another hart takes for done; each other hart goes in at most once before a hart that waits for the lock; no
 * world runs when the board ends. An invalid end state is a hart that waits for ever, since worlds may stop to call at any time.
 *
 * Each NO_.. leaves out one step, and the search has to fail.
 */
#ifndef N
#define N 3
#endif
#ifndef ROOM
#define ROOM 2
#endif
/* What the world of a hart calls for, as ROLE0, ROLE1 and ROLE2. */
#define ASK 1
#define CALL 2
#define CHANGE 4
#define PARK 8
#define START 16
#define END 32
#ifndef ROLE0
#define ROLE0 63
#define ROLE1 63
#define ROLE2 63
#endif
#define MAY(x) ((h == 0 -> ROLE0 : (h == 1 -> ROLE1 : ROLE2)) & (x))
#define FENCE 1
#define BIT(x) (1 << (x))
#define ALL ((1 << N) - 1)
#define NONE 255

/* Words of memory. */
#define STOPPING 0
#define OUT(x) (1 + (x))
#define WANTED(x) (1 + N + (x))
#define MADE(x) (1 + 2 * N + (x))
#define STALE(x) (1 + 3 * N + (x))
#define SLEEPS(x) (1 + 4 * N + (x))
byte mem[1 + 5 * N];
/* Tickets, counted from the one that is called: so the hart with 0 has the lock. The code's sleepers have a place for each ticket. */
#define NO_TICKET 7
byte ticket[N] = NO_TICKET;
byte next_ticket = 0;
byte requests[N];
/* The harts whose fences are asked for, of each hart, in place of a number: MADE has those that were asked for before it was stored. */
byte asked[N];
byte counted[N];
bit clint[N];

/* The buffers. */
byte words[N * ROOM];
byte values[N * ROOM];
byte waiting[N];
byte raised[N]; /* the hart whose word of the CLINT is to be 1, plus 1; or N + 1 for one's own 0 */

/* What the assertions look at. */
bit in_world[N];
bit loads[N];
byte changing;
bit has_old[N];
byte lacks[N];
byte owes[N];
#ifdef PASSED
byte passed[N]; /* the harts that have gone in while this one waits */
bit waits[N];
#endif
bit started[N];
bit ended;

#define AT(i) (h * ROOM + (i))
#define SEEN(w) (waiting[h] > 1 && words[AT(1)] == (w) -> values[AT(1)] : (waiting[h] > 0 && words[AT(0)] == (w) -> values[AT(0)] : mem[w]))
#define OTHERS_RUN ((N > 0 && h != 0 && (in_world[0] || loads[0])) || (N > 1 && h != 1 && (in_world[1] || loads[1])) || (N > 2 && h != 2 && (in_world[N - 1] || loads[N - 1])))
#define IDLE_BUFFERS (waiting[h] == 0 && raised[h] == 0)

inline fence_memory() { waiting[h] == 0 }
inline fence_all() { IDLE_BUFFERS }
inline store(w, v) {
    atomic {
        waiting[h] < ROOM;
        words[AT(waiting[h])] = w;
        values[AT(waiting[h])] = v;
        waiting[h]++
    }
}
inline store_and_fence(w, v) { atomic { waiting[h] == 0; mem[w] = v } }
inline store_and_fence_all(w, v) { atomic { IDLE_BUFFERS; mem[w] = v } }
inline raise(t) { atomic { IDLE_BUFFERS; raised[h] = (t) + 1 } }
inline clear_own() { atomic { raised[h] == 0; raised[h] = N + 1 } }

/* The buffers empty themselves, at any time. Empty places are zero, so that equal states are equal. */
inline drop_last(k) {
    words[k * ROOM + waiting[k] - 1] = 0;
    values[k * ROOM + waiting[k] - 1] = 0;
    waiting[k]--
}
inline drop_first(k) {
    words[k * ROOM] = words[k * ROOM + 1];
    values[k * ROOM] = values[k * ROOM + 1];
    words[k * ROOM + 1] = 0;
    values[k * ROOM + 1] = 0;
    waiting[k]--
}
active proctype memory()
{
end_memory:
    do
    :: d_step { waiting[0] > 0 -> mem[words[0 * ROOM]] = values[0 * ROOM]; drop_first(0) }
    :: d_step { waiting[0] > 1 && words[0 * ROOM] != words[0 * ROOM + 1] -> mem[words[0 * ROOM + 1]] = values[0 * ROOM + 1]; drop_last(0) }
    :: d_step { raised[0] > 0 -> if :: raised[0] == N + 1 -> clint[0] = 0 :: else -> clint[raised[0] - 1] = 1 fi; raised[0] = 0 }
    :: d_step { waiting[1] > 0 -> mem[words[1 * ROOM]] = values[1 * ROOM]; drop_first(1) }
    :: d_step { waiting[1] > 1 && words[1 * ROOM] != words[1 * ROOM + 1] -> mem[words[1 * ROOM + 1]] = values[1 * ROOM + 1]; drop_last(1) }
    :: d_step { raised[1] > 0 -> if :: raised[1] == N + 1 -> clint[1] = 0 :: else -> clint[raised[1] - 1] = 1 fi; raised[1] = 0 }
#if N > 2
    :: d_step { waiting[2] > 0 -> mem[words[2 * ROOM]] = values[2 * ROOM]; drop_first(2) }
    :: d_step { waiting[2] > 1 && words[2 * ROOM] != words[2 * ROOM + 1] -> mem[words[2 * ROOM + 1]] = values[2 * ROOM + 1]; drop_last(2) }
    :: d_step { raised[2] > 0 -> if :: raised[2] == N + 1 -> clint[2] = 0 :: else -> clint[raised[2] - 1] = 1 fi; raised[2] = 0 }
#endif
    od
}

/* A hart executes the fences that were asked of it. */
inline make_fences() {
    counted[h] = asked[h];
    d_step { waiting[h] == 0 -> if :: requests[h] & FENCE -> requests[h] = requests[h] & ~FENCE; lacks[h] = 0; owes[h] = 0 :: else fi };
    atomic { waiting[h] == 0; words[AT(0)] = MADE(h); values[AT(0)] = counted[h]; waiting[h] = 1; counted[h] = 0 }
}
inline take_requests() {
#ifdef NO_FENCE_AFTER_CLINT
    clear_own();
#else
    atomic { IDLE_BUFFERS; clint[h] = 0 };
#endif
    make_fences()
}
/* The way out: this hart is halted no more, and then looks for requests. */
inline goes_out() {
#ifdef NO_FENCE_AFTER_HALTED
    store(OUT(h), 1);
#else
    store_and_fence(OUT(h), 1);
#endif
#ifdef NO_REQUESTS_BEFORE_STOP
    is_to_stop = (SEEN(STOPPING) >> h) & 1;
#endif
    if
#ifdef NO_LOOK_AT_COUNT
    :: requests[h] != 0 -> take_requests()
    :: requests[h] == 0
#else
    :: requests[h] != 0 || (asked[h] & ~SEEN(MADE(h))) -> take_requests()
    :: requests[h] == 0 && !(asked[h] & ~SEEN(MADE(h)))
#endif
    fi
#ifndef NO_REQUESTS_BEFORE_STOP
    ;
    is_to_stop = (SEEN(STOPPING) >> h) & 1
#endif
}
inline load_changes() {
    goes_out();
    do
    :: !is_to_stop -> break
    :: is_to_stop ->
        atomic { waiting[h] < ROOM; words[AT(waiting[h])] = OUT(h); values[AT(waiting[h])] = 0; waiting[h]++; is_to_stop = 0 };
        !((SEEN(STOPPING) >> h) & 1);
#ifdef NO_LOOK_AFTER_STOP
        store(OUT(h), 1);
        is_to_stop = 0
#else
        goes_out()
#endif
    od;
    if
    :: SEEN(STALE(h)) ->
        atomic {
            loads[h] = 1;
            assert(!(changing & BIT(h)))
        };
        store(STALE(h), 0);
        atomic { loads[h] = 0; has_old[h] = 0 }
    :: !SEEN(STALE(h))
    fi
}

/* Of the lock: the next hart is called, and woken if it sleeps. */
inline sleeper() {
    other = 0;
    if
    :: N > 0 && ticket[0] == called && SEEN(SLEEPS(0)) -> other = 1
    :: N > 1 && ticket[1] == called && SEEN(SLEEPS(1)) -> other = 2
#if N > 2
    :: N > 2 && ticket[2] == called && SEEN(SLEEPS(2)) -> other = 3
#endif
    :: else
    fi
}
inline leave_monitor() {
#ifdef NO_FENCE_BEFORE_WAKE
    d_step { IDLE_BUFFERS; called = 1; sleeper(); called = 0 };
#endif
    d_step {
        IDLE_BUFFERS;
        ticket[h] = NO_TICKET;
        next_ticket--;
        if :: ticket[0] != NO_TICKET -> ticket[0]-- :: else fi;
        if :: ticket[1] != NO_TICKET -> ticket[1]-- :: else fi;
#if N > 2
        if :: ticket[2] != NO_TICKET -> ticket[2]-- :: else fi;
#endif
    };
#ifndef NO_FENCE_BEFORE_WAKE
    d_step { sleeper() };
#endif
    if
    :: other -> atomic { raised[h] == 0; raised[h] = other; other = 0 }
    :: !other
    fi
}
#ifdef PASSED
#define WAITS waits[h] = 1
inline goes_in() {
    d_step {
        waits[h] = 0;
        passed[h] = 0;
        for (other : 0 .. N - 1) {
            if
            :: waits[other] -> assert(!(passed[other] & BIT(h))); passed[other] = passed[other] | BIT(h)
            :: else
            fi
        };
        other = 0
    }
}
#else
#define WAITS skip
inline goes_in() { skip }
#endif
inline take_monitor() {
    atomic { waiting[h] == 0; words[AT(0)] = OUT(h); values[AT(0)] = 0; waiting[h] = 1 };
#ifdef NO_TICKETS
    WAITS;
    d_step { next_ticket == 0 -> ticket[h] = 0; next_ticket++ };
#else
    d_step { WAITS; ticket[h] = next_ticket; next_ticket++ };
#endif
    if
    :: ticket[h] == 0
    :: ticket[h] != 0 ->
        store(SLEEPS(h), 1);
        do
        :: clear_own();
            fence_all();
            if
            :: ticket[h] == 0 -> break
            :: ticket[h] != 0 -> clint[h]
            fi
        od;
        store(SLEEPS(h), 0)
    fi;
    goes_in()
}

/* The hart with the lock stops these others. */
inline stop_harts(set) {
    fence_memory();
#ifdef NO_FENCE_AFTER_STOPPING
    store(STOPPING, set);
#else
    store_and_fence(STOPPING, set);
#endif
    other = 0;
    do
    :: other == N -> break
    :: other < N && (set & BIT(other)) && SEEN(OUT(other)) -> raise(other); other++
    :: other < N && !((set & BIT(other)) && SEEN(OUT(other))) -> other++
    od;
    other = 0;
    do
    :: other == N -> break
    :: other < N && (set & BIT(other)) -> !SEEN(OUT(other)); other++
    :: other < N && !(set & BIT(other)) -> other++
    od;
    other = 0;
    fence_memory()
}
inline change_lists() {
    stop_harts(set);
    atomic {
        changing = set;
        assert(!(N > 0 && (set & BIT(0)) && (in_world[0] || loads[0])));
        assert(!(N > 1 && (set & BIT(1)) && (in_world[1] || loads[1])));
        assert(!(N > 2 && (set & BIT(N - 1)) && (in_world[N - 1] || loads[N - 1])));
        has_old[h] = 1;
        for (other : 0 .. N - 1) { if :: (set & BIT(other)) || !started[other] -> has_old[other] = 1 :: else fi };
        other = 0
    };
    do
    :: other == N -> break
    :: other < N && ((set & BIT(other)) || other == h) -> store(STALE(other), 1); other++
    :: other < N && !((set & BIT(other)) || other == h) -> other++
    od;
    other = 0;
#ifndef NO_FENCE_BEFORE_LET_GO
    fence_memory();
#endif
    atomic { changing = 0; set = 0 };
#ifdef NO_FENCE_BEFORE_LET_GO
    store(STOPPING, 0);
#else
    store_and_fence(STOPPING, 0);
#endif
}

/* A world asks other harts for fences, without the lock. */
inline ask_fences() {
    other = 0;
    do
    :: other == N -> break
    :: other < N && (set & BIT(other)) ->
        d_step { waiting[h] == 0 -> requests[other] = requests[other] | FENCE; lacks[other] = lacks[other] | BIT(h) };
        d_step { waiting[h] == 0 -> asked[other] = asked[other] | BIT(h) };
        raise(other);
        other++
    :: other < N && !(set & BIT(other)) -> other++
    od;
    other = 0;
    do
    :: other == N -> break
    :: other < N && !(set & BIT(other)) -> other++
    :: other < N && (set & BIT(other)) ->
        do
        :: d_step { !SEEN(OUT(other)) || (SEEN(MADE(other)) & BIT(h)) ->
                owes[other] = owes[other] | (lacks[other] & BIT(h));
                lacks[other] = lacks[other] & ~BIT(h);
                /* the request is done: nobody counts it any more */
                asked[other] = asked[other] & ~BIT(h);
                counted[other] = counted[other] & ~BIT(h);
                mem[MADE(other)] = mem[MADE(other)] & ~BIT(h);
                if :: words[other * ROOM] == MADE(other) && waiting[other] > 0 -> values[other * ROOM] = values[other * ROOM] & ~BIT(h) :: else fi;
                if :: words[other * ROOM + 1] == MADE(other) && waiting[other] > 1 -> values[other * ROOM + 1] = values[other * ROOM + 1] & ~BIT(h) :: else fi
            } -> break
#ifndef NO_FENCES_WHILE_WAITING
        :: requests[h] != 0 || (asked[h] & ~SEEN(MADE(h))) -> make_fences()
#endif
        od;
        other++
    od;
    other = 0;
    set = 0
}

inline choose_others() {
    if
#if N > 2
    :: set = ALL & ~BIT(h)
    :: set = BIT((h + 1) % N)
    :: set = BIT((h + 2) % N)
#else
    :: set = BIT(1 - h)
#endif
    fi
}
#define IS_PARKED(x) (!started[x])
#define IS_LAST (N == 2 && !started[1 - h] || N == 3 && !started[(h + 1) % N] && !started[(h + 2) % N])

proctype hart(byte h)
{
    byte other, set;
    bit is_to_stop;
    byte called;

world:
    atomic {
        in_world[h] = 1;
        assert(!has_old[h]);
        assert(!owes[h]);
        assert(!(changing & BIT(h)))
    };
    if
    :: true
    :: true ->
end_idle: clint[h]
    fi;
    if
    :: clint[h] -> in_world[h] = 0; goto alone
    :: MAY(CALL | CHANGE | PARK | START | END) -> in_world[h] = 0; goto calls
    :: MAY(ASK) -> in_world[h] = 0; choose_others(); goto fences
    fi;

alone:
    take_requests();
    load_changes();
    goto world;

fences:
    ask_fences();
    goto world;

calls:
    take_monitor();
    if
    :: goto leave
    :: MAY(CHANGE) -> choose_others();
        set = set & ((started[0] -> 1 : 0) | (started[1] -> 2 : 0) | (N > 2 && started[N - 1] -> 4 : 0));
        change_lists(); goto leave
    :: MAY(PARK) && !IS_LAST -> goto stops
    :: MAY(START) && IS_PARKED((h + 1) % N) -> other = (h + 1) % N; goto starts
    :: N > 2 && MAY(START) && IS_PARKED((h + 2) % N) -> other = (h + 2) % N; goto starts
    :: MAY(END) -> goto ends
    fi;

starts:
    started[other] = 1;
    store_and_fence(STALE(other), 1);
    store_and_fence(WANTED(other), 1);
    raise(other);
    other = 0;
    goto leave;

leave:
    load_changes();
    leave_monitor();
    goto world;

stops:
    started[h] = 0;
    leave_monitor();
    do
    :: clear_own();
        fence_all();
        if
        :: SEEN(WANTED(h)) -> break
        :: !SEEN(WANTED(h)) ->
end_parked: clint[h]
        fi
    od;
    store(WANTED(h), 0);
    goto calls;

ends:
    fence_memory();
    store(OUT(h), 0);
    /* (the hart has the lock, or a ticket that will be called, or draws one) */
    set = ALL & ~BIT(h);
    stop_harts(set);
    set = 0;
    atomic {
        assert(!OTHERS_RUN)
    };
    do :: ended = 1 :: ended = 0 od /* no other hart has to go on */
}

init {
    byte i;
    atomic {
        for (i : 0 .. N - 1) { mem[OUT(i)] = 1; started[i] = 1; in_world[i] = 1 };
        run hart(0);
        run hart(1);
#if N > 2
        run hart(2);
#endif
    }
}
