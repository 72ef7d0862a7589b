/* Waiting for room: who waits stands in a line, and its first is told once there may be room; who waits at one topic
   keeps room at those before it; who takes tells what it took; who is passed over is waited for again.

   Each step that another thread may see, or be seen by, is one step here, with its place in the code beside it. Sizes
   and mutants stand in runs.txt, what is left out in README.md. A call of a bell is one step, as is what is done behind
   a lock and seen by nobody who hasn't got it: bells.pml takes these apart. */

#ifndef TOPICS                   /* 1 to 3 */
#define TOPICS 2
#endif
#ifndef SUBS                     /* subscriptions, 0 to 2; the first is at the last topic, and so on */
#define SUBS 2
#endif
#ifndef SENDERS                  /* connections that send */
#define SENDERS 2
#endif
#ifndef COMMITS                  /* transactions of the first, */
#define COMMITS 1
#endif
#ifndef OTHERS                   /* and of each of the others */
#define OTHERS COMMITS
#endif
#ifndef CAPACITY                 /* items that a queue holds, and parts that may be due at a topic */
#define CAPACITY 1
#endif
#ifndef BIG                      /* places that a part of the first sender asks for, of which it takes one; others ask for one */
#define BIG 1
#endif
#ifndef HALF                     /* who takes tells of so many */
#define HALF 1
#endif
#ifndef OVERTAKING               /* so many overtake each first of a line, at most */
#define OVERTAKING 1
#endif
#ifndef WIRE                     /* items that may wait to be written */
#define WIRE 1
#endif
#if SUBS == 0
#define NUMBER 1
#else
#define NUMBER SUBS
#endif
#ifdef OWN                       /* sub s is of sender s */
#define CONNS SENDERS
#define TAKER(s) (s)
#define TAKES(c) ((c) < SUBS)
#else                            /* or of a connection of its own, or (TAKERS) of one of so many */
#ifndef TAKERS
#define TAKERS SUBS
#endif
#define CONNS (SENDERS + TAKERS)
#if TAKERS == 0
#define TAKER(s) 0
#else
#define TAKER(s) (SENDERS + (s) % TAKERS)
#endif
#define TAKES(c) ((c) >= SENDERS)
#endif
#ifndef FILLED                   /* of these, there at the beginning */
#define FILLED 0
#endif
#ifndef STOPS                    /* so often each client of those who take doesn't read: from the beginning, and later */
#define STOPS 0
#endif
#ifndef PASSES                   /* so often a subscription may be passed over, where its client doesn't read */
#define PASSES 0
#endif
#ifndef FRAMES                   /* frames of each client of those who take, at any time: UNSUBSCRIBE or its end */
#define FRAMES 0
#endif
#ifndef LATE                     /* 1: the last subscription isn't there at the beginning: SUBSCRIBE may be a frame; 2: no other is */
#define LATE 0
#endif
#ifndef REFUSALS                 /* so many transactions are refused as they are entered at their last topic */
#define REFUSALS 0
#endif
#ifndef GIVEN_BACK               /* so many have no gate, once they have room */
#define GIVEN_BACK 0
#endif
#ifndef WITHOUT                  /* so many are committed without room, for want of memory */
#define WITHOUT 0
#endif
/* NEVER: the client of the first subscription never reads; or, as 2, of the second. TARRIES: a thread may be late: who reads
   may be passed over, too, where nothing was taken since the look before. CLOSES: the server ends, at some time. HEADS: a head turns
   what was committed by who has committed more than one. Transactions are to one topic or two; those of sender n are to
   the topics whose bits are TO0, TO1, TO2; BOTH: to all; OTHER: the first sender's are to all, and the others' to those
   of these bits. SETTLES: a verdict is a step of its own. ONCE: who reads a transaction that finds no room sleeps, where
   the code asks again before. ENDLESS: all senders but the first send for ever. HALVES: of an item that fills the wire the
   rest may come later, before which its connection hears nothing; and who doesn't read has nothing waiting at the
   beginning. */
#define TOPIC(s) (TOPICS - 1 - (s) % TOPICS)
#define SENDS(c) ((c) < SENDERS)
#define ASKS(c) ((c) == 0 -> BIG : 1)
#define MAKES(c) ((c) == 0 -> COMMITS : OTHERS)
#define BIT(n) (1 << (n))
#define ALL (BIT(TOPICS) - 1)
#ifdef BOTH
#define TO0 ALL
#define TO1 ALL
#define TO2 ALL
#elif defined(OTHER)
#define TO0 ALL
#define TO1 OTHER
#define TO2 OTHER
#endif
#ifndef TO0                      /* 0: to any */
#define TO0 0
#endif
#ifndef TO1
#define TO1 TO0
#endif
#ifndef TO2
#define TO2 TO1
#endif
#define TO(c) ((c) == 0 -> TO0 : ((c) == 1 -> TO1 : TO2))
#ifdef NEVER
#define NEVER_READS(c) ((c) == TAKER(NEVER - 1))
#else
#define NEVER_READS(c) false
#endif
#ifdef HALVES
#define HALFWAY(c) half[c]
#define OWES(c) owing[c]
#else
#define HALFWAY(c) false
#define OWES(c) false
#endif
#define MAY_HEAR(c) (made < MAKES(c) && !HALFWAY(c) && !OWES(c))     /* conversation.rt may_read */
/* From this topic on, the first of these. */
#define FIRST_OF(bits) do :: t < TOPICS && !((bits) & BIT(t)) -> t++ :: else -> break od; skip
/* So many may keep room at a topic and wait at another. */
#if CAPACITY >= 4
#define MOST (CAPACITY / 2)
#else
#define MOST 1
#endif
#ifndef BATCH                    /* so often who is first finds room, and stays the first, at most */
#define BATCH MOST
#endif
#ifdef M_MORE_KEPT
#define PLACES (MOST + 1)
#else
#define PLACES MOST
#endif

/* What a line's mark says: nobody stands there; or the first looks, was rung, or waits for what is due, or for the
   subscription 0, or the next one. */
#define Nobody 0
#define Anything 1
#define Rung 2
#define Due 3
#define Sub(n) (4 + (n))
#define Any 9                    /* what is rung for: all of these */
#define OF(mark) ((mark) > Due -> (mark) - 4 : 0)

mtype:bell = { Awake, Told, Asleep };
mtype:frame = { Nothing, Subscribe, Unsubscribe, End };
mtype:take = { Other, Full, Item, Half, Last, None };

/* A connection: its bell, its desk, its socket and client; where it has room and places, and the line in which it
   stands, 1 and the topic, or 1 and the number of topics more for a second line. */
mtype:bell bell[CONNS] = Awake;
bool woken[CONNS];               /* the bell's event, in the poll */
byte held[CONNS];                /* the topics of the transaction that waits */
byte room[CONNS];
byte kept[CONNS];
byte stands[CONNS];
bool gone[CONNS];                /* its thread has ended */
bool stuck[CONNS];
bool desk[CONNS];                /* the desk's lock */
bool at_desk[CONNS];             /* Some(desk) behind it */
bool more[CONNS];                /* has_more */
byte flags[CONNS];               /* the bell's: which subscriptions may have something */
byte known[CONNS];               /* the conversation's: which queues are looked into */
bool leaving[CONNS];
#ifdef HALVES
bool half[CONNS];                /* an item is half out */
bool owing[CONNS];               /* the answer to a transaction that was committed meanwhile is owed */
#endif
byte wire[CONNS];                /* items that wait to be written */
bool blocked[CONNS];
bool reads[CONNS] = true;        /* the client: the system takes what is written */
mtype:frame frame[CONNS] = Nothing;

/* A topic: its lock, the parts that are pending there, those of them whose verdict isn't set, the room that is
   reserved; its seats' lock; its line: the lock, the mark, who stands there, how many may have overtaken the first; how many
   have a place to keep room there, and the second line, for those. */
bool topic[TOPICS];
byte pending[TOPICS];
byte undecided[TOPICS];
byte reserved[TOPICS];
bool seats[TOPICS];
bool locked[TOPICS];
byte mark[TOPICS];
chan line[TOPICS] = [SENDERS] of { byte };
byte overtaking[TOPICS];
byte overtaken[TOPICS];          /* how many did: for the property alone */
byte keepers[TOPICS];
chan second[TOPICS] = [SENDERS] of { byte };
#ifdef HEADS
bool due[TOPICS];
chan head_queue = [TOPICS] of { byte };
#endif

/* A subscription: at its topic, in its queue, with its connection. Its source knows of no take but those that it was
   told, and heard. */
bool seated[NUMBER];
bool open_[NUMBER];
bool waited[NUMBER];
bool lagged[NUMBER];
byte queue[NUMBER];                  /* items in its queue */
byte untold[NUMBER];               /* taken, and not told */
byte told[NUMBER];                 /* told, and not heard */
bool telling[NUMBER];              /* just being told: nothing is heard */
bool passed_over[NUMBER];          /* the seat's, for who takes */
bool has[NUMBER];                  /* the connection has it */
#ifdef TARRIES
bool taken[NUMBER];                /* the seat's: something was taken since a look; */
bool took[NUMBER];                 /* the same, for the property alone */
bool tarried[NUMBER];              /* the account's: a look found it, and its connection wasn't behind */
#endif

bool closing;
byte passes, refusals, given_back, without;
#ifdef ENDLESS
bool served;                     /* the first sender's were entered */
#endif

#define RING(b) if :: bell[b] == Asleep -> woken[b] = true :: else fi; bell[b] = Told
#ifdef M_PASSED_UNFLAGGED
#define PASSED_RING(sub) if :: stuck[TAKER(sub)] -> skip :: else -> RING(TAKER(sub)) fi
#else
#define PASSED_RING(sub) SEAT_RING(sub)
#endif
#define RAISE(sub) flags[TAKER(sub)] = flags[TAKER(sub)] | BIT(sub)
#define SEAT_RING(sub) RAISE(sub); if :: stuck[TAKER(sub)] -> skip :: else -> RING(TAKER(sub)) fi

/* What is due at a topic, what a subscription is known to hold, and whether that leaves room for so many. */
#ifdef M_RESERVED_UNCOUNTED
#define DUE(t) (pending[t])
#else
#define DUE(t) (pending[t] + reserved[t])
#endif
#define USED(sub) (queue[sub] + untold[sub] + told[sub])
#define FITS(sub, count) (USED(sub) + DUE(TOPIC(sub)) + count <= CAPACITY)
#define IS_FULL(t, count) (DUE(t) + count > CAPACITY)
#define LACKS(sub, count) (waited[sub] && !IS_FULL(TOPIC(sub), count) && !FITS(sub, count))
#define IN_WAY(sub, t, count) (sub < SUBS && TOPIC(sub) == (t) && waited[sub] && !FITS(sub, count))
#if SUBS == 1
#define HAS_ROOM(t, count) (!IS_FULL(t, count) && !IN_WAY(0, t, count))
#elif SUBS == 2
#define HAS_ROOM(t, count) (!IS_FULL(t, count) && !IN_WAY(0, t, count) && !IN_WAY(1, t, count))
#else
#define HAS_ROOM(t, count) (!IS_FULL(t, count))
#endif
#define HEAR(sub) if :: telling[sub] -> skip :: else -> told[sub] = 0 fi

/* Who a look may pass over, of those who lack room: seat_entry.rt join_look. It finds the seats by their subscriptions'
   numbers, and one that hasn't begun has none. */
#ifdef TARRIES
#define IS_LATE(sub) (tarried[sub] && !taken[sub])
#else
#define IS_LATE(sub) false
#endif
#ifdef M_SEAT_AT_ZERO
#define BEGINS_BESIDE(sub) (sub == 0 && seated[SUBS - 1] && !open_[SUBS - 1] && TOPIC(SUBS - 1) == TOPIC(0) && !reads[TAKER(SUBS - 1)])
#else
#define BEGINS_BESIDE(sub) false
#endif
#define IS_SLOW(sub) (!reads[TAKER(sub)] || IS_LATE(sub) || BEGINS_BESIDE(sub))
/* Who may lag: where each client reads always, or never, and there is memory, only those of one that never does. */
#if STOPS > 0 || WITHOUT > 0 || defined(TARRIES)
#define MAY_LAG(sub) true
#else
#define MAY_LAG(sub) !reads[TAKER(sub)]
#endif

/* What the inlines below use; each leaves its own as it found it: zero. */
#ifdef M_RUNG_FOR_ONE
#define LACKED bool lacked;
#else
#define LACKED
#endif
#define SCRATCH LACKED byte s, t, u, w, x, e, n, sleepers; bool mine, rings, some, done, sent, over; mtype:take got

/* Whether this mark asks for what may be there now. */
#ifdef M_OTHER_TAKER
#define ASKS_FOR(mark, what) (mark == Anything || mark > Due && what > Due && mark != what)
#else
#define ASKS_FOR(mark, what) (mark == Anything || mark == what || mark >= Due && what == Any)
#endif
/* line.rt ring: a load; behind the lock, where it is so still, the mark, and then the first's bell */
inline line_ring(at, what) {
  if
  :: ASKS_FOR(mark[at], (what)) ->
     d_step { !locked[at] -> rings = ASKS_FOR(mark[at], (what)); locked[at] = rings };
     if
     :: rings ->
#ifdef M_BELL_BEFORE_MARK
        d_step { line[at] ? <w>; RING(w); w = 0 };
        d_step { mark[at] = Rung; locked[at] = false; rings = false }
#else
        mark[at] = Rung;
        d_step { line[at] ? <w>; RING(w); w = 0; locked[at] = false; rings = false }
#endif
     :: !rings
     fi
  :: else
  fi
}
/* line.rt leave: the next one is rung. Its bell is a step with the mark: nobody else sees it before. */
inline line_leave(at, c) {
  d_step { !locked[at] ->
    line[at] ?? eval(c); stands[c] = 0; overtaking[at] = 0; overtaken[at] = 0;
    if
    :: len(line[at]) == 0 -> mark[at] = Nobody
    :: else ->
       mark[at] = Rung;
#ifndef M_LEAVES_SILENT
       line[at] ? <w>; RING(w); w = 0
#endif
    fi }
}
/* line.rt join: whether it is the first */
inline line_join(at, c) {
  d_step { !locked[at] ->
    some = len(line[at]) == 0; line[at] ! c; stands[c] = 1 + at;
    if :: some -> overtaking[at] = 0; overtaken[at] = 0; mark[at] = Anything :: else fi }
}
/* keepers.rt take_or_join: whether there was a place, and nobody waited for one */
inline take_or_join(at, c) {
#ifdef M_PLACE_NEWCOMER
  d_step { some = (keepers[at] < PLACES);
#else
  d_step { some = (keepers[at] < PLACES && len(second[at]) == 0);
#endif
    if
    :: some -> assert(len(second[at]) == 0); keepers[at]++; kept[c] = kept[c] | BIT(at)
    :: else -> second[at] ! c; stands[c] = 1 + TOPICS + at
    fi }
}
/* keepers.rt give_back: the first of the second line is rung */
inline give_place_back(at, c) {
  d_step {
#ifndef M_PLACE_LOST
    keepers[at]--;
#endif
    kept[c] = kept[c] - BIT(at);
#ifndef M_PLACE_SILENT
    if :: len(second[at]) > 0 && keepers[at] < PLACES -> second[at] ? <w>; RING(w); w = 0 :: else fi
#endif
  }
}
/* Who finds room came where nobody stood in the line, or is its first; or owed turns, and so many such at most overtake a
   first, and one of each other connection that was just asking when that became the first. */
#ifdef FAIR
#define CAME_FIRST(at, c) skip
#else
#define CAME_FIRST(at, c) \
  assert(!late && (len(line[at]) == 0 || stands[c] != 1 + at || line[at] ? [eval(c)])); \
  if \
  :: len(line[at]) > 0 && stands[c] != 1 + at -> overtaken[at]++; assert(overtaken[at] < OVERTAKING + SENDERS) \
  :: else \
  fi
#endif
/* broker.rt reserve_at, room.rt reserve behind the topic's lock: 0, or for what it waits. Who is waited for is looked at
   from this one on. So many places have to be free as the part asks for; one of them is reserved. */
inline reserve_at(at, c, from) {
  d_step { !topic[at] ->
    why = 0;
    if
    :: IS_FULL(at, asks) -> why = Due
    :: else ->
       u = OF(from);
       do
       :: e < SUBS ->
          if
          :: TOPIC(u) == at && waited[u] ->
             HEAR(u);
             if
             :: USED(u) + DUE(at) + asks > CAPACITY -> why = Sub(u); break
             :: else
             fi
          :: else
          fi;
          u = (u + 1) % NUMBER; e++
       :: else -> break
       od
    fi;
    u = 0; e = 0;
    if
    :: why == 0 ->
       CAME_FIRST(at, c);
       reserved[at]++; room[c] = room[c] | BIT(at)
    :: else
    fi }
}
/* broker.rt release_behind, then line.rt ring */
inline give_room_back(at, c) {
  d_step { !topic[at] -> reserved[at]--; room[c] = room[c] - BIT(at) };
#ifndef M_GIVE_BACK_SILENT
  line_ring(at, Any)
#endif
}
/* calls.rt tell_taken: taker.rt tell, in place of what was told and isn't heard yet, and hub.rt room_made */
inline tell_taken(sub, is_rung) {
#ifdef M_RINGS_BEFORE_TELL
  if
  :: is_rung -> line_ring(TOPIC(sub), Sub(sub))
  :: else
  fi;
#endif
#ifdef M_RUNG_FOR_ONE
  d_step { lacked = !FITS(sub, 1) };
#endif
  if
  :: d_step { told[sub] == 0 -> told[sub] = untold[sub]; untold[sub] = 0 }
  :: d_step { told[sub] > 0 -> telling[sub] = true };
     d_step { told[sub] = told[sub] + untold[sub]; untold[sub] = 0; telling[sub] = false }
  fi;
#ifdef TARRIES
  d_step {                                                       /* seat.rt set_taken */
#ifndef M_TAKEN_UNTOLD
    taken[sub] = true;
#endif
    took[sub] = true };
#endif
#ifdef M_RUNG_FOR_ONE
  if
  :: is_rung && lacked -> lacked = false; line_ring(TOPIC(sub), Sub(sub))
  :: else -> lacked = false
  fi
#elif !defined(M_RINGS_BEFORE_TELL)
  if
  :: is_rung -> line_ring(TOPIC(sub), Sub(sub))
  :: else
  fi
#endif
}
#ifdef M_HALF_SILENT
#define HALF_RINGS false
#else
#define HALF_RINGS true
#endif
#ifdef M_NONE_SILENT
#define NONE_RINGS false
#else
#define NONE_RINGS true
#endif
/* calls.rt find_empty: a swap, and room.rt wait_for behind the topic's lock, where its queue is known to be empty; who
   isn't waited for stays passed over */
inline wait_again(sub) {
  d_step { some = passed_over[sub]; passed_over[sub] = false };
  if
  :: some ->
     d_step { !topic[TOPIC(sub)] ->
       HEAR(sub);
#ifdef M_WAITS_UNLOOKED
       if :: open_[sub] && !lagged[sub] -> waited[sub] = true; some = false
#else
       if :: open_[sub] && !lagged[sub] && USED(sub) == 0 && FITS(sub, 0) -> waited[sub] = true; some = false
#endif
       :: else fi };
     if
#ifndef M_PASSED_FORGOTTEN
     :: some -> passed_over[sub] = true; some = false
#endif
     :: else -> some = false
     fi
  :: else
  fi
}

/* calls.rt end_at, of one: the seat, then the subscription, then who waits for room */
inline sub_end(sub) {
#ifdef M_RINGS_BEFORE_END
  line_ring(TOPIC(sub), Sub(sub));
#endif
  d_step { !seats[TOPIC(sub)] -> seated[sub] = false };
  d_step { !topic[TOPIC(sub)] -> open_[sub] = false; waited[sub] = false };
#if !defined(M_RINGS_BEFORE_END) && !defined(M_END_SILENT)
  line_ring(TOPIC(sub), Sub(sub))
#endif
}
#define EACH_OF(c, at, does) for (s : 0 .. SUBS - 1) { if :: TOPIC(s) == at && TAKER(s) == c && has[s] -> does :: else fi } s = 0
/* conversation.rt close, calls.rt end_all: all that is open ends, that of one topic at once, calls.rt end_at: the seats,
   topic_seats.rt remove_all, then the subscriptions, broker.rt unsubscribe_all, then who waits for room */
inline talk_close(c) {
#ifdef HALVES
  d_step { leaving[c] = true; half[c] = false; owing[c] = false };
#else
  leaving[c] = true;
#endif
  do
  :: d_step { e < TOPICS -> more[c] = false; n = 0; u = 0; EACH_OF(c, e, n++; u = s); u = (n == 1 -> Sub(u) : (n > 1 -> Any : 0)) };
     if
     :: n > 0 ->
#ifdef M_RINGS_BEFORE_END
        line_ring(e, u);
#endif
        d_step { !seats[e] -> EACH_OF(c, e, seated[s] = false) };
        d_step { !topic[e] -> EACH_OF(c, e, open_[s] = false; waited[s] = false) };
#if !defined(M_RINGS_BEFORE_END) && !defined(M_END_SILENT)
        line_ring(e, u);
#endif
        d_step { EACH_OF(c, e, has[s] = false); n = 0; u = 0 }
     :: n == 0
     fi;
     e++
  :: e >= TOPICS -> break
  od;
  e = 0
}
#ifdef HALVES
#define MAY_BE_HALF(c) if \
    :: wire[c] >= WIRE -> half[c] = true; more[c] = true \
    :: true \
    fi
#else
#define MAY_BE_HALF(c) skip
#endif
/* calls.rt take_flags, and taking.rt drain_flagged, of each queue in turn, calls.rt take */
inline talk_drain(c, waits) {
  d_step { known[c] = known[c] | flags[c]; flags[c] = 0 };
#ifdef HALVES
  if                                                             /* taking.rt put_left */
  :: d_step { half[c] && wire[c] < WIRE -> half[c] = false; wire[c]++; sent = true; more[c] = true }
  :: d_step { half[c] && wire[c] >= WIRE -> more[c] = true }
  :: !half[c]
  fi;
  if                                                             /* taking.rt take_behind */
  :: OWES(c) -> s = SUBS
  :: !OWES(c)
  fi;
#endif
  do
  :: d_step { s < SUBS ->
       if
       :: TAKER(s) != c || !has[s] || leaving[c] || !(known[c] & BIT(s)) -> got = Other
       :: else ->
          if
          :: wire[c] >= WIRE -> got = Full; more[c] = true
          :: wire[c] < WIRE && queue[s] > 0 ->
             more[c] = false; queue[s]--; untold[s]++; wire[c]++; sent = true;
             got = (untold[s] >= HALF -> Half : Item)
          :: else -> more[c] = false; got = (untold[s] > 0 -> Last : None)
          fi
       fi };
     if
     :: got == Other -> s++
     :: got == Full -> break
     :: got == Item -> MAY_BE_HALF(c)
     :: got == Half -> tell_taken(s, HALF_RINGS); MAY_BE_HALF(c)
     :: got == Last || got == None ->
#ifdef M_WAITS_BEFORE_TELL
        wait_again(s);
#endif
        if
        :: got == Last -> tell_taken(s, NONE_RINGS)
        :: else
        fi;
#if PASSES > 0
#ifndef M_WAITS_BEFORE_TELL
        wait_again(s);
#endif
        if                                                       /* calls.rt has_lagged */
        :: lagged[s] && !(waits) -> over = true; break           /* not while a transaction waits */
        :: !lagged[s] || (waits) -> s++
        fi
#else
        s++
#endif
     fi;
     got = 0
  :: s >= SUBS -> break
  od;
  s = 0;
  d_step { got = 0; if :: more[c] || (waits) || OWES(c) -> skip :: else -> known[c] = 0 fi };   /* drained.rt flags_left */
  if
  :: over -> over = false; talk_close(c)
  :: else
  fi
}
/* desk.rt deliver: it isn't stuck from before it looks */
inline desk_deliver(c, waits) {
#if STOPS > 0 || defined(NEVER)
  if
  :: stuck[c] -> stuck[c] = false
  :: !stuck[c]
  fi;
#endif
  talk_drain(c, waits)
}
/* socket.rt write */
#define WRITE(c) if \
    :: wire[c] > 0 && !blocked[c] && reads[c] -> wire[c] = 0; sent = true \
    :: wire[c] > 0 && !blocked[c] && !reads[c] -> blocked[c] = true \
    :: else \
    fi
/* desks.rt stand_in, desk.rt stand_in */
inline desks_stand_in(c) {
  if
  :: atomic { !desk[c] -> desk[c] = true };
     if
     :: at_desk[c] ->
        desk_deliver(c, held[c] > 0);
        d_step { WRITE(c); sent = false; done = (wire[c] == 0 && !more[c] && !leaving[c]) }
     :: else
     fi;
     desk[c] = false
  :: desk[c] -> skip                                             /* try_lock: somebody works there */
  fi
}

#define SLEEPS(sub) (bell[TAKER(sub)] == Asleep && !stuck[TAKER(sub)])
#define TO_THE_NEXT(is) do :: u < SUBS && !(is) -> u++ :: else -> break od
#define GETS(at) (TOPIC(u) == at && open_[u] && !lagged[u])
#define SITS(at) (TOPIC(u) == at && seated[u])
/* running.rt turn: behind the topic's lock it releases what is decided, and pushes it to each open subscription. Who is
   waited for has room for it. */
inline topic_turn(at) {
  if
  :: undecided[at] > 0 && !topic[at] -> skip                     /* all of it is behind what isn't decided */
  :: true ->
     do
     :: d_step { mine || !topic[at] ->
          if :: !mine -> n = pending[at] - undecided[at]; TO_THE_NEXT(GETS(at)) :: else fi;
          if
          :: n > 0 ->
             some = true;
             if
             :: u < SUBS ->
                if
                :: queue[u] >= CAPACITY -> assert(!waited[u] && MAY_LAG(u)); lagged[u] = true
                :: else -> queue[u]++
                fi;
                u++; TO_THE_NEXT(GETS(at))
             :: else
             fi;
             if
             :: u >= SUBS -> pending[at]--; n--; u = 0; TO_THE_NEXT(GETS(at))
             :: else
             fi
          :: else
          fi;
          mine = (n > 0); topic[at] = mine; if :: !mine -> u = 0 :: else fi };
        if
        :: !mine -> break
        :: mine
        fi
     od
  fi
}
/* hub.rt turned: who waits for room is told, then who has a seat, topic_seats.rt ring, or topic_seats.rt ring_awake,
   which lists who sleeps */
inline hub_turned(at, stands_in) {
#ifdef M_RINGS_BEFORE_TURN
  line_ring(at, Due);
#endif
  topic_turn(at);
  if
  :: some ->
     some = false;
#if !defined(M_RINGS_BEFORE_TURN) && !defined(M_TURN_SILENT)
     line_ring(at, Due);
#endif
     do
     :: d_step { mine || !seats[at] ->
          TO_THE_NEXT(SITS(at));
          if
          :: u < SUBS ->
             if
             :: stands_in && SLEEPS(u) -> RAISE(u); sleepers = sleepers | BIT(u)
             :: else -> SEAT_RING(u)
             fi;
             u++; TO_THE_NEXT(SITS(at))
          :: else
          fi;
          mine = (u < SUBS); seats[at] = mine; if :: !mine -> u = 0 :: else fi };
        if
        :: !mine -> break
        :: mine
        fi
     od
  :: else
  fi
}
#define FEW_SLEEP(sub) (sub >= SUBS || !(owes & BIT(TOPIC(sub))) || !seated[sub] || SLEEPS(sub))
/* connection.rt stands_in, or calls.rt turn_now or turn_topics: turns what it owes */
inline turn_owed(may_tell) {
  if
  :: FEW_SLEEP(0) && FEW_SLEEP(1) -> stands_in = true            /* hub.rt few_sleep, turn_for */
  :: stands_in = false                                           /* hub.rt turn_those */
#ifdef HEADS
  :: may_tell && commits > 1 && !TAKES(c) ->                     /* hub.rt set_due, head.rt tell */
     do
     :: t < TOPICS && (owes & BIT(t)) ->
        d_step { some = due[t]; due[t] = true };
        if
        :: some -> some = false
        :: else -> head_queue ! t
        fi;
        owes = owes - BIT(t)
     :: t < TOPICS && !(owes & BIT(t)) -> t++
     :: t >= TOPICS -> break
     od;
     t = 0
#endif
  fi;
  do
  :: t < TOPICS && (owes & BIT(t)) -> hub_turned(t, stands_in); owes = owes - BIT(t); t++
  :: t < TOPICS && !(owes & BIT(t)) -> t++
  :: t >= TOPICS -> break
  od;
  t = 0; commits = 0; stands_in = false;
  do
  :: x < SUBS && (sleepers & BIT(x)) ->
     desks_stand_in(TAKER(x));
     if
     :: !done -> d_step { SEAT_RING(x) }
     :: done
     fi;
     d_step { done = false; sleepers = sleepers - BIT(x); x++ }
  :: x < SUBS && !(sleepers & BIT(x)) -> x++
  :: x >= SUBS -> break
  od;
  x = 0
}
/* waiting.rt looks_for_whom, room_wait.rt look: who lacks room at this topic may be passed over, room.rt pass_over behind
   its lock, and is told of it, topic_seats.rt pass_over; then it looks again */
inline look_at_whom(at, c) {
#if PASSES > 0
  do
#ifdef TARRIES
  :: d_step { x < SUBS && TOPIC(x) == at && !topic[at] && !seats[at] && LACKS(x, asks) ->
       over = IS_SLOW(x); assert(!over || !reads[TAKER(x)] || !took[x]);
       tarried[x] = reads[TAKER(x)]; taken[x] = false; took[x] = false };
     if
     :: !over || passes >= PASSES -> over = false; x++
     :: over -> over = false; x++                                /* it is waited for still */
     :: d_step { over && passes < PASSES && !topic[at] -> over = false; passes++;
#else
  :: d_step { passes < PASSES && x < SUBS && TOPIC(x) == at && !topic[at] && IS_SLOW(x) && LACKS(x, asks) ->
       passes++;
#endif
#ifdef M_PASSED_FIRST
       passed_over[x] = true
     };
     d_step { !topic[at] ->
#endif
       HEAR(x);
       if :: LACKS(x, asks) -> waited[x] = false; done = true :: else fi };
     if
     :: done ->
#ifndef M_PASSED_FIRST
        d_step { !seats[at] -> seats[at] = true; if :: seated[x] -> passed_over[x] = true :: else fi };
        d_step {
#ifndef M_PASSED_UNRUNG
          if :: seated[x] -> PASSED_RING(x) :: else fi;
#endif
          seats[at] = false };
#endif
        done = false; some = true
     :: !done
     fi;
     x++
#ifdef TARRIES
     fi
  :: x < SUBS && !(TOPIC(x) == at && LACKS(x, asks)) -> x++
#else
  :: x < SUBS -> x++
#endif
  :: x >= SUBS -> break
  od;
  x = 0;
  if
  :: some ->
     some = false;
#ifndef M_PASS_SILENT
     d_step { RING(c) }
#endif
  :: !some
  fi;
#endif
  skip
}
#define PASS_OVER_FULL(t) for (u : 0 .. SUBS - 1) { \
  if \
  :: TOPIC(u) == t && waited[u] -> HEAR(u); if :: FITS(u, 0) -> skip :: else -> waited[u] = false fi \
  :: else \
  fi } u = 0
#define SETTLE for (u : 0 .. TOPICS - 1) { if :: want & BIT(u) -> undecided[u]-- :: else fi } u = 0; want = 0
#define MAY_BE_PASSED(sub) (sub < SUBS && stands[c] == 1 + TOPIC(sub) && line[TOPIC(sub)] ? [eval(c)] && \
  LACKS(sub, asks) && IS_SLOW(sub))
/* waiting.rt gives_up: leaves its line, and gives all back */
inline cancel(c) {
  if
  :: stands[c] > TOPICS ->
     d_step { t = stands[c] - 1 - TOPICS; second[t] ?? eval(c); stands[c] = 0;
#ifndef M_SECOND_LEAVES_SILENT
       if :: len(second[t]) > 0 && keepers[t] < PLACES -> second[t] ? <w>; RING(w); w = 0 :: else fi;
#endif
       t = 0 }
  :: stands[c] > 0 && stands[c] <= TOPICS -> rest(c)
  :: stands[c] == 0
  fi;
  do
  :: t < TOPICS && (room[c] & BIT(t)) -> give_room_back(t, c); t++
  :: t < TOPICS && !(room[c] & BIT(t)) -> t++
  :: t >= TOPICS -> break
  od;
  t = 0;
  give_places_back(c)
}
/* calls.rt rest, waiting.rt leaves: the line whose first it stayed */
inline rest(c) {
  t = stands[c] - 1; line_leave(t, c); t = 0; found = 0
}
/* waiting.rt gives_places_back */
inline give_places_back(c) {
  do
  :: t < TOPICS && (kept[c] & BIT(t)) -> give_place_back(t, c); t++
  :: t < TOPICS && !(kept[c] & BIT(t)) -> t++
  :: t >= TOPICS -> break
  od;
  t = 0
}

#define HEARS(c) (want == 0 && !HALFWAY(c) && !OWES(c))
/* Whether this is the first of its topics at which a transaction has no room. */
#ifdef M_FALLING
#define IS_NEXT(t) ((want & ~room[c] & BIT(t)) > 0)
#define BEHIND_ALL(c) true
#else
#define IS_NEXT(t) ((want & ~room[c] & (BIT((t) + 1) - 1)) == BIT(t))
#define BEHIND_ALL(c) (room[c] == 0 || room[c] < BIT((stands[c] - 1) % TOPICS))
#endif
/* Who sleeps and waits stands in a line, and keeps room at topics before that alone, and no more than half of it is kept
   at a topic; who sleeps else has none, and stands nowhere. */
#define RESTS_WELL(c) \
    assert((want > 0) == (stands[c] > 0) && (want > 0 || kept[c] == 0) && (room[c] & ~kept[c]) == 0); \
    assert(BEHIND_ALL(c)); \
    for (u : 0 .. TOPICS - 1) { \
      for (w : 0 .. SENDERS - 1) { if :: held[w] > 0 && (room[w] & BIT(u)) -> e++ :: else fi } \
      assert(e <= MOST); e = 0 } \
    u = 0; w = 0

/* Who owes turns may overtake those who wait, as it comes: line.rt lets_by. */
#define MAY_OVERTAKE (!tries && commits > 0)
#ifdef M_OVERTAKES_ALWAYS
#define LETS_OVERTAKE(at) true
#else
#define LETS_OVERTAKE(at) d_step { overtaking[at] < OVERTAKING -> overtaking[at]++ }
#endif

/* A connection: its thread. */
proctype Connection(byte c; byte asks) {
  SCRATCH;
  byte made, want, commits, owes, why, last, found;
  bool busy, may, stands_in, again, late, bare, tries, lacks;
  if
  :: SENDS(c) -> desk[c] = TAKES(c)
  :: !SENDS(c) -> goto sleeps                                    /* all is as it is at rest */
  fi;
round:                                                           /* connection.rt round, bell.rt hears */
  if
  :: d_step { true -> may = (bell[c] == Told || more[c]); bell[c] = Awake }
  fi;
heard:
#ifdef CLOSES
  if
  :: closing -> may = false; goto leave                          /* hub.rt is_closing */
  :: else
  fi;
#endif
  if
  :: TAKES(c) ->
     if
#ifdef M_HELD_TAKES_NOTHING
     :: may && want == 0 -> may = false; desk_deliver(c, false)
     :: !may || want > 0 -> may = false
#else
     :: may -> may = false; desk_deliver(c, want > 0)
     :: !may
#endif
     fi;
     d_step { WRITE(c); busy = sent; sent = false; again = false; over = leaving[c]; may = (more[c] && blocked[c]) };
     if
     :: over -> may = false; over = false; goto leave
     :: !over
     fi;
     if
     :: may -> may = false; stuck[c] = true                      /* desk.rt note_stuck */
     :: !may
     fi;
#if FRAMES > 0
     if                                                          /* connection.rt hear */
     :: frame[c] == Nothing || want > 0 || HALFWAY(c) || OWES(c) -> skip
     :: frame[c] == Subscribe && HEARS(c) ->                    /* calls.rt subscribe: the seat, then the subscription */
        frame[c] = Nothing; busy = true;
        d_step { !seats[TOPIC(SUBS - 1)] -> seated[SUBS - 1] = true };
        d_step { !topic[TOPIC(SUBS - 1)] -> assert(FITS(SUBS - 1, 0));
          open_[SUBS - 1] = true; waited[SUBS - 1] = true; has[SUBS - 1] = true }
     :: frame[c] == Unsubscribe && HEARS(c) ->                  /* of its first subscription: calls.rt unsubscribe */
        d_step { frame[c] = Nothing; busy = true;
          do :: e < SUBS && !(TAKER(e) == c && has[e]) -> e++ :: else -> break od };
        if
        :: e < SUBS -> has[e] = false; sub_end(e)
        :: e >= SUBS
        fi;
        e = 0
     :: frame[c] == End && HEARS(c) -> talk_close(c); goto leave
     fi
#endif
  :: !TAKES(c) -> may = false
  fi;
  if
  :: SENDS(c) ->
     if
#ifdef M_HALF_WAITS
     :: want > 0 && !HALFWAY(c) -> goto go_on
#else
     :: want > 0 -> goto go_on
#endif
#if defined(HALVES) && !defined(M_OWED_FORGOTTEN)
     :: want == 0 && OWES(c) && !HALFWAY(c) -> goto answers
#endif
     :: want == 0 && MAY_HEAR(c) -> goto hear
     :: want == 0 && !MAY_HEAR(c) && commits > 0 -> goto turn
     :: else
     fi
  :: !SENDS(c)
  fi;
  goto idle;
hear:                                                            /* connection.rt hear: it may hear more, or turns */
  if
  :: MAY_HEAR(c) ->
#ifdef ENDLESS
     made = (c == 0 -> made + 1 : made);
#else
     made++;
#endif
     busy = true; again = false;
     if                                                          /* conversation.rt send, of the next frame */
     :: TO(c) > 0 -> want = TO(c)
     :: TO(c) == 0 -> want = 1
#if TOPICS > 1
     :: TO(c) == 0 -> want = 2
     :: TO(c) == 0 -> want = 3
#endif
     fi;
     goto ask
#ifdef M_SLEEPS_FIRST
  :: commits > 0 -> goto turn
  :: !MAY_HEAR(c) && commits == 0 -> goto round
#else
  :: stands[c] > 0 -> rest(c); goto hear                         /* connection.rt go_on */
  :: stands[c] == 0 && commits > 0 -> goto turn
#if BATCH > 1
  :: stands[c] > 0 && commits > 0 -> turn_owed(true); goto hear  /* calls.rt count_commit */
#endif
  :: !MAY_HEAR(c) && stands[c] == 0 && commits == 0 -> goto round
#endif
  fi;
turn:                                                            /* the end of connection.rt hear */
  turn_owed(true);
  goto round;
go_on:                                                           /* connection.rt go_on */
  again = true;
#ifndef M_WAITS_OWING
  if
  :: commits > 0 -> turn_owed(false)
  :: commits == 0
  fi;
#endif
  goto try;
ask:                                                             /* calls.rt reserve */
  if
#ifndef M_WAITS_OWING
  :: commits > 0 -> goto go_on                                   /* so many that it looks for who sleeps */
#endif
#if WITHOUT > 0
  :: d_step { without < WITHOUT -> without++; bare = true }; cancel(c); goto enter
#endif
  :: true
  fi;
  if
  :: stands[c] == 0 -> goto on
  :: stands[c] > 0                                               /* waiting.rt comes */
  fi;
try:                                                             /* waiting.rt tries, next_step */
  tries = true;
  if
  :: stands[c] > 0 && stands[c] <= TOPICS && !IS_NEXT(stands[c] - 1) -> rest(c)
  :: stands[c] == 0 || stands[c] > TOPICS || IS_NEXT(stands[c] - 1)
  fi;
  if
  :: stands[c] == 0 -> goto on
  :: stands[c] > TOPICS ->                                       /* keepers.rt take_as_first */
     d_step { t = stands[c] - 1 - TOPICS;
       some = (second[t] ? [eval(c)] && keepers[t] < PLACES);
       if
       :: some ->
          second[t] ? _; keepers[t]++; kept[c] = kept[c] | BIT(t); stands[c] = 0;
#ifndef M_TAKES_PLACE_SILENT
          if :: len(second[t]) > 0 && keepers[t] < PLACES -> second[t] ? <w>; RING(w); w = 0 :: else fi
#endif
       :: else
       fi;
       t = 0 };
     if
     :: some -> some = false; goto on
     :: !some -> goto refused
     fi
  :: stands[c] > 0 && stands[c] <= TOPICS ->                     /* line.rt is_first */
     if
     :: d_step { !locked[stands[c] - 1] && line[stands[c] - 1] ? [eval(c)] -> t = stands[c] - 1 }; goto look
     :: d_step { !locked[stands[c] - 1] && !(line[stands[c] - 1] ? [eval(c)]) -> skip };
#ifdef M_ASKS_BEHIND
        t = stands[c] - 1; goto look
#else
        goto refused
#endif
     fi
  fi;
on:                                                              /* the next topic at which it has no room */
  if
#ifdef M_FALLING
  :: d_step { true -> t = (c == SENDERS - 1 -> TOPICS - 1 : 0);
       do
       :: c == SENDERS - 1 && t > 0 && !(want & ~room[c] & BIT(t)) -> t--
       :: c < SENDERS - 1 && t < TOPICS && !(want & ~room[c] & BIT(t)) -> t++
       :: else -> break
       od;
       if :: want & ~room[c] -> skip :: else -> t = TOPICS fi }
#else
  :: d_step { true -> t = 0; FIRST_OF(want & ~room[c]) }
#endif
  fi;
  if
  :: t >= TOPICS -> t = 0; give_places_back(c); goto enter       /* waiting.rt finish */
  :: t < TOPICS && !lacks && mark[t] == Nobody ->                /* line.rt is_awaited */
     reserve_at(t, c, 0);
     if
     :: why == 0 -> goto on
     :: why > 0 -> why = 0; lacks = tries
     fi
#ifdef M_NEWCOMER_ASKS
  :: d_step { t < TOPICS && !lacks && mark[t] != Nobody -> late = len(line[t]) > 0 };
     reserve_at(t, c, 0); late = false;
     if
     :: why == 0 -> goto on
     :: why > 0 -> why = 0
     fi
#else
  :: t < TOPICS && !lacks && mark[t] != Nobody && MAY_OVERTAKE ->
     if                                                          /* line.rt lets_overtake */
     :: LETS_OVERTAKE(t) ->
        reserve_at(t, c, 0);
        if
        :: why == 0 -> goto on
        :: why > 0 -> why = 0
        fi
     :: overtaking[t] >= OVERTAKING
     fi
  :: t < TOPICS && (lacks || mark[t] != Nobody && !MAY_OVERTAKE)
#endif
  fi;
  if                                                             /* calls.rt room_at */
  :: tries -> skip
#ifdef ONCE
  :: !tries && commits == 0 -> tries = true
#else
  :: !tries && commits == 0 -> goto try
#endif
#ifndef M_WAITS_OWING
  :: !tries && commits > 0 -> goto go_on
#else
  :: !tries && commits > 0 -> tries = true
#endif
  fi;
  if                                                             /* waiting.rt leaves: the line whose first it stayed */
  :: stands[c] > 0 -> rest(c); lacks = false; d_step { t = 0; FIRST_OF(want & ~room[c]) }
  :: stands[c] == 0
  fi;
  d_step { x = 0; do :: x < TOPICS && !(room[c] & ~kept[c] & BIT(x)) -> x++ :: else -> break od; skip };
  if
  :: x < TOPICS ->                                               /* waiting.rt takes_place */
     take_or_join(x, c);
     if
     :: some ->
        some = false; x = 0;
#ifndef ONCE
        lacks = false;
#endif
        goto on
     :: !some ->
        lacks = false; t = x; x = 0;
        do
        :: t < TOPICS && (room[c] & BIT(t)) -> give_room_back(t, c); t++
        :: t < TOPICS && !(room[c] & BIT(t)) -> t++
        :: t >= TOPICS -> break
        od;
        t = 0; goto refused
     fi
  :: x >= TOPICS -> x = 0; lacks = false
  fi;
  line_join(t, c);                                               /* waiting.rt joins */
  if
#ifdef M_JOINS_UNASKED
  :: some -> some = false; t = 0; goto refused
#else
  :: some -> some = false; goto looks
#endif
  :: !some -> t = 0; goto refused
  fi;
look:                                                            /* waiting.rt looks */
#ifndef M_MARK_LATE
  mark[t] = Anything;
#endif
looks:
  reserve_at(t, c, last);
  if
  :: why == 0 -> goto finds
#ifndef M_WAITS_OWING
  :: why > 0 && commits > 0 -> mark[t] = Rung; why = 0; t = 0; goto refused
  :: why > 0 && commits == 0
#else
  :: why > 0
#endif
  fi;
#ifdef M_ALWAYS_DUE
  d_step { mark[t] = Due; last = why; why = 0 };
#else
  d_step { mark[t] = why; last = why; why = 0 };                 /* waiting.rt marks */
#endif
  look_at_whom(t, c); t = 0;
  goto refused;
finds:                                                           /* waiting.rt finds */
  last = 0;
#ifndef M_STAYS_ALWAYS
  found++;
#endif
  if
  :: found < BATCH ->
#ifndef M_FINDS_UNMARKED
     mark[t] = Rung;
#endif
     t = 0
  :: found >= BATCH -> t = 0; rest(c)
  fi;
  goto on;
refused:
  tries = false;
#if WITHOUT > 0
  if
  :: d_step { without < WITHOUT -> without++; bare = true }; cancel(c); goto enter
  :: true
  fi;
#endif
#ifndef M_WAITS_OWING
  if
  :: commits > 0 -> goto go_on
  :: commits == 0
  fi;
#endif
#ifdef ONCE
  if
  :: !again -> busy = false
  :: again
  fi;
#else
  if
  :: !again -> goto go_on                                        /* connection.rt hear_read */
  :: again
  fi;
#endif
  goto idle;
enter:
  tries = false; lacks = false;
#if GIVEN_BACK > 0
  if
  :: d_step { given_back < GIVEN_BACK -> given_back++; some = true }
  :: true
  fi;
  if
  :: some ->                                                     /* calls.rt give_room_back: hub.rt release_room */
     some = false;
     do
     :: d_step { t < TOPICS && (room[c] & BIT(t)) && !topic[t] -> reserved[t]--; room[c] = room[c] - BIT(t); t++ }
     :: t < TOPICS && !(room[c] & BIT(t)) -> t++
     :: t >= TOPICS -> break
     od;
     t = 0;
#ifndef M_UNUSED_SILENT
     do
     :: t < TOPICS -> line_ring(t, Any); t++
     :: t >= TOPICS -> break
     od;
     t = 0;
#endif
     goto entered
  :: !some
  fi;
#endif
  /* broker.rt commit_reserved, commit.rt propose_all: by rising topic, room.rt enter behind its lock */
  if
  :: d_step { true -> t = 0; FIRST_OF(want) }
  fi;
  do
  :: d_step { t < TOPICS && !topic[t] ->
       pending[t]++; undecided[t]++; owes = owes | BIT(t);
       if
       :: bare -> PASS_OVER_FULL(t)                              /* room.rt pass_over_full */
       :: else -> assert(reserved[t] > 0 && (room[c] & BIT(t))); reserved[t]--; room[c] = room[c] - BIT(t)
       fi;
       t++; FIRST_OF(want);
#ifndef SETTLES
       if
       :: t >= TOPICS -> SETTLE; some = true
       :: else
       fi
#endif
     };
     if
#ifndef SETTLES
     :: some -> some = false; break
#endif
     :: !some
     fi
#if REFUSALS > 0
  :: d_step { t < TOPICS && want < BIT(t + 1) && !topic[t] && refusals < REFUSALS ->
       refusals++; owes = owes | BIT(t) };
     if                                                          /* commit.rt cancel_all */
     :: t == 1 && (want & 1) -> d_step { !topic[0] -> pending[0]--; undecided[0]-- }
     :: else
     fi;
     d_step { !topic[t] ->                                       /* broker.rt release_room, of what is left */
       reserved[t]--; room[c] = room[c] - BIT(t) };
     want = 0; t = 0;
#ifndef M_REFUSED_SILENT
     do                                                          /* calls.rt commit: hub.rt room_freed */
     :: t < TOPICS -> line_ring(t, Any); t++
     :: t >= TOPICS -> break
     od;
#endif
     break
#endif
#ifdef SETTLES
  :: d_step { t >= TOPICS ->                                     /* commit.rt settle: the flight's cell */
       SETTLE };
     break
#endif
  od;
  t = 0; commits++;
#if WITHOUT > 0
  if
  :: bare ->
     bare = false;
#ifndef M_BARE_SILENT
     do                                                          /* calls.rt commit: hub.rt room_freed */
     :: t < TOPICS -> line_ring(t, Any); t++
     :: t >= TOPICS -> break
     od;
     t = 0;
#endif
#ifndef M_BARE_FORGETS
     do                                                          /* hub.rt pass_all_over, topic_seats.rt pass_all_over */
     :: d_step { t < TOPICS && !seats[t] -> seats[t] = true };
        do
        :: d_step { u < SUBS && TOPIC(u) == t && seated[u] -> passed_over[u] = true };
           d_step { SEAT_RING(u); u++ }
        :: d_step { u < SUBS && !(TOPIC(u) == t && seated[u]) -> u++ }
        :: u >= SUBS -> break
        od;
        skip;
        d_step { u = 0; seats[t] = false; t++ }
     :: t >= TOPICS -> break
     od;
     t = 0;
#endif
     skip
  :: !bare
  fi;
#endif
#ifdef ENDLESS
  served = served || (c == 0 && made == MAKES(c));
#endif
entered:
  want = 0;
#ifdef HALVES
  if                                                             /* conversation.rt go_on_halfway: its answer is owed */
  :: HALFWAY(c) ->
     owing[c] = true; again = false;
     if                                                          /* connection.rt try_once */
     :: commits > 0 -> turn_owed(false)
     :: commits == 0
     fi;
#ifndef M_HALF_STAYS
     if
     :: stands[c] > 0 -> rest(c)
     :: stands[c] == 0
     fi;
#endif
     goto idle
  :: !HALFWAY(c)
  fi;
  goto answered;
answers:                                                         /* conversation.rt finish */
  owing[c] = false; again = true;
answered:
#endif
#ifdef OWN
  if                                                             /* connection.rt end_wait */
  :: again && TAKES(c) -> desk_deliver(c, false); sent = false
  :: !again || !TAKES(c)
  fi;
#endif
  busy = true; again = false;
  if
  :: MAY_HEAR(c) || commits > 0 || stands[c] > 0 -> goto hear
  :: else
  fi;
  goto round;
idle:
  if
  :: busy -> busy = false; goto round
  :: !busy
  fi;
  d_step {                                                       /* bell.rt sleeps */
#ifdef M_SLEEPS_BLIND
    may = true;
#else
    may = (bell[c] == Awake);
#endif
    if :: may -> bell[c] = Asleep; held[c] = want; RESTS_WELL(c) :: else fi };
  if
  :: !may -> goto round
  :: may -> may = false
  fi;
  if
  :: TAKES(c) -> desk[c] = false
  :: !TAKES(c)
  fi;
sleeps:
end:
  atomic {                                                       /* connection.rt wait and work, and bell.rt hears */
    !desk[c] && (woken[c] || (blocked[c] && reads[c]) || (frame[c] != Nothing && HEARS(c))
#if PASSES > 0
    || (want > 0 && passes < PASSES && (MAY_BE_PASSED(0) || MAY_BE_PASSED(1)))
#endif
    ) -> woken[c] = false; desk[c] = TAKES(c); blocked[c] = false; held[c] = 0;
    may = (bell[c] == Told || more[c]); bell[c] = Awake };
  goto heard;
leave:
#ifndef M_ENDS_STANDING
  cancel(c);
#endif
  want = 0; last = 0;
  if
  :: TAKES(c) ->
     desk[c] = false;
     atomic { !desk[c] -> at_desk[c] = false };                  /* connection.rt run takes the desk out */
     talk_close(c)                                               /* connection.rt leave, conversation.rt lose */
  :: !TAKES(c)
  fi;
  if
  :: commits > 0 -> turn_owed(true)
  :: commits == 0
  fi;
  gone[c] = true
}

#ifdef HEADS
/* A head: head.rt next, hub.rt turn. */
proctype Head() {
  SCRATCH;
end:
  do
  :: head_queue ? t -> due[t] = false; hub_turned(t, false); t = 0
  od
}
#endif

#define MAY_SUBSCRIBE(c) (LATE && TAKER(SUBS - 1) == c && !open_[SUBS - 1] && !seated[SUBS - 1])
/* A client of who takes: it stops reading for a while, or says its frames. */
proctype Client(byte c) {
  byte stops = 1, said;
end:
  do
  :: atomic { reads[c] && stops < STOPS -> stops++; reads[c] = false }
  :: atomic { !reads[c] && !NEVER_READS(c) -> reads[c] = true }
#if FRAMES > 0
  :: atomic { said < FRAMES && frame[c] == Nothing && !gone[c] && (LATE < 2 || MAY_SUBSCRIBE(c)) ->
       said++;
       if
       :: MAY_SUBSCRIBE(c) && said == 1 -> frame[c] = Subscribe
       :: LATE < 2 -> frame[c] = Unsubscribe
       :: LATE < 2 -> frame[c] = End
       fi }
#endif
  od
}

#ifdef CLOSES
/* hub.rt close */
proctype Closer() {
  byte c;
  closing = true;
  do
  :: d_step { c < CONNS -> RING(c); c++ }
  :: c >= CONNS -> break
  od
}
#endif

/* Whether all clients of who takes at this topic read. */
#define READ(sub, t) (sub >= SUBS || TOPIC(sub) != (t) || reads[TAKER(sub)])
/* In each state in which nothing can run: who is first in a line lacks room, and in a second line, a place; room is kept
   by who stands in a line behind it; who took all has told it and is waited for. */
proctype Monitor() {
  byte i, t, rooms, places, first;
  (timeout);
  for (i : 0 .. CONNS - 1) { assert(!desk[i]) }
  for (i : 0 .. SUBS - 1) { assert(!telling[i]); told[i] = 0 }   /* who asks hears what was told */
  for (i : 0 .. SENDERS - 1) {
#ifdef CLOSES
    assert(gone[i] && stands[i] == 0);
#endif
    assert((stands[i] > 0) == (held[i] > 0));
    assert(held[i] > 0 || room[i] == 0 && kept[i] == 0);
    assert((room[i] & ~kept[i]) == 0)
  }
  for (t : 0 .. TOPICS - 1) {
    assert(!topic[t] && !seats[t] && !locked[t] && pending[t] == 0 && undecided[t] == 0);
    rooms = 0; places = 0;
    for (i : 0 .. SENDERS - 1) {
      if :: room[i] & BIT(t) -> rooms++ :: else fi;
      if :: kept[i] & BIT(t) -> places++ :: else fi
    }
    assert(reserved[t] == rooms && keepers[t] == places);
    assert((mark[t] == Nobody) == (len(line[t]) == 0));
    if :: len(line[t]) > 0 -> line[t] ? <first>; first = ASKS(first) :: else -> first = 1 fi;
    assert(len(line[t]) == 0 || !HAS_ROOM(t, first));
    assert(len(second[t]) == 0 || keepers[t] >= PLACES);
    /* Where all that is there was taken, only room that is kept may be waited for, and that is not more than half. */
    assert(len(line[t]) == 0 || !READ(0, t) || !READ(1, t) || MOST + first > CAPACITY)
  }
  for (i : 0 .. SUBS - 1) {
    if
    :: has[i] && !more[TAKER(i)] ->                              /* it found its queue empty */
       assert(queue[i] == 0 && untold[i] == 0);
#if WITHOUT > 0                                                  /* or it asks again, behind the next item */
       assert(passed_over[i] || waited[i] && !lagged[i])
#else
       assert(waited[i] && !lagged[i])
#endif
    :: else
    fi
  }
#ifndef NEVER
  for (i : 0 .. SENDERS - 1) { assert(held[i] == 0) }            /* nobody waits for who waits for it */
#endif
#ifdef HALVES
  for (i : 0 .. CONNS - 1) {                                     /* what is owed is given once the item is out */
    assert(!owing[i] || half[i]);
    assert(!half[i] || !reads[i])
  }
#endif
}

init {
  byte i;
  atomic {
    for (i : 0 .. SUBS - 1) {
      if
      :: LATE && i == SUBS - 1 -> skip
      :: else -> seated[i] = true; open_[i] = true; waited[i] = true; has[i] = true; queue[i] = FILLED;
         if :: FILLED > 0 -> RAISE(i) :: else fi
      fi
    }
    for (i : 0 .. CONNS - 1) {
      at_desk[i] = TAKES(i);
      if
      :: TAKES(i) && FILLED > 0 -> bell[i] = Told; woken[i] = !SENDS(i)
      :: !SENDS(i) && FILLED == 0 -> bell[i] = Asleep
      :: else
      fi;
      reads[i] = (STOPS == 0 && !NEVER_READS(i));
#ifndef HALVES
      if :: reads[i] -> skip :: else -> wire[i] = WIRE; blocked[i] = true fi;
#endif
      run Connection(i, ASKS(i));
#if STOPS > 0 || FRAMES > 0 || defined(NEVER)
      if :: TAKES(i) -> run Client(i) :: else fi
#endif
    }
#ifdef HEADS
    run Head();
#endif
#ifdef CLOSES
    run Closer();
#endif
#ifndef FAIR
    run Monitor();
#endif
    i = 0
  }
}

#ifdef FAIR
/* Where each thread goes on as long as it can: in the end all sleep. */
#define RESTS(c) (bell[c] == Asleep && !woken[c])
#ifdef ENDLESS
ltl delivers { <> served }
#else
ltl delivers { <> [] (RESTS(0) && RESTS(1) && RESTS(CONNS - 1)) }
#endif
#endif
