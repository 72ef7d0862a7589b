/* Bells, desks, stand-ins, seats and lags: what one thread has for another comes to it, and without a further push.

   Each step that another thread may see, or be seen by, is one step here, with its place in the code beside it: file and
   function (`models/run` checks that each is there). Which sizes and mutants are run stands in runs.txt, what is left out
   in README.md. */

#ifndef TOPICS
#define TOPICS 1
#endif
#ifndef SUBS                     /* subscriptions; sub s is at topic s % TOPICS, and of taker s % TAKERS */
#define SUBS 1
#endif
#ifndef TAKERS                   /* connections that take */
#define TAKERS 1
#endif
#ifndef SENDERS                  /* connections that send */
#define SENDERS 1
#endif
#ifndef COMMITS                  /* transactions of each sender */
#define COMMITS 2
#endif
#ifndef CAPACITY                 /* items that a queue holds */
#define CAPACITY 1
#endif
#ifndef WIRE                     /* items that may wait to be written */
#define WIRE 1
#endif
#ifndef SYSTEM                   /* items that the system's buffer of a socket holds */
#define SYSTEM 1
#endif
#ifndef FULL                     /* of these, taken at the beginning */
#define FULL 0
#endif
#ifndef FRAMES                   /* frames of each taker's client, at any time: UNSUBSCRIBE or its end */
#define FRAMES 0
#endif
#ifndef LATE                     /* 1: the last subscription isn't there at the beginning, and SUBSCRIBE may be a frame */
#define LATE 0
#endif
#ifndef IDLES                    /* times that a taker wakes since it is idle, by time alone */
#define IDLES 0
#endif
#ifndef STRANGERS                /* stand-ins at desk 0 by a seat of the connection that had that number before */
#define STRANGERS 0
#endif
#ifndef FLAGS                    /* bits of a connection's word: fewer than subscriptions where some of one connection share one */
#define FLAGS SUBS
#endif
#define TOPIC(s) ((s) % TOPICS)
#define TAKER(s) ((s) % TAKERS)
#define FLAG(s) (1 << ((s) % FLAGS))

mtype:bell = { Awake, Told, Asleep };
mtype:exit = { Talks, Lagged, Lost };
mtype:frame = { Nothing, Subscribe, Unsubscribe, End };

/* A taker: its bell, its desk, its socket. */
mtype:bell bell[TAKERS] = Awake;
byte flags[TAKERS];              /* the bell's: which subscriptions may have something */
byte known[TAKERS];               /* the conversation's: which queues are looked into */
bool stuck[TAKERS];
bool woken[TAKERS];              /* the bell's event, in the poll */
bool desk[TAKERS];               /* the desk's lock */
bool at_desk[TAKERS];            /* Some(desk) behind it */
byte works[TAKERS];              /* who works at the desk: for an assertion alone */
mtype:exit exit[TAKERS] = Talks;
bool more[TAKERS];               /* has_more */
byte wire[TAKERS];               /* items that wait to be written */
bool blocked[TAKERS];
bool readable[TAKERS];
byte system[TAKERS];             /* items in the system's buffer */
bool short_[TAKERS];             /* a write found too little room: the system tells when there is some */
bool writable_event[TAKERS];
bool readable_event[TAKERS];
mtype:frame frame[TAKERS] = Nothing;
bool gone[TAKERS];               /* its thread has ended */

/* A topic: its lock, what was committed there and isn't turned; its seats' lock; whether it is due. */
bool topic[TOPICS];
byte pending[TOPICS];
byte released[TOPICS];
bool seats[TOPICS];
bool due[TOPICS];
chan head_queue = [TOPICS] of { byte };

/* A subscription: at its topic, in its queue, with its connection. */
bool seated[SUBS];
bool open_[SUBS];                /* begun at its topic, and not ended there */
bool lagged[SUBS];               /* at its topic */
byte start_[SUBS];
byte pushed[SUBS];
byte taken[SUBS];
bool held[SUBS];                 /* the connection has it */
bool over[SUBS];
bool knows_lag[SUBS];            /* OpenSub.lagged */
byte until_lag[SUBS];

byte senders_done;

#define LOCK(lock) atomic { !lock -> lock = true }
#define UNLOCK(lock) lock = false
/* A desk's lock, and that two never work there. */
#define LOCK_DESK(c, who) atomic { !desk[c] -> desk[c] = true; assert(works[c] == 0); works[c] = who }
#define UNLOCK_DESK(c) atomic { works[c] = 0; desk[c] = false }
#define OWNER 1
#define OTHER 2

/* What the inlines below use; each leaves its own as it found it: zero. */
#define SCRATCH mtype:bell was = Awake; byte s, e, t; bool stop, failed, item, some, lag, due_before, asleep, done; byte sent

/* bell.rt ring: a load, a swap, and the system's call where the thread sleeps */
inline bell_ring(c) {
  if
#ifndef M_NO_FAST_LOOK
  :: bell[c] == Told -> skip
#endif
  :: else ->
     d_step { was = bell[c]; bell[c] = Told };
     if
#ifndef M_NO_WAKE
     :: was == Asleep -> woken[c] = true
#endif
     :: else -> skip
     fi;
     was = Awake
  fi
}
/* bell.rt hears: a load, and a swap where that wasn't awake */
inline bell_hears(c, told) {
#ifdef M_HEARS_STORES
  told = (bell[c] == Told); bell[c] = Awake;
#else
  if
  :: bell[c] == Awake -> told = false
  :: else -> d_step { told = (bell[c] == Told); bell[c] = Awake }
  fi
#endif
}
/* bell.rt sleeps: a compare and exchange */
inline bell_sleeps(c, may) {
#ifdef M_SLEEPS_STORES
  d_step { may = true; bell[c] = Asleep }
#else
  d_step { may = (bell[c] == Awake); if :: may -> bell[c] = Asleep :: else fi }
#endif
}
/* bell.rt set_stuck: its own thread, or who has its desk */
inline bell_set_stuck(c, is) {
  if
  :: stuck[c] != is -> stuck[c] = is
  :: else
  fi
}
/* bell.rt raise, by seat.rt raise: a load, and an or where the flag isn't set */
inline seat_raise(sub) {
  if
  :: flags[TAKER(sub)] & FLAG(sub) -> skip
  :: else -> flags[TAKER(sub)] = flags[TAKER(sub)] | FLAG(sub)
  fi
}
/* bell.rt take_flags: a load, and a swap where one is set */
inline bell_take_flags(c) {
  if
  :: flags[c] == 0 -> skip
  :: else -> d_step { known[c] = known[c] | flags[c]; flags[c] = 0 }
  fi
}
/* seat.rt ring: the flag, and two loads, of bell.rt is_stuck and in the ring */
inline seat_ring(sub) {
#if !defined(M_FLAG_BEHIND_RING) && !defined(M_FLAG_NOT_OF_STUCK) && !defined(M_FLAG_BEFORE_TURN)
  seat_raise(sub);
#endif
  if
  :: stuck[TAKER(sub)] -> skip
  :: else ->
#ifdef M_FLAG_NOT_OF_STUCK
     seat_raise(sub);
#endif
     bell_ring(TAKER(sub))
  fi
#ifdef M_FLAG_BEHIND_RING
  ; seat_raise(sub)
#endif
}
/* seat.rt is_asleep */
inline seat_is_asleep(sub, is) {
  is = (bell[TAKER(sub)] == Asleep);
  if
  :: is -> is = !stuck[TAKER(sub)]
  :: else
  fi
}

/* topic_seats.rt ring */
inline seats_ring(at) {
  LOCK(seats[at]);
  for (s : 0 .. SUBS - 1) {
    if
    :: TOPIC(s) == at && seated[s] -> seat_ring(s)
    :: else
    fi
  }
  s = 0; UNLOCK(seats[at])
}
/* running.rt turn: behind the topic's lock it releases what is decided, and gives it to each open subscription, as
   subscription.rt give does */
inline topic_turn(at, some) {
  LOCK(topic[at]);
  some = false;
  do
  :: pending[at] > 0 ->
     pending[at]--; some = true;
     for (s : 0 .. SUBS - 1) {
       if
       :: TOPIC(s) == at && open_[s] && !lagged[s] ->
          if                                                     /* the queue is shared with its taker: source.rt push */
          :: pushed[s] - taken[s] >= CAPACITY -> lagged[s] = true
          :: else -> pushed[s]++
          fi
       :: else
       fi
     }
     s = 0; released[at]++
  :: else -> break
  od;
  UNLOCK(topic[at])
}
#ifdef M_FLAG_BEFORE_TURN
#define RAISES_FIRST(at) LOCK(seats[at]); \
  d_step { for (s : 0 .. SUBS - 1) { if :: TOPIC(s) == at && seated[s] -> flags[TAKER(s)] = flags[TAKER(s)] | FLAG(s) :: else fi } s = 0 }; \
  UNLOCK(seats[at])
#else
#define RAISES_FIRST(at) skip
#endif
/* hub.rt turn_now: who has a seat is told after the turn */
inline turn_now(at) {
  RAISES_FIRST(at);
#ifdef M_RINGS_BEFORE_TURN
  seats_ring(at); topic_turn(at, some); some = false
#else
  topic_turn(at, some);
  if
  :: some -> seats_ring(at)
  :: else
  fi;
  some = false
#endif
}

/* calls.rt end_at, of one: the flag, then the seat, topic_seats.rt remove_all, then the broker */
inline sub_end(sub) {
  if
  :: over[sub] -> skip
  :: else ->
     over[sub] = true;
#ifdef M_ENDS_BEFORE_SEAT
     LOCK(topic[TOPIC(sub)]); open_[sub] = false; UNLOCK(topic[TOPIC(sub)]);
     LOCK(seats[TOPIC(sub)]); seated[sub] = false; UNLOCK(seats[TOPIC(sub)])
#else
     LOCK(seats[TOPIC(sub)]); seated[sub] = false; UNLOCK(seats[TOPIC(sub)]);
     LOCK(topic[TOPIC(sub)]); open_[sub] = false; UNLOCK(topic[TOPIC(sub)])
#endif
  fi
}
/* calls.rt subscribe: the seat, then the subscription, which begins at the frontier */
inline sub_begin(sub) {
#ifdef M_SEAT_AFTER
  LOCK(topic[TOPIC(sub)]); d_step { open_[sub] = true; start_[sub] = released[TOPIC(sub)] }; UNLOCK(topic[TOPIC(sub)]);
  LOCK(seats[TOPIC(sub)]); seated[sub] = true; UNLOCK(seats[TOPIC(sub)]);
#else
  LOCK(seats[TOPIC(sub)]); seated[sub] = true; UNLOCK(seats[TOPIC(sub)]);
  LOCK(topic[TOPIC(sub)]); d_step { open_[sub] = true; start_[sub] = released[TOPIC(sub)] }; UNLOCK(topic[TOPIC(sub)]);
#endif
  d_step { held[sub] = true; until_lag[sub] = CAPACITY }
}
/* calls.rt has_lagged: it has ended already, or its topic says so */
inline sub_has_lagged(sub, is) {
  if
  :: over[sub] -> is = true
  :: else -> LOCK(topic[TOPIC(sub)]); is = (open_[sub] && lagged[sub]); UNLOCK(topic[TOPIC(sub)])
  fi
}

#define EACH_OF(c, at, does) for (s : 0 .. SUBS - 1) { if :: TOPIC(s) == at && TAKER(s) == c && held[s] -> does :: else fi } s = 0
/* conversation.rt close, calls.rt end_all: all that is open ends, that of one topic at once, calls.rt end_at: the seats,
   topic_seats.rt remove_all, then the subscriptions, broker.rt unsubscribe_all */
inline talk_close(c, why) {
  d_step { exit[c] = why; more[c] = false };
  for (e : 0 .. TOPICS - 1) {
    d_step { EACH_OF(c, e, some = some || !over[s]; over[s] = true) };
    if
    :: some ->
       some = false;
#ifdef M_ENDS_BEFORE_SEAT
       LOCK(topic[e]); d_step { EACH_OF(c, e, open_[s] = false) }; UNLOCK(topic[e]);
       LOCK(seats[e]); d_step { EACH_OF(c, e, seated[s] = false) }; UNLOCK(seats[e]);
#else
       LOCK(seats[e]); d_step { EACH_OF(c, e, seated[s] = false) }; UNLOCK(seats[e]);
       LOCK(topic[e]); d_step { EACH_OF(c, e, open_[s] = false) }; UNLOCK(topic[e]);
#endif
    :: else
    fi;
    d_step { EACH_OF(c, e, held[s] = false) }
  }
  e = 0
}
#ifdef M_LOOKS_AT_ALL
#define LOOKS_AT(c, s) (held[s] && TAKER(s) == c)
#else
#define LOOKS_AT(c, s) (held[s] && TAKER(s) == c && (known[c] & FLAG(s)))
#endif
/* taking.rt drain_flagged, of each queue in turn: takes until none is there, asks for a lag where it took as many as
   the queue holds, and stops where the wire is full; one whose flag isn't set is passed by */
inline talk_drain(c, any) {
  do
  :: s < SUBS && !LOOKS_AT(c, s) -> s++
  :: s < SUBS && LOOKS_AT(c, s) && wire[c] >= WIRE -> stop = true; break
  :: s < SUBS && LOOKS_AT(c, s) && wire[c] < WIRE ->
     d_step { item = (pushed[s] > taken[s]); if :: item -> taken[s]++ :: else fi };
     if
     :: item -> d_step { any = true; wire[c]++; if :: until_lag[s] > 0 -> until_lag[s]-- :: else fi }
     :: !item && knows_lag[s] -> failed = true; break
     :: !item && !knows_lag[s] ->
#ifndef M_LAG_NOT_ASKED
        if
        :: until_lag[s] == 0 -> sub_has_lagged(s, lag)
        :: else
        fi;
#endif
        if
        :: lag -> knows_lag[s] = true
        :: else -> until_lag[s] = CAPACITY; s++
        fi;
        lag = false
     fi
  :: s >= SUBS -> break
  od;
  s = 0; item = false
}
/* conversation.rt deliver; a lag ends the connection behind all that was accepted: its ERROR is the last item */
inline talk_deliver(c, any) {
  any = false;
  if
  :: exit[c] != Talks -> skip
  :: else ->
#ifdef M_FLAGS_TAKEN_BEHIND
     known[c] = known[c] | flags[c];
     talk_drain(c, any);
     flags[c] = 0;
#else
     bell_take_flags(c);
     talk_drain(c, any);
#endif
     more[c] = stop;
     if                                                          /* drained.rt flags_left */
#ifndef M_FLAGS_FORGOTTEN
     :: stop -> skip
#endif
     :: else -> known[c] = 0
     fi;
     if
     :: failed -> talk_close(c, Lagged); wire[c]++; any = true
     :: else
     fi;
     stop = false; failed = false
  fi
}
/* desk.rt deliver: it isn't stuck from before it looks */
inline desk_deliver(c, any) {
#ifdef M_STUCK_OFF_AFTER
  talk_deliver(c, any); bell_set_stuck(c, false)
#else
#ifndef M_STUCK_NEVER_OFF
  bell_set_stuck(c, false);
#endif
  talk_deliver(c, any)
#endif
}
/* socket.rt write: as far as the system takes it */
inline desk_write(c) {
  d_step {
    sent = 0;
    if
    :: blocked[c] || wire[c] == 0 -> skip
    :: else ->
       if
       :: wire[c] <= SYSTEM - system[c] -> sent = wire[c]
       :: else -> sent = SYSTEM - system[c]; short_[c] = true
       fi;
       wire[c] = wire[c] - sent; system[c] = system[c] + sent;
       blocked[c] = (wire[c] > 0)
    fi
  }
}
/* desk.rt note_stuck */
#ifdef M_STUCK_WITHOUT_MORE
#define HAS_MORE(c) true
#else
#define HAS_MORE(c) more[c]
#endif
inline desk_note_stuck(c) {
  if
  :: HAS_MORE(c) && blocked[c] -> bell_set_stuck(c, true)
  :: else
  fi
}
/* What desk.rt stand_in asks last. */
#if defined(M_ALWAYS_DONE)
#define NOTHING_LEFT(c) true
#elif defined(M_DONE_THOUGH_MORE)
#define NOTHING_LEFT(c) (wire[c] == 0 && exit[c] == Talks)
#elif defined(M_DONE_THOUGH_LEAVING)
#define NOTHING_LEFT(c) (wire[c] == 0 && !more[c])
#else
#define NOTHING_LEFT(c) (wire[c] == 0 && !more[c] && exit[c] == Talks)
#endif
/* desk.rt stand_in, with the desk's lock */
inline desk_stand_in(c, is_done) {
#ifndef M_TAKES_NOTHING
  desk_deliver(c, item); item = false;
#endif
  desk_write(c); sent = 0;
  is_done = NOTHING_LEFT(c)
}
/* desks.rt stand_in, by a seat of this connection */
inline desks_stand_in(c, is_done) {
  is_done = false;
  if
  :: atomic { !desk[c] -> desk[c] = true; assert(works[c] == 0); works[c] = OTHER };
     if
     :: at_desk[c] -> desk_stand_in(c, is_done)
     :: else
     fi;
     UNLOCK_DESK(c)
  :: desk[c] ->                                                  /* try_lock: somebody works there */
#ifdef M_TAKEN_IS_DONE
     is_done = true
#else
     skip
#endif
  fi
}

/* A connection that sends, from its commits on. */
proctype Sender() {
  SCRATCH;
  byte made, commits;
  bool unturned[TOPICS], sleeps[SUBS];
  do
  :: made < COMMITS ->
     /* calls.rt commit: to one of the topics, or to both; the verdict is set with it here, and apart in turns.pml */
     if
     :: unturned[0] = true; pending[0]++
#if TOPICS > 1
     :: unturned[1] = true; pending[1]++
     :: d_step { unturned[0] = true; unturned[1] = true; pending[0]++; pending[1]++ }
#endif
     fi;
     d_step { commits++; made++ };
     if
     :: made < COMMITS -> skip                                   /* it hears more before it turns: connection.rt hear */
     :: true ->
        /* connection.rt stands_in: it heard little, and hub.rt few_sleep, topic_seats.rt few_asleep */
        if
        :: true -> done = false
        :: true ->
           done = true;
           for (t : 0 .. TOPICS - 1) {
             if
             :: unturned[t] ->
                LOCK(seats[t]);
                for (s : 0 .. SUBS - 1) {
                  if
                  :: TOPIC(s) == t && seated[s] ->
                     seat_is_asleep(s, asleep); done = done && asleep; asleep = false
                  :: else
                  fi
                }
                s = 0; UNLOCK(seats[t])
             :: else
             fi
           }
           t = 0
        fi;
        if
        :: done ->
           done = false;
           for (t : 0 .. TOPICS - 1) {                           /* hub.rt turn_for, topic_seats.rt ring_awake */
             if
             :: unturned[t] ->
                topic_turn(t, some);
                if
                :: some ->
                   LOCK(seats[t]);
                   for (s : 0 .. SUBS - 1) {
                     if
                     :: TOPIC(s) == t && seated[s] ->
#ifndef M_FLAG_NOT_OF_SLEEPERS
                        seat_raise(s);
#endif
                        seat_is_asleep(s, asleep);
                        if
                        :: asleep -> sleeps[s] = true
                        :: else -> seat_ring(s)
                        fi;
                        asleep = false
                     :: else
                     fi
                   }
                   s = 0; UNLOCK(seats[t])
                :: else
                fi;
                some = false
             :: else
             fi
           }
           t = 0;
           for (t : 0 .. SUBS - 1) {                             /* the list of seats: t is a subscription here */
             if
             :: sleeps[t] ->
                sleeps[t] = false;
                desks_stand_in(TAKER(t), done);
                if
#ifndef M_NO_RING_AFTER
                :: !done -> seat_ring(t)
#endif
                :: else -> skip
                fi;
                done = false
             :: else
             fi
           }
           t = 0
        :: else ->
           for (t : 0 .. TOPICS - 1) {                           /* calls.rt turn_topics */
             if
             :: unturned[t] && commits <= 1 -> turn_now(t)       /* hub.rt turn_those */
             :: unturned[t] && commits > 1 ->                    /* hub.rt set_due, topic_seats.rt set_due, head.rt tell */
                d_step { due_before = due[t]; due[t] = true };
                if
                :: due_before -> due_before = false
                :: else -> head_queue ! t
                fi
             :: else
             fi
           }
           t = 0
        fi;
        d_step { commits = 0; for (t : 0 .. TOPICS - 1) { unturned[t] = false } t = 0 }
     fi
  :: else -> break
  od;
  assert(commits == 0);
  senders_done++
}

/* A head: head.rt next, hub.rt turn. */
proctype Head() {
  SCRATCH;
end:
  do
  :: head_queue ? t ->
     due[t] = false;                                             /* topic_seats.rt clear_due */
     turn_now(t);
     t = 0
  od
}

#if STRANGERS > 0
/* A sender that has listed a seat of the connection whose desk had the number 0 before: it comes with that seat to the
   desk of taker 0 (desks.rt stand_in), and what it rings then is that connection's bell, which is nobody's. */
proctype Stranger() {
  SCRATCH;
  byte times;
end:
  do
  :: atomic { times < STRANGERS && !desk[0] -> desk[0] = true; assert(works[0] == 0); works[0] = OTHER; times++ };
#ifdef M_STRANGER_STANDS_IN
     if
     :: at_desk[0] -> desk_stand_in(0, done)
     :: else
     fi;
     done = false;
#else
     skip;                                                       /* calls.rt is_of: another connection's desk */
#endif
     UNLOCK_DESK(0)
  od
}
#endif

/* A connection that takes: its thread. */
proctype Owner(byte c) {
  SCRATCH;
  bool told, busy, may, timed;
  byte idles;
  LOCK_DESK(c, OWNER); at_desk[c] = true; UNLOCK_DESK(c);        /* connection.rt run */
work:                                                            /* connection.rt work */
  LOCK_DESK(c, OWNER);
  blocked[c] = false;                                            /* socket.rt note_waited: a write is tried */
round:                                                           /* connection.rt round */
  bell_hears(c, told);
  busy = false;
  if
#ifdef M_MORE_IGNORED
  :: told -> desk_deliver(c, busy)
#else
  :: told || more[c] -> desk_deliver(c, busy)
#endif
  :: else
  fi;
  told = false;
  desk_write(c); busy = busy || (sent > 0); sent = 0;
  desk_note_stuck(c);
  if
  :: exit[c] != Talks -> goto leave
  :: else
  fi;
  if                                                             /* connection.rt hear */
  :: readable[c] ->
     readable[c] = false;
     if
     :: frame[c] == Nothing -> skip
     :: frame[c] == Subscribe -> frame[c] = Nothing; busy = true; sub_begin(SUBS - 1)
     :: frame[c] == Unsubscribe ->                               /* of its first subscription: calls.rt unsubscribe */
        frame[c] = Nothing; busy = true;
        do
        :: s < SUBS && held[s] && TAKER(s) == c -> held[s] = false; sub_end(s); break
        :: s < SUBS && !(held[s] && TAKER(s) == c) -> s++
        :: s >= SUBS -> break
        od;
        s = 0
     :: frame[c] == End -> talk_close(c, Lost); goto leave       /* conversation.rt lose */
     fi
  :: else
  fi;
  if
  :: busy ->
     if                                                          /* connection.rt look: each 16th round, or it is blocked */
     :: d_step { woken[c] = false;
          if :: writable_event[c] -> writable_event[c] = false; blocked[c] = false :: else fi;
          if :: readable_event[c] -> readable_event[c] = false; readable[c] = true :: else fi }
     :: !blocked[c] -> skip
     fi;
     goto round
  :: else
  fi;
  bell_sleeps(c, may);
  if
  :: !may -> goto round
  :: else -> may = false
  fi;
  if                                                             /* connection.rt sleep_of */
  :: !blocked[c] -> skip
  :: !blocked[c] && idles < IDLES -> idles++; timed = true       /* connection.rt calm_sleep: outfit.rt is_wide */
  :: else ->
     timed = true;
     if                                                          /* desk.rt is_lost: at each tenth wait it ends what has lagged */
     :: true -> skip
     :: true ->
        for (e : 0 .. SUBS - 1) {                                /* calls.rt end_lagged */
          if
          :: held[e] && TAKER(e) == c ->
             sub_has_lagged(e, lag);
             if
             :: lag && !over[e] ->
                sub_end(e);
#ifndef M_LAG_UNFLAGGED
                seat_raise(e);
#endif
#ifndef M_LAG_UNTOLD
                bell_ring(c)
#endif
             :: else
             fi;
             lag = false
          :: else
          fi
        }
        e = 0
     fi
  fi;
  UNLOCK_DESK(c);
end:
  atomic { woken[c] || writable_event[c] || readable_event[c] || timed ->  /* connection.rt wait */
    woken[c] = false; writable_event[c] = false; timed = false;
    if :: readable_event[c] -> readable_event[c] = false; readable[c] = true :: else fi };
  goto work;
leave:
  UNLOCK_DESK(c);
  LOCK_DESK(c, OWNER); at_desk[c] = false; UNLOCK_DESK(c);       /* connection.rt run takes the desk out */
  do                                                             /* connection.rt tell_last: by a poll with a time */
  :: wire[c] == 0 -> break
  :: else -> blocked[c] = false; desk_write(c); sent = 0
  od;
  gone[c] = true
}

/* A client: takes an item from the system's buffer, which tells of room once a write found too little; says its frames. */
proctype Client(byte c) {
  byte said;
end:
  do
  :: atomic { system[c] > 0 -> system[c]--; if :: short_[c] -> short_[c] = false; writable_event[c] = true :: else fi }
#if FRAMES > 0
  :: atomic { said < FRAMES && frame[c] == Nothing && !gone[c] ->
       said++;
       if
       :: LATE && !open_[SUBS - 1] && !over[SUBS - 1] && TAKER(SUBS - 1) == c -> frame[c] = Subscribe
       :: frame[c] = Unsubscribe
       :: frame[c] = End
       fi;
       readable_event[c] = true }
#endif
  od
}

/* In each state in which nothing can run: nothing is left undone. */
proctype Monitor() {
  byte i;
  (timeout);
  assert(senders_done == SENDERS);
  for (i : 0 .. TOPICS - 1) { assert(pending[i] == 0) }
  for (i : 0 .. TAKERS - 1) {
    assert(system[i] == 0 && wire[i] == 0);                      /* all was written, and read */
    assert(!desk[i]);
    if
    :: exit[i] != Talks -> assert(gone[i])                       /* who has a reason to leave has left */
    :: else -> assert(!more[i] && !stuck[i])
    fi
  }
  for (i : 0 .. SUBS - 1) {
    if
    :: held[i] ->
       assert(pushed[i] == taken[i]);                            /* nothing untaken */
       assert(!lagged[i] && !over[i]);                           /* no lag untold */
       assert(pushed[i] == released[TOPIC(i)] - start_[i])       /* all that is due */
    :: else
    fi
  }
}

init {
  byte i;
  atomic {
    for (i : 0 .. SUBS - 1) {
      if
      :: LATE && i == SUBS - 1 -> skip
      :: else -> seated[i] = true; open_[i] = true; held[i] = true; until_lag[i] = CAPACITY
      fi
    }
    for (i : 0 .. TAKERS - 1) { readable[i] = true; system[i] = FULL; run Owner(i); run Client(i) }
    for (i : 1 .. SENDERS) { run Sender() }
    run Head();
#if STRANGERS > 0
    run Stranger();
#endif
#ifndef FAIR
    run Monitor();
#endif
    i = 0
  }
}

#ifdef FAIR
/* Where each thread goes on as long as it can: in the end the first subscription has all that is due, and it is written,
   or the connection has it no longer. */
ltl delivers { <> [] (senders_done == SENDERS && (!held[0] || (wire[0] == 0 && pushed[0] == taken[0] && pushed[0] == released[0]))) }
#endif
