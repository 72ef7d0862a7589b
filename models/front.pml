/* In front of turnstiles, beside turns and lines: who subscribes at a topic may have committed at another, be the first of
   its line, and have a subscription there. Whoever waits in front holds up others by what it doesn't take meanwhile, and by
   nothing else; and nobody waits in a ring.

   Each step that another thread may see, or be seen by, is one step here, with its place in the code beside it. Sizes and
   mutants stand in runs.txt, what is left out in README.md. turnstile.pml takes a turnstile apart, and room.pml a line: here
   who waits in front comes in once nobody is within, and who waits for room goes on once it is the first, and there is some. */

#ifndef COMERS                   /* connections: two or three */
#define COMERS 2
#endif
#ifndef FRAMES                   /* of the first: SUBSCRIBE at a topic, or SEND to one of them or to both */
#define FRAMES 3
#endif
#ifndef OTHERS                   /* of each of the others */
#define OTHERS 2
#endif
/* SHUT: somebody is within the turnstile of the first topic for ever. */
#define TOPICS 2
#define NONE TOPICS
#define BIT(n) (1 << (n))
/* The first of these topics. */
#define FIRST_OF(bits) (((bits) & 1) -> 0 : (((bits) & 2) -> 1 : NONE))
#define MAY_HEAR (frames < (me == 0 -> FRAMES : OTHERS))

/* A topic: whether somebody is within its turnstile; whose part has its room, 1 and the number, from the reservation to the
   turn; who stands in its line; who has a subscription, and in its queue an item, each a bit. There is room for one part,
   and in a queue for one item. */
bool taken[TOPICS];
byte part[TOPICS];
chan line[TOPICS] = [COMERS] of { byte };
byte subs[TOPICS];
byte items[TOPICS];

/* The line in which a connection stands: 1 and the topic. */
byte stands[COMERS];

/* line.rt lets_by and is_first, room.rt reserve: it finds room where nobody stands, or as the first, or where it owes turns
   and overtakes them. */
#define FINDS(t) (part[t] == 0 && items[t] == 0 && (len(line[t]) == 0 || owes > 0 || line[t] ? [eval(me)]))
#define HAS_ITEM ((items[0] | items[1]) & BIT(me))

/* waiting.rt leaves: the next one is the first */
inline leave_line() {
  if
  :: d_step { stands[me] > 0 -> line[stands[me] - 1] ?? eval(me); stands[me] = 0 }
  :: stands[me] == 0
  fi
}

/* calls.rt turn_topics, connection.rt turn_owed: what is due goes to those who have a subscription there */
inline turn_owed() {
  do
  :: atomic { owes > 0 ->
       t = FIRST_OF(owes); assert(part[t] == 1 + me && items[t] == 0);
       part[t] = 0; items[t] = subs[t]; owes = owes - BIT(t); t = 0;
       if :: owes == 0 -> break :: else fi }
  :: owes == 0 -> break
  od
}

/* turnstile.rt leave */
inline leave() {
  if
  :: d_step { stay != NONE -> taken[stay] = false; stay = NONE }
  :: stay == NONE
  fi
}

/* calls.rt enter_turnstile; stay.rt begins: it may be that it has begun as many as it may in one stay */
inline enter_turnstile() {
  if
  :: stay == topic
  :: true ->
#ifndef M_OWES_IN_FRONT
     turn_owed();
#endif
#ifndef M_FIRST_IN_FRONT
     if                                                          /* calls.rt rest */
     :: want == 0 -> leave_line()
     :: want > 0
     fi;
#endif
#ifdef M_KEEPS_THE_FIRST
     if
     :: stay == topic -> leave()
     :: stay != topic
     fi;
#else
     leave();
#endif
endfront:
     d_step { !taken[topic] -> taken[topic] = true };            /* turnstile.rt enter */
#ifdef M_KEEPS_THE_FIRST
     leave();
#endif
     stay = topic
  fi
}

/* A connection's thread: each round hears a frame, takes an item, or finds room, so none goes on for ever. */
proctype Comer(byte me) {
  byte frames, topic, t, want, room, owes, stay = NONE;
round:                                                           /* connection.rt round */
  do                                                             /* desk.rt deliver */
  :: d_step { items[0] & BIT(me) -> items[0] = items[0] - BIT(me) }
  :: d_step { items[1] & BIT(me) -> items[1] = items[1] - BIT(me) }
  :: HAS_ITEM == 0 -> break
  od;
#ifdef M_SLEEPS_WITHIN
  if
  :: want == 0 -> leave()
  :: want > 0
  fi;
#else
  leave();                                                       /* calls.rt end_stay */
#endif
  if
  :: want == 0 && MAY_HEAR -> goto hear
  :: want > 0 -> goto endwaits
  :: want == 0 && !MAY_HEAR
  fi;
endrests:
  HAS_ITEM > 0; goto round;                                      /* connection.rt wait */
endwaits:
  if
  :: HAS_ITEM > 0 -> goto round
  :: FINDS(stands[me] - 1) -> goto ask                           /* connection.rt go_on */
  fi;
hear:                                                            /* conversation.rt hear_all: the next frame */
  atomic {
    frames++;
    if
    :: topic = 0
    :: topic = 1
    :: want == 0 -> want = 1; goto comes
    :: want == 0 -> want = 2; goto comes
    :: want == 0 -> want = 3; goto comes
    fi };
  enter_turnstile();
  d_step { subs[topic] = subs[topic] | BIT(me); topic = 0 };     /* calls.rt subscribe */
heard:
  if
  :: MAY_HEAR -> goto hear
  :: owes > 0 -> turn_owed(); goto heard                         /* calls.rt count_commit */
  :: true                                                        /* that was all of a piece */
  fi;
#ifdef M_HEARS_ON
  if
  :: want > 0 -> goto round
  :: want == 0
  fi;
#endif
  leave_line();                                                  /* connection.rt go_on */
  turn_owed();                                                   /* connection.rt hear */
  goto round;
comes:                                                           /* waiting.rt comes */
  if
  :: stands[me] > 0 && stands[me] != 1 + FIRST_OF(want) -> leave_line()
  :: stands[me] == 0 || stands[me] == 1 + FIRST_OF(want)
  fi;
ask:                                                             /* calls.rt reserve, waiting.rt tries */
  atomic {
    t = FIRST_OF(want & ~room);
    if
    :: t == NONE ->                                              /* calls.rt commit */
       owes = owes | want; want = 0; room = 0; t = 0; goto heard
    :: t < NONE && FINDS(t) ->
       part[t] = 1 + me; room = room | BIT(t);
       if
       :: stands[me] == 1 + t -> t = 0                           /* waiting.rt finds: it leaves, or not */
       :: t = 0; goto ask
       fi
    :: t < NONE && !FINDS(t) && owes > 0 -> t = 0; goto owed
    :: t < NONE && !FINDS(t) && owes == 0 && stands[me] == 0 ->
       line[t] ! me; stands[me] = 1 + t; t = 0; goto ask         /* waiting.rt joins */
    :: t < NONE && !FINDS(t) && owes == 0 && stands[me] > 0 && stands[me] != 1 + t -> t = 0
    :: t < NONE && !FINDS(t) && owes == 0 && stands[me] == 1 + t -> t = 0;
#ifdef M_HEARS_ON
       goto heard
#else
       goto round
#endif
    fi };
  leave_line(); goto ask;
owed:
  turn_owed(); goto ask                                          /* connection.rt try_once */
}

/* Whether who waits for room at this topic does so for an item that isn't taken there, or for who keeps room, and waits. */
#define IS_HELD_UP(t) (items[t] > 0 || part[t] > 0 && Comer[part[t]]@endwaits)

/* Where nothing can run: all have come through, and nobody is within; or they are in front of the turnstile that is shut, or
   are held up so. */
proctype Monitor() {
  byte i;
  (timeout);
#ifdef SHUT
  assert(!taken[1]);
  for (i : 0 .. COMERS - 1) { assert(Comer[1 + i]@endfront || Comer[1 + i]@endrests || IS_HELD_UP(stands[i] - 1)) }
#else
  for (i : 0 .. COMERS - 1) { assert(Comer[1 + i]@endrests) }
  for (i : 0 .. TOPICS - 1) { assert(!taken[i] && part[i] == 0 && items[i] == 0 && len(line[i]) == 0) }
#endif
}

init {
  byte i;
  atomic {
#ifdef SHUT
    taken[0] = true;
#endif
    for (i : 0 .. COMERS - 1) { run Comer(i) }
    run Monitor();
    i = 0
  }
}
