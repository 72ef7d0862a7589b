/* The log's queue: who logs never waits, each line is written or counted as lost, and `close` returns.

   Each step that another thread may see, or be seen by, is one step here, with its place in the code beside it. Sizes and
   mutants stand in runs.txt, what is left out in README.md. */

#ifndef LOGGERS
#define LOGGERS 2
#endif
#ifndef LINES                    /* of each */
#define LINES 2
#endif
#ifndef ROOM                     /* lines that the queue holds */
#define ROOM 1
#endif

mtype:parker = { Empty, Notified, Parked };

byte lines;                      /* in the queue */
byte lost, written, told_lost;
bool closing, ended, closed;
byte loggers_done;
mtype:parker parker = Empty;     /* the writer's */
bool asleep;

/* The kit's Parker: unpark. */
inline unpark() {
  d_step { was = parker; parker = Notified };
  if
  :: was == Parked -> asleep = false
  :: else
  fi;
  was = Empty
}

/* log_queue.rt write_out */
proctype Writer() {
  bool closes, notified;
  byte count;
  do
  :: true ->
     closes = closing;
     d_step { count = lost; lost = 0 };
     told_lost = told_lost + count; count = 0;
     if
     :: atomic { lines > 0 -> lines-- }; written++
     :: lines == 0 && closes -> break
     :: lines == 0 && !closes ->                                 /* the kit's Parker: park */
        d_step { if :: parker == Empty -> parker = Parked :: else fi };
        do
        :: true ->
           d_step { notified = (parker == Notified); if :: notified -> parker = Empty :: else fi };
           if
           :: notified -> break
           :: else ->
              atomic { if :: parker == Parked -> asleep = true :: else fi };
              (!asleep)
           fi
        od;
        notified = false
     fi
  od;
  ended = true
}
/* log_queue.rt put */
proctype Logger() {
  byte said;
  mtype:parker was = Empty;
  do
  :: said < LINES ->
     if
     :: atomic { lines < ROOM -> lines++ }
     :: lines >= ROOM -> lost++
     fi;
#ifndef M_PUT_WITHOUT_UNPARK
     unpark();
#endif
     said++
  :: else -> break
  od;
  loggers_done++
}
/* log_queue.rt close, here as long as it takes; the program calls it once nobody logs any more */
proctype Closer() {
  mtype:parker was = Empty;
  (loggers_done == LOGGERS);
#ifdef WHILE_OPEN
  (written + told_lost == LOGGERS * LINES);                      /* each line is dealt with before the end */
#endif
  closing = true;
#ifndef M_CLOSE_WITHOUT_UNPARK
  unpark();
#endif
  (ended);
  closed = true
}
/* Where nothing can run. */
proctype Monitor() {
  (timeout);
  assert(closed && lines == 0);
  assert(written + told_lost == LOGGERS * LINES)
}

init {
  byte i;
  atomic {
    run Writer();
    for (i : 1 .. LOGGERS) { run Logger() }
    run Closer();
    run Monitor();
    i = 0
  }
}
