/* A listener on 127.0.0.1. */
#ifndef LISTENING_H
#define LISTENING_H

/* Listens on 127.0.0.1 at a port that the system chooses, and writes `listening 127.0.0.1:PORT` to standard output.
 * Returns the listener; ends the program where that fails. */
int listen_here(void);

/* The next connection, which doesn't block and doesn't wait for more to write; -1 where there is none now. */
int accept_next(int listener);

#endif
