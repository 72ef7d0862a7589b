/* What makes the floor a plain one: each SEND is given on as it came. bench/serve's wrong servers have wrong.c in its
 * place. */
#include "floor.h"

void broker_send(struct talk *talk, const struct frame *send)
{
    floor_send(talk, send);
}

int broker_patience(void)
{
    return -1;
}

void broker_rest(void)
{
}

int broker_words(char **words)
{
    (void)words;
    return 0;
}
