/* Refuses a request for memory: link with -Wl,--wrap=malloc,--wrap=realloc,--wrap=calloc. */
#ifndef REFUSING_H
#define REFUSING_H

#include <stdbool.h>

/* Refuses the request at this place, from 0, of those that follow. */
void refuse_request(long place);
/* Whether that request was made. None is refused any more. */
bool was_refused(void);

#endif
