/* Forks, by which a child knows that it has none of its parent's handles. */
#include "within.h"

unsigned hindlib_forks;

static pthread_once_t is_told = PTHREAD_ONCE_INIT;

static void count(void) { hindlib_forks++; }
static void tell(void) { (void)pthread_atfork(NULL, NULL, count); }

void hindlib_count_forks(void) { pthread_once(&is_told, tell); }
