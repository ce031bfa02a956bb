/* A size that the module did not set. */
#define UNSET 0xffffffffffffffffull

/* The memory in which a call allocates: that of its host, or the process's. */
#ifdef NCP_IN
#define HEAP_OF(host) ((host)->at != NULL ? note_of(ADDRESS((host)->at)).heap : NULL),
#define NO_HEAP NULL,
#else
#define HEAP_OF(host)
#define NO_HEAP
#endif
