/* Where the name of a file leads. Each of these answers a name in memory of its own, or null. */
#ifndef REGISTRYD_LINKS_H
#define REGISTRYD_LINKS_H

/* A name that means the same wherever the process goes. */
char *absolute(const char *name);

/* The name of what a name stands for at last, where links lead from one to another; it means the same wherever the process goes. */
char *without_links(const char *name);

#endif
