/* How long the library waits for a service in these tests: long while a caller connects, and then as long as the caller says. It is
 * compiled into the library in the place of its constant. */
#ifndef C_CLIENT_PATIENCE_H
#define C_CLIENT_PATIENCE_H

extern int waited;
#define REGISTRYD_PATIENCE waited

#endif
