/* The directory that is played in becomes the root of the process. */
#ifndef CONFINE_H
#define CONFINE_H

#include <stdbool.h>

/* Changes the root to an open directory, in a user namespace of its own where that is needed
 * (chroot(2), user_namespaces(7)). False where the system does not allow it. */
bool confine(int directory);
/* Opens a descriptor anew, with other flags, also where /proc is out of reach by then. */
int open_anew(int descriptor, int flags);

#endif
