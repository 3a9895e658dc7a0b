/* What was probably meant by a text that is refused: as other tools write it, told in the way of the registry, which judges it again. */
#ifndef REGISTRYD_MEANT_H
#define REGISTRYD_MEANT_H

#include "text.h"

/* Each writes what was meant by a text of a request line, which has nothing escaped; or tells that there is no telling, by 0. */
int meant_name(struct rest text, struct written *to);
int meant_version(struct rest text, struct written *to);
int meant_requirement(struct rest text, struct written *to);

#endif
