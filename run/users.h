/* Kills the processes of a run once its service is lost. */
#ifndef BIM_RUN_USERS_H
#define BIM_RUN_USERS_H

#include "service.h"

/* Kills each process of the run once: the program, the connected clients, and all processes that have the service in
 * their environment or descend from bimphlai-run, if that is running. Returns false if none could be killed. */
bool users_kill(const struct service *service);

#endif
