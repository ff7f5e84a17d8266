/* The commands. Each answers its exit status; what it answers on standard output is not flushed yet. */
#ifndef NGULO_COMMANDS_H
#define NGULO_COMMANDS_H

#include "records.h"
#include "request.h"

/* Are there no more names than globals? Answers a status. */
int judge_names(const struct request *request, const struct records *block);

int command_check(const struct request *request);
int command_opt(const struct request *request);
int command_run(const struct request *request);
int command_list(const struct request *request);
int command_diff(const struct request *request);

#endif
