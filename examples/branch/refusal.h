/* What a refusal's number means, for the log. */
#ifndef BRANCH_REFUSAL_H
#define BRANCH_REFUSAL_H

const char *refusal_meaning(unsigned number);

#endif
