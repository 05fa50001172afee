/* Put in front of the faulty library's files: of a library of hidden names, those of the interface are seen. */
#pragma GCC visibility push(default)
#include <shawm.h>
#pragma GCC visibility pop
