/* Two leaks on purpose, which the test has to see. */
#ifndef LEAKS_H
#define LEAKS_H

#include <stdint.h>

void leak_by_branch(const uint8_t *secret);
void leak_by_address(const uint8_t *secret);

#endif
