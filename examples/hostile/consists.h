/*
 * consists.h - consists with blocks, right ones and such as break one rule at its edge, for the judge, an opening and the writer.
 */
#ifndef CONSISTS_H
#define CONSISTS_H

#include <stdbool.h>

void run_consists(void);

/* Whether every kind of them was tried, and how many of each. */
bool consists_all_seen(void);
void consists_print(void);

#endif
