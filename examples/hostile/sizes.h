/*
 * sizes.h - every size of each lent buffer.
 */
#ifndef SIZES_H
#define SIZES_H

void run_sizes(void);

#endif
