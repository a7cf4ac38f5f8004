/*
 * records.h - the writers and the decision's reader, on numbers in and just out of their ranges and rooms of any size.
 */
#ifndef RECORDS_H
#define RECORDS_H

void run_records(void);

#endif
