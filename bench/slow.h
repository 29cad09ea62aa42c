/* Families of days that are slow to settle where a search is begun anew for each path, or for each row. */
#ifndef SLOW_H
#define SLOW_H

#include "days.h"

/* Day `number` of one of the families from IN_MEAN on, as tables_of gives it. */
struct day slow_tables_of(unsigned family, unsigned rows, unsigned number);

#endif
