/* Host code, not proved: how a number that a call returns of a job is taken apart, for order.h, needs.h and reason.h. */
#ifndef ORDER_REPLY_H
#define ORDER_REPLY_H

#include "order_limits.h"
#include "refusals.h"

#define ORDER_CODE(returned) ((unsigned)((returned) % ORDER_REPLY_RADIX))      /* 0 if the job was accepted */
#define ORDER_LINE(returned) ((unsigned long)((returned) / ORDER_REPLY_RADIX)) /* the refusal's, if it was not */

#endif
