/* Host code, not proved: how many numbers an entry, a row and the waiting storage have, for the headers
   beside it. docs/REPLAY.md describes what they are. */
#ifndef ORDER_LAYOUT_H
#define ORDER_LAYOUT_H

/* Spans in the window. */
#define ORDER_SPANS 32

/* Numbers of an entry (value, added, accepted, parallelism with lane), and of a registration's row (added,
   accepted, written, order index, parallelism with lane). */
#define ORDER_ENTRY_NUMBERS 4
#define ORDER_ROW_NUMBERS 5

/* Parallelism and lane stand in one number: parallelism + ORDER_LANE_RADIX * lane, of 16 and 8 bits. */
#define ORDER_LANE_RADIX 65536

/* Numbers of the waiting storage for each place. */
#define ORDER_WAITING_NUMBERS 4

#endif
