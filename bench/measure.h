/* The measurement: interleaved batches of calls, their medians, and the bars. */

#ifndef MEASURE_H
#define MEASURE_H

/* Measures the bench call of all subjects and prints the table. Returns how many bars are missed. */
int measure_bench(void);

/* Measures the card's traffic beside its bench call, and prints a line for each length. Returns how many bars are
   missed. */
int measure_traffic(void);

/* Measures a PDU of two pieces beside traffic, and prints a line for each bar. Returns how many bars are missed, or -1 where
   it isn't the traffic of its pieces. */
int measure_pdu(void);

/* Measures load, read, move, clear and a refused call, and prints a line for each. They have no bar. Returns 1 if a call
   isn't answered as it must be. */
int measure_slots(void);

/* Measures the plain engine beside the bench call, and prints a line for each length. Returns how many lengths differ in
   what the two give. */
int measure_engine(void);

#endif
