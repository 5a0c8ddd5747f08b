/* Speed of the bench call beside its peers, of traffic beside the bench call, and of a PDU beside traffic.
   bench inputs                 prints inputs for the second program
   bench measure EXPECTED PLOT  holds all calls to its output, then measures them, and writes a picture
   Exit 0: done; 1: a fault; 2: measured, and a bar is missed. */

#include <stdio.h>
#include <string.h>

#include "agree.h"
#include "curve.h"
#include "measure.h"
#include "plot.h"
#include "subjects.h"

static int measure_curves(const char *plot)
{
    static struct curve curves[CURVES];
    int count = curve_measure(curves);

    curve_print(curves, count);
    return plot_write(plot, curves, count);
}

int main(int count, char **words)
{
    if (count == 2 && strcmp(words[1], "inputs") == 0) {
        agree_print_inputs();
        return 0;
    }
    if (count == 4 && strcmp(words[1], "measure") == 0) {
        int missed;

        subjects_prepare();
        if (agree_check(words[2]) != 0 || measure_curves(words[3]) != 0)
            return 1;
        if (measure_slots() != 0 || measure_engine() > 0)
            return 1;
        missed = measure_pdu();
        if (missed < 0)
            return 1;
        return missed + measure_bench() + measure_traffic() > 0 ? 2 : 0;
    }
    fprintf(stderr, "usage: bench inputs | bench measure EXPECTED PLOT\n");
    return 1;
}
