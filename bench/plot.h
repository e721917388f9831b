/* A plot of lines as SVG: two panels side by side, each with its own axes, and one legend. */
#ifndef PLOT_H
#define PLOT_H

#include <stddef.h>

enum { PLOT_POINTS = 64, PLOT_LINES = 4 };

struct plot_line {
    const char *name;
    const char *colour;
    int dashed;
};

struct plot_panel {
    const char *title;
    const char *across;
    /* The values of each line at 1 to PLOT_POINTS. */
    double values[PLOT_LINES][PLOT_POINTS];
};

/* Writes the file; 0 where that went well. */
int plot(const char *file, const char *up, const struct plot_line lines[PLOT_LINES], const struct plot_panel panels[2]);

#endif
