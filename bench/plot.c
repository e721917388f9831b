#include "plot.h"

#include <stdio.h>

/* Pixels. */
enum { WIDTH = 960, HEIGHT = 400, PANEL = 380, TALL = 260, LEFT = 70, GAP = 100, TOP = 50, MOST_TICKS = 8 };

/* The least of 1, 2, 2.5, 5 times a power of ten, MOST_TICKS of which reach a value. */
static double tick_for(double most)
{
    static const double steps[] = {1, 2, 2.5, 5};
    double power = 1e-6;
    for (;;) {
        for (size_t i = 0; i < sizeof steps / sizeof *steps; i++) {
            if (steps[i] * power * MOST_TICKS >= most) {
                return steps[i] * power;
            }
        }
        power *= 10;
    }
}

static double most_of(const struct plot_panel *panel)
{
    double most = 0;
    for (int l = 0; l < PLOT_LINES; l++) {
        for (int i = 0; i < PLOT_POINTS; i++) {
            if (panel->values[l][i] > most) {
                most = panel->values[l][i];
            }
        }
    }
    return most;
}

static void draw(FILE *out, const struct plot_panel *panel, const char *up, const struct plot_line lines[PLOT_LINES], int left)
{
    const double most = most_of(panel);
    const double tick = tick_for(most);
    int ticks = 1;
    while (tick * ticks < most) {
        ticks++;
    }
    const int bottom = TOP + TALL;
    fprintf(out, "<text x=\"%d\" y=\"%d\" font-weight=\"bold\">%s</text>\n", left, TOP - 20, panel->title);
    for (int i = 0; i <= ticks; i++) {
        const int y = bottom - i * TALL / ticks;
        fprintf(out, "<line x1=\"%d\" y1=\"%d\" x2=\"%d\" y2=\"%d\" stroke=\"#dddddd\"/>\n", left, y, left + PANEL, y);
        fprintf(out, "<text x=\"%d\" y=\"%d\" text-anchor=\"end\">%g</text>\n", left - 8, y + 4, tick * i);
    }
    for (int i = 0; i <= PLOT_POINTS; i += 8) {
        const int x = left + i * PANEL / PLOT_POINTS;
        fprintf(out, "<line x1=\"%d\" y1=\"%d\" x2=\"%d\" y2=\"%d\" stroke=\"#333333\"/>\n", x, bottom, x, bottom + 5);
        fprintf(out, "<text x=\"%d\" y=\"%d\" text-anchor=\"middle\">%d</text>\n", x, bottom + 20, i);
    }
    fprintf(out, "<polyline points=\"%d,%d %d,%d %d,%d\" fill=\"none\" stroke=\"#333333\"/>\n", left, TOP, left, bottom, left + PANEL, bottom);
    fprintf(out, "<text x=\"%d\" y=\"%d\" text-anchor=\"middle\">%s</text>\n", left + PANEL / 2, bottom + 40, panel->across);
    fprintf(out, "<text transform=\"translate(%d,%d) rotate(-90)\" text-anchor=\"middle\">%s</text>\n", left - 50, TOP + TALL / 2, up);
    for (int l = 0; l < PLOT_LINES; l++) {
        fprintf(out, "<polyline fill=\"none\" stroke=\"%s\" stroke-width=\"1.5\"%s points=\"", lines[l].colour,
                lines[l].dashed ? " stroke-dasharray=\"5 3\"" : "");
        for (int i = 0; i < PLOT_POINTS; i++) {
            fprintf(out, "%s%.1f,%.1f", i == 0 ? "" : " ", left + (i + 1.0) * PANEL / PLOT_POINTS, bottom - panel->values[l][i] / (tick * ticks) * TALL);
        }
        fprintf(out, "\"/>\n");
    }
}

int plot(const char *file, const char *up, const struct plot_line lines[PLOT_LINES], const struct plot_panel panels[2])
{
    FILE *out = fopen(file, "w");
    if (out == NULL) {
        return 1;
    }
    fprintf(out,
            "<svg xmlns=\"http://www.w3.org/2000/svg\" width=\"%d\" height=\"%d\" viewBox=\"0 0 %d %d\" font-family=\"sans-serif\" font-size=\"12\" "
            "fill=\"#222222\">\n",
            WIDTH, HEIGHT, WIDTH, HEIGHT);
    fprintf(out, "<rect width=\"%d\" height=\"%d\" fill=\"#ffffff\"/>\n", WIDTH, HEIGHT);
    for (int p = 0; p < 2; p++) {
        draw(out, &panels[p], up, lines, LEFT + p * (PANEL + GAP));
    }
    for (int l = 0; l < PLOT_LINES; l++) {
        const int x = LEFT + l * (WIDTH - 2 * LEFT) / PLOT_LINES;
        fprintf(out, "<line x1=\"%d\" y1=\"%d\" x2=\"%d\" y2=\"%d\" stroke=\"%s\" stroke-width=\"2\"%s/>\n", x, HEIGHT - 19, x + 30, HEIGHT - 19,
                lines[l].colour, lines[l].dashed ? " stroke-dasharray=\"5 3\"" : "");
        fprintf(out, "<text x=\"%d\" y=\"%d\">%s</text>\n", x + 38, HEIGHT - 15, lines[l].name);
    }
    fprintf(out, "</svg>\n");
    return fclose(out) == 0 ? 0 : 1;
}
