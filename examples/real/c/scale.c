/* What area.c asks for. */
double scale(double value) { return value * 2.0; }
